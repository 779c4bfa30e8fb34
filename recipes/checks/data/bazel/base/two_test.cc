// Two calls of clamp, below and above. Two instances of Pair: the larger is b, and a.
#include "base/base.h"
int main() {
    Pair<int> p{1, 2};
    Pair<double> q{2.5, 1.5};
    return clamp(0, 1, 3) == 1 && clamp(5, 1, 3) == 3 && p.larger() == 2 && q.larger() == 2.5 ? 0 : 1;
}
