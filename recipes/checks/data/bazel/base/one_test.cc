// One call of clamp, between. One instance of Pair: the larger is a.
#include "base/base.h"
int main() {
    Pair<int> p{4, 3};
    return clamp(2, 1, 3) == 2 && p.larger() == 4 ? 0 : 1;
}
