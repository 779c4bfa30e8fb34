#include "base/base.h"
#include "extlib.h"
int clamp(int n, int low, int high) {
    if (n < low)
        return low;
    if (n > high)
        return high;
    return same(n);
}
int never(int n) {
    return n + 1;
}
