#include "extlib.h"
int same(int n) {
    return n;
}
