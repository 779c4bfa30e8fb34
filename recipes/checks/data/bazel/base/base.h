#pragma once
int clamp(int n, int low, int high);
int never(int n);
template <class T> struct Pair {
    T a, b;
    T larger() const {
        if (a < b)
            return b;
        return a;
    }
};
