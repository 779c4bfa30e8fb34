static int twice(int x) {
    if (x > 2 && x < 6)
        return 2 * x;
    return x;
}
int never(int x) {
    return x;
}
int main(void) {
    return twice(3) + twice(1) == 7 ? 0 : 1;
}
