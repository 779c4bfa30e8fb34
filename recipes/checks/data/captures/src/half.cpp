template <class T> T half(T x) {
    return x > 1 ? x / 2 : x;
}
int main() {
    auto never = [](int x) {
        return 2 * x;
    };
    if (half(3) + half(0.5) > 9)
        return never(1);
    return 0;
}
