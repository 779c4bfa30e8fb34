def half(x):
    if x > 1:
        return x // 2
    return x


def never(x):
    return [y for y in range(x)]


class Shape:
    def area(self):
        return half(3)


Shape().area()
