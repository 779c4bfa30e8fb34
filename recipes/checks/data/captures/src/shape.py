"""A shape."""


class Shape:
    @property
    def size(self):
        return self.wide

    @size.setter
    def size(self, wide):
        if check(wide) and wide > 1:
            self.wide = wide
        return None


def check(x):
    if x < 0:
        raise ValueError(x)
    return True


s = Shape()
s.size = 3
try:
    s.size = -1
except ValueError:
    pass
