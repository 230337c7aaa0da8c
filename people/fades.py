"""Values that go from one to another over some frames: fades, which the display works out itself for
whole cards, and slides."""

from collections import namedtuple

FIXED = 0  # the length of what jumps
OPAQUE = 255


def between(first, last, start, length, frame):
    """The display's own rule for a fade, rounded as there."""
    passed = frame - start
    if length == FIXED:
        return last if passed >= 0 else first
    if passed < 0:
        return first
    if passed >= length:
        return last
    return (first * (length - passed) + last * passed + length // 2) // length


class Fade(namedtuple("Fade", "kind first last start length")):
    """`card` or `ink`, from one value to another."""

    def value(self, frame):
        return between(self.first, self.last, self.start, self.length, frame)

    def frames(self):
        """The frames at which its value may be another than before."""
        return range(self.start + 1, self.start + self.length + 1)


class Slide(namedtuple("Slide", "first last start length")):
    """A layer's corner on its way, or where it stands."""

    @classmethod
    def fixed(cls, place):
        return cls(place, place, 0, FIXED)

    def place(self, frame):
        return tuple(between(a, b, self.start, self.length, frame) for a, b in zip(self.first, self.last))
