"""A scene as values: the screen, its layers, and how each looks from which frame on."""

from collections import namedtuple

# A layer from some frame on. A frame layer has a picture, a graphics layer colours and items.
Look = namedtuple("Look", "on at size depth alpha fade picture colours items")


class Layer:
    """Looks are pairs of a frame and the look from there on, the first from frame 0. A graphics layer
    gets its font and its palette once all its looks are known."""

    def __init__(self, name, where, number, is_graphics, look, font_name):
        self.name = name
        self.where = where  # as messages have it
        self.number = number
        self.is_graphics = is_graphics
        self.looks = [(0, look)]
        self.font_name = font_name
        self.font = None
        self.palette = None

    def look(self, frame):
        return [look for start, look in self.looks if start <= frame][-1]

    def spans(self):
        """Each look with its first frame and the first one of the look after it, or None."""
        ends = [start for start, _ in self.looks[1:]] + [None]
        return [(look, start, end) for (start, look), end in zip(self.looks, ends)]


class Scene:
    """`screens` are pairs of a frame and the screen's values from there on."""

    def __init__(self, file, size, letters, still, screen, layers):
        self.file = file
        self.width, self.height = size
        self.letters = letters
        self.still = still
        self.screens = [(0, screen)]
        self.layers = layers

    def screen(self, frame):
        return [screen for start, screen in self.screens if start <= frame][-1]

    def moments(self):
        """The frames at which anything may be set anew."""
        every = [self.screens, *(layer.looks for layer in self.layers)]
        return sorted({start for looks in every for start, _ in looks})


def append(looks, frame, look):
    """A change of the same frame as the last takes its place."""
    if looks[-1][0] == frame:
        looks[-1] = (frame, look)
    else:
        looks.append((frame, look))
