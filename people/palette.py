"""The colour table of a layer: its named colours, three shades each for soft letters, at a fade's value."""

from collections import namedtuple

from people import kinds

CLEAR = "clear"  # colour 0: what is not drawn on
_SEE_THROUGH = (0, 0, 0, 0)

Slot = namedtuple("Slot", "name shade")
FULL = 2  # the shade of a whole pixel, and of boxes


class Palette:
    """Places in the colour table, for all looks of a layer. A text of soft letters needs three in a
    row, since a pixel's values 1, 2 and 3 give the text colour and the two after it."""

    def __init__(self, named, inked, letters):
        self.slots = [Slot(CLEAR, FULL)]
        self._text_at, self._box_at = {CLEAR: 0}, {CLEAR: 0}
        for name in named:
            if name == CLEAR:
                continue
            shades = (0, 1, FULL) if letters == 2 and name in inked else (FULL,)
            self._text_at[name] = len(self.slots)
            self.slots += [Slot(name, shade) for shade in shades]
            self._box_at[name] = len(self.slots) - 1

    def index(self, item):
        return (self._text_at if item.text is not None else self._box_at)[item.colour]

    def table(self, colours, value):
        """The colour table's bytes, with each alpha at so many 255ths of its own."""
        return b"".join(_shaded(colours, slot, value) for slot in self.slots)


def _shaded(colours, slot, value):
    if slot.name.startswith("#"):
        colour = kinds.COLOUR.read(slot.name)
    else:
        colour = colours.get(slot.name, _SEE_THROUGH)
    if isinstance(colour[0], tuple):
        colour = colour[slot.shade]
    elif slot.shade != FULL:
        colour = (*colour[:3], (colour[3] * (slot.shade + 1) + 1) // 3)
    return bytes((*colour[:3], (colour[3] * value + 127) // 255))
