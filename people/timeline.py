"""A scene at a frame number as a plain value: 52 words, the tables' bytes, the pictures' bytes. A table
whose bytes differ from the frame before stands in the bank that was not active, and word 3 names it, as
a host does it; the first ones stand in bank 1, since a fresh display shows bank 0."""

from bisect import bisect_right
from collections import namedtuple

from people import banks, drawing, registers
from people.fades import OPAQUE
from people.registers import ALPHA, FADE, KIND, PLACE, SIZE, START, at, word

Frame = namedtuple("Frame", "number words tables pictures")


class Timeline:
    """The frames of a scene."""

    def __init__(self, scene, first=0):
        self.scene = scene
        self.first = first
        self._loads = {layer.number: _loads(layer) for layer in scene.layers if layer.is_graphics}

    def last(self):
        """The last frame at which anything changes."""
        ends = self.scene.moments()
        for layer in self.scene.layers:
            for look, _, end in layer.spans():
                for moving in filter(None, (look.at, look.fade)):
                    stop = moving.start + moving.length
                    ends.append(stop if end is None else min(stop, end))
        return max(ends)

    def stations(self):
        """Frames between which layers only move on straight lines: what passes at these passes at all."""
        ends = {look.at.start + look.at.length for layer in self.scene.layers for _, look in layer.looks}
        starts = self.scene.moments()
        return sorted({*starts, *ends, *(start - 1 for start in starts if start)})

    def frame(self, number):
        return Frame(number, self.words(number), self._tables(number), self._pictures(number))

    def bank(self, layer, kind, number):
        """The active bank: it is 1 at the first frame, and each load turns it over."""
        loads = self._loads[layer.number][kind]
        return (1 + bisect_right(loads, number) - bisect_right(loads, self.first)) % 2

    def words(self, number):
        scene = self.scene
        screen = scene.screen(number)
        red, green, blue = screen["background"]
        words = [0] * registers.WORDS
        words[0] = word(0, on=int(screen["on"]), update=1)
        words[1] = word(1, width=scene.width, height=scene.height)
        words[2] = word(2, red=red, green=green, blue=blue)
        active = [0] * len(banks.KINDS)
        for layer in scene.layers:
            words[at(layer.number, 0) : at(layer.number + 1, 0)] = _layer_words(layer, number)
            if layer.is_graphics:
                for kind in range(len(banks.KINDS)):
                    active[kind] |= self.bank(layer, kind, number) << layer.number
        words[3] = word(3, **dict(zip(banks.KINDS, active)))
        return words

    def _tables(self, number):
        bits = self.scene.letters
        tables = bytearray(banks.tables_length(bits))
        for layer in self.scene.layers:
            if layer.is_graphics:
                for kind, data in enumerate(tables_at(layer, number)):
                    begin = banks.start(layer.number, kind, self.bank(layer, kind, number), bits)
                    tables[begin : begin + len(data)] = data
        return bytes(tables)

    def _pictures(self, number):
        """In rising layer number, of the enabled frame layers."""
        ordered = sorted(self.scene.layers, key=lambda layer: layer.number)
        looks = [layer.look(number) for layer in ordered if not layer.is_graphics]
        return b"".join(look.picture.data for look in looks if look.on)


def _layer_words(layer, number):
    look, n = layer.look(number), layer.number
    x, y = look.at.place(number)
    words = [0] * 6
    words[KIND] = word(at(n, KIND), enabled=int(look.on), graphics=int(layer.is_graphics), depth=look.depth)
    words[PLACE] = word(at(n, PLACE), x=x, y=y)
    words[SIZE] = word(at(n, SIZE), width=look.size[0], height=look.size[1])
    if look.alpha is not None:
        words[ALPHA] = word(at(n, ALPHA), alpha=look.alpha, **{"global": 1})
    elif look.fade and look.fade.kind == "card":
        words[ALPHA] = word(at(n, ALPHA), alpha=look.fade.first, **{"global": 1})
        words[START] = word(at(n, START), start=look.fade.start)
        words[FADE] = word(at(n, FADE), length=look.fade.length, target=look.fade.last)
    return words


def tables_at(layer, number):
    """A graphics layer's four tables; an ink fade is in the colours."""
    instructions, strings, font = drawing.lists(layer, layer.look(number))
    return instructions, _colours(layer, number), strings, font


def _colours(layer, number):
    look = layer.look(number)
    is_ink = look.fade and look.fade.kind == "ink"
    return layer.palette.table(look.colours, look.fade.value(number) if is_ink else OPAQUE)


def _loads(layer):
    """For each table, the frames at which its bytes differ from those of the frame before."""
    loads = [[] for _ in banks.KINDS]
    starts = [start for start, _ in layer.looks]
    before = tables_at(layer, 0)
    for start in starts[1:]:
        now = tables_at(layer, start)
        for kind in range(len(banks.KINDS)):
            if kind != banks.COLOURS and now[kind] != before[kind]:
                loads[kind].append(start)
        before = now
    before = _colours(layer, 0)
    for frame in sorted({*starts, *_ink_frames(layer)} - {0}):
        now = _colours(layer, frame)
        if now != before:
            loads[banks.COLOURS].append(frame)
        before = now
    return loads


def _ink_frames(layer):
    """The frames at which an ink fade steps, while its look lasts."""
    for look, start, end in layer.spans():
        if look.fade and look.fade.kind == "ink":
            for frame in look.fade.frames():
                if frame > start and (end is None or frame < end):
                    yield frame
