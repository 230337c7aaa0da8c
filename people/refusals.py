"""What a start refuses in 52 words, all of it and in the display's order, in words; and what passes but
has no effect. The display itself is asked too: this only names what it says by a number."""

from collections import namedtuple

from people.kinds import either
from people.registers import ALPHA, FADE, KIND, LAYERS, MOST_SIDE, PLACE, SIZE, WORDS
from people.registers import at, fields, layer_of, reserved_bits, screen_of, title

# `layer` is None for the screen, and `part` the key that a scene has for it.
Refusal = namedtuple("Refusal", "number layer part what")


def of_words(words, called="layer {}".format):
    """All refusals; the display answers the first one's number. `called` names a layer by its number."""
    return [*_reserved(words), *_kinds(words), *_screen(words), *_layers(words), *_depths(words, called)]


def _part(words, layer, part):
    return fields(at(layer, part), words[at(layer, part)])


def _enabled(words):
    return [layer for layer in range(LAYERS) if _part(words, layer, KIND)["enabled"]]


def _said(register, words):
    return f"register {register} ({title(register)}) is {words[register]:08X}"


def _reserved(words):
    for register in range(WORDS):
        bits = reserved_bits(register, words[register])
        if bits:
            said = f"bit {bits[0]}" if len(bits) == 1 else f"bits {', '.join(map(str, bits))}"
            what = f"{_said(register, words)}; clear {said}, which has no meaning"
            yield Refusal(7, layer_of(register), "reserved", what)


def _kinds(words):
    for layer in range(LAYERS):
        kind = _part(words, layer, KIND)
        if kind["floats"]:
            why = "bit 1 is set too" if kind["graphics"] else "only kept displays take it"
            what = f"{_said(at(layer, KIND), words)}; clear bit 2 (float picture): {why}"
            yield Refusal(7, layer, "kind", what)


def _screen(words):
    width, height = screen_of(words)
    if not width or not height:
        yield Refusal(8, None, "size", f"the screen is {width} by {height}; write 1 to {MOST_SIDE} for each")


def _layers(words):
    for layer in _enabled(words):
        size, place = _part(words, layer, SIZE), _part(words, layer, PLACE)
        if not size["width"] or not size["height"]:
            what = f"it is {size['width']} by {size['height']}; write 1 to {MOST_SIDE} for each, or switch it off"
            yield Refusal(9, layer, "size", what)
            continue
        yield from _beyond(layer, "x", place["x"], "width", size["width"], screen_of(words)[0])
        yield from _beyond(layer, "y", place["y"], "height", size["height"], screen_of(words)[1])


def _beyond(layer, axis, place, side, length, screen):
    if place + length > screen:
        last = f"0 to {screen - length}" if length < screen else "0"
        cure = f"write {axis} {last}" if length <= screen else f"write a {side} of 1 to {screen}"
        what = f"{axis} {place} and {side} {length} end at {place + length}, and the screen at {screen}; {cure}"
        yield Refusal(10, layer, "at" if length <= screen else "size", what)


def _depths(words, called):
    holders = {}
    for layer in _enabled(words):
        holders.setdefault(_part(words, layer, KIND)["depth"], []).append(layer)
    free = [str(depth) for depth in range(LAYERS) if depth not in holders]
    for depth, layers in holders.items():
        for layer in layers[1:]:
            what = f"{depth} is the depth of {called(layers[0])} too; write a free one, {either(free)}"
            yield Refusal(11, layer, "depth", what)


def without_effect(words):
    """Pairs of a layer and what a designer may have meant otherwise; None for the screen."""
    switches = fields(0, words[0])
    if not switches["update"]:
        yield None, "the update bit (bit 2 of register 0) is clear: a kept display takes nothing over; set it"
    if not switches["on"]:
        yield None, "the display is off (bit 0 of register 0): only the background is shown"
    for layer in _enabled(words):
        alpha, fade = _part(words, layer, ALPHA), _part(words, layer, FADE)
        switch = f"without global alpha; set bit 31 of register {at(layer, ALPHA)}"
        if alpha["alpha"] and not alpha["global"]:
            yield layer, f"alpha {alpha['alpha']} has no effect {switch}"
        if fade["length"] and not alpha["global"]:
            yield layer, f"the fade has no effect {switch}"
        if fade["target"] and not fade["length"]:
            length = f"with length 0; write a length to register {at(layer, FADE)}"
            yield layer, f"fade target {fade['target']} has no effect {length}"
