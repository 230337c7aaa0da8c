"""What a graphics layer draws: boxes and texts by their meaning, as instructions, strings and a palette."""

from collections import namedtuple

from people import banks, fonts, keys, kinds
from people.faults import Fault
from people.palette import CLEAR, Palette

Item = namedtuple("Item", "where box weight text at scale colour")


# ---- reading


def read(notes, where, draws, colours):
    """The items of a list, for a layer with colours of these names."""
    items = tuple(_item(notes, f"{where}: draw {number}", table) for number, table in enumerate(draws, 1))
    if len(items) > banks.MOST_INSTRUCTIONS:
        what = f"has {len(items)} entries, and {banks.MOST_INSTRUCTIONS} pass; draw fewer, or in a second layer"
        notes.fault(f"{where}: draw", what)
    different = strings(items)
    if len(different) > banks.MOST_STRINGS:
        what = f"has {len(different)} different texts, and {banks.MOST_STRINGS} pass"
        notes.fault(f"{where}: draw", f'{what}; write "{different[-1]}" in a second layer')
    for item in items:
        _ask_for_colour(notes, item, [CLEAR, *colours])
    return items


def _item(notes, where, table):
    values = keys.read(notes, "draw", where, table, needed=["colour"])
    if "box" in table and "text" in table:
        notes.fault(where, "has a box and a text; write an entry for each")
        return Item(where, *(None,) * 6)
    if "box" not in table and "text" not in table:
        notes.fault(where, "draws nothing; write box = or text =")
    kind, strange = ("box", ("at", "scale")) if "box" in table else ("text", ("weight",))
    for key in strange:
        if key in table:
            notes.fault(f"{where}: {key}", f"a {kind} has none; leave it out")
    if kind == "text" and "text" in table and "at" not in table:
        notes.fault(f"{where}: at", "is missing; write at = [x, y], from the layer's corner on")
    _ask_for_box(notes, where, values)
    _ask_for_text(notes, where, values)
    names = ("box", "weight", "text", "at", "scale", "colour")
    return Item(where, *(values.get(name) for name in names))


def _ask_for_box(notes, where, values):
    left, top, right, bottom = values.get("box", (0, 0, 0, 0))
    if left > right or top > bottom:
        what = f"{list(values['box'])} ends before it begins"
        notes.fault(f"{where}: box", f"{what}; write [left, top, right, bottom], the smaller number first")


def _ask_for_text(notes, where, values):
    words = values.get("text") or ""
    most = banks.STRING_LENGTH
    if len(words) > most:
        cure = f'write two entries, the second from "{words[most:][:12]}" on'
        notes.fault(f"{where}: text", f"has {len(words)} letters, and {most} pass; {cure}")
    for letter in dict.fromkeys(words):
        if ord(letter) not in fonts.CODES:
            what = f"no font has {fonts.name_of(letter)}; write letters of ASCII, from space to ~"
            notes.fault(f"{where}: text", what)


def _ask_for_colour(notes, item, known):
    if item.colour is None or item.colour in known:
        return
    if not item.colour.startswith("#"):
        what = f'the layer has no colour "{item.colour}"; {keys.nearest(item.colour, known)}, or "#RRGGBBAA"'
        notes.fault(f"{item.where}: colour", what)
        return
    try:
        kinds.COLOUR.read(item.colour)
    except ValueError as wrong:
        notes.fault(f"{item.where}: colour", f"{wrong}; write {kinds.COLOUR.said}")


def read_colours(notes, where, table):
    """Named colours: one value each, or three shades."""
    colours = {}
    for name, value in table.items():
        try:
            colours[name] = kinds.SHADES.read(value)
        except ValueError as wrong:
            what = f"{wrong}; write {kinds.SHADES.said}"
            if name in keys.names("layer"):
                what += f"; if the layer's {name} is meant, write it above [layer.colours]"
            notes.fault(f"{where}: colours: {name}", what)
    return colours


# ---- a layer as tables


def settle(notes, layer, letters, folder):
    """Gives a layer its palette and its font, and says whether all that it draws fits."""
    before = len(notes.faults)
    if not layer.is_graphics:
        return True
    items = [item for _, look in layer.looks for item in look.items]
    _ask_for_shades(notes, layer, items, letters)
    named = dict.fromkeys([*layer.looks[0][1].colours, *(item.colour for item in items if item.colour)])
    inked = {item.colour for item in items if item.text is not None}
    layer.palette = Palette(named, inked, letters)
    if len(layer.palette.slots) > banks.MOST_COLOURS:
        soft = " (a text of soft letters takes three)" if letters == 2 else ""
        what = f"need {len(layer.palette.slots)} places with {CLEAR}{soft}, and there are {banks.MOST_COLOURS}"
        notes.fault(f"{layer.where}: colours", f"{what}; use fewer, or a second layer")
    layer.font = _font(notes, layer, items, letters, folder)
    for _, look in layer.looks:
        _ask_for_room(notes, layer, look)
    return len(notes.faults) == before


def _ask_for_shades(notes, layer, items, letters):
    for _, look in layer.looks:
        for name, colour in look.colours.items():
            if isinstance(colour[0], tuple) and (letters == 1 or name == CLEAR):
                cure = "write one colour, or letters = 2 under [screen]"
                notes.fault(
                    f"{layer.where}: colours: {name}", f"three shades are for texts of soft letters; {cure}"
                )
    for item in items:
        if letters == 2 and item.text is not None and item.colour == CLEAR:
            what = f"soft letters need three shades and {CLEAR} is one; name another colour"
            notes.fault(f"{item.where}: colour", what)


def _font(notes, layer, items, letters, folder):
    texts = [item for item in items if item.text is not None]
    if not texts:
        return None
    try:
        font = fonts.load(layer.font_name, letters, folder)
    except Fault as fault:
        notes.fault(f"{layer.where}: font", str(fault))
        return None
    for item in texts:
        for letter in dict.fromkeys(item.text):
            if ord(letter) in fonts.CODES and not font.has(letter):
                what = f"the font {font.name} has no {fonts.name_of(letter)}; it is left blank"
                notes.warn(f"{item.where}: text", what)
    return font


def _ask_for_room(notes, layer, look):
    """What is drawn otherwise than it may be meant is a warning."""
    if len(look.items) == banks.MOST_INSTRUCTIONS:
        what = f"{len(look.items)} entries leave no room for END: a display sets error bit {4 * layer.number}"
        notes.warn(f"{layer.where}: draw", f"{what}; draw {len(look.items) - 1}")
    for item in look.items:
        _ask_for_edges(notes, item, *look.size)
    _ask_for_card(notes, layer, look)


def _ask_for_edges(notes, item, width, height):
    if item.box:
        _, _, right, bottom = item.box
        if right >= width or bottom >= height:
            what = f"{list(item.box)} goes past the layer of {width} by {height} and is cut there"
            notes.warn(f"{item.where}: box", f"{what}; its last pixel is [{width - 1}, {height - 1}]")
    elif item.at and item.text:
        cell = banks.CELL * (item.scale or 1)
        right, bottom = item.at[0] + cell * len(item.text), item.at[1] + cell
        if right > width or bottom > height:
            what = f"it needs {right} by {bottom} pixels and the layer has {width} by {height}: it is cut"
            notes.warn(f"{item.where}: text", f"{what}; make the layer larger or the text smaller")


def _ask_for_card(notes, layer, look):
    """With one alpha for all, what is not drawn on shows too, and it is black unless it is said."""
    has_card = look.alpha is not None or (look.fade and look.fade.kind == "card")
    right, bottom = look.size[0] - 1, look.size[1] - 1
    filled = [item.box for item in look.items if item.box and not item.weight]
    is_covered = any(box[:2] == (0, 0) and box[2] >= right and box[3] >= bottom for box in filled)
    if has_card and CLEAR not in look.colours and not is_covered:
        what = "one alpha for the whole layer shows what is not drawn on too, in black"
        notes.warn(layer.where, f'{what}; write {CLEAR} = "#RRGGBB" in its colours, or fade = "ink"')


def strings(items):
    """The different texts, in their order."""
    return list(dict.fromkeys(item.text for item in items if item.text is not None))


def lists(layer, look):
    """Its instructions, strings and font as bytes, up to what is used."""
    texts = strings(look.items)
    return (
        b"".join(banks.packed(_instruction(layer, item, texts)) for item in look.items),
        b"".join(text.encode("ascii").ljust(banks.STRING_LENGTH, b"\0") for text in texts),
        layer.font.glyphs if layer.font else b"",
    )


def _instruction(layer, item, texts):
    colour = layer.palette.index(item)
    if item.box:
        return banks.box(*item.box, item.weight or 0, colour)
    return banks.text(*item.at, item.scale or 1, texts.index(item.text), colour)
