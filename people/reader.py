"""Reads layers and changes from a scene's tables."""

from functools import partial

from people import drawing, keys, pictures
from people.fades import FIXED, OPAQUE, Fade, Slide
from people.faults import Fault
from people.looks import Layer, Look, append
from people.palette import CLEAR


def _placed(at, values, picture):
    """A look with nothing but its place: the layer stands at this place among the others."""
    return Look(
        on=values.get("on", True),
        at=Slide.fixed(values.get("at", (0, 0))),
        size=picture.size if picture else values["size"],
        depth=values.get("depth", values.get("number", at)),
        alpha=None,
        fade=None,
        picture=picture,
        colours={},
        items=(),
    )


class Reader:
    """Reads the layers of these names and their changes; what is wrong goes to the notes."""

    def __init__(self, notes, folder, names):
        self.notes = notes
        self.folder = folder
        self.names = names
        self.hulls = []  # of the layers that could not be made, those of which it is known where they lie

    # ---- layers

    def layer(self, at, table):
        """A layer with its first look; None where it cannot be made."""
        has_name = isinstance(table.get("name"), str)
        where = f'layer "{table["name"]}"' if has_name else f"layer {at}"
        before = len(self.notes.faults)
        values = keys.read(self.notes, "layer", where, table)
        is_graphics = any(key in table for key in ("draw", "colours", "font"))
        self._ask_for_kind(where, table, is_graphics)
        picture = self._picture(where, values.get("picture"))
        self._ask_for_size(where, values, table, picture)
        fade = self._first_fade(where, values, table, is_graphics)
        items = drawing.read(self.notes, where, values.get("draw", []), values.get("colours", {}))
        colours = drawing.read_colours(self.notes, where, values.get("colours", {}))
        if len(self.notes.faults) > before:
            self._keep_hull(at, where, table, values, picture)
            return None
        look = _placed(at, values, picture)._replace(
            alpha=values.get("alpha"), fade=fade, colours=colours, items=items
        )
        name, number = values.get("name", where), values.get("number", at)
        return Layer(name, where, number, is_graphics, look, values.get("font", "spoonwing"))

    def _keep_hull(self, at, where, table, values, picture):
        """So that a layer's own faults do not hide those that it has with the screen and with others."""
        known = all(key in keys.names("layer") for key in table)  # a misspelt one may be one of these
        placed = all(key in values for key in ("number", "on", "at", "depth") if key in table)
        if known and placed and (picture or "size" in values):
            name, number = values.get("name", where), values.get("number", at)
            look = _placed(at, values, picture)
            self.hulls.append(Layer(name, where, number, not picture, look, "spoonwing"))

    def _ask_for_kind(self, where, table, is_graphics):
        if "picture" in table and is_graphics:
            other = next(key for key in ("draw", "colours", "font") if key in table)
            self.notes.fault(f"{where}: picture", f"stands beside {other}; write two layers, one for each")
        if "picture" not in table and not is_graphics:
            cure = 'write picture = "FILE.png", or [[layer.draw]] with a box or a text'
            self.notes.fault(where, f"has nothing to show; {cure}")

    def _ask_for_size(self, where, values, table, picture):
        if picture and "size" in values and values["size"] != picture.size:
            what = f"is {list(values['size'])}, and the picture {list(picture.size)}"
            self.notes.fault(f"{where}: size", f"{what}; pictures are not scaled: leave it out")
        if "picture" not in table and "size" not in table:
            self.notes.fault(f"{where}: size", "is missing; write size = [width, height]")

    def _picture(self, where, name):
        try:
            return pictures.load(self.folder, name) if name else None
        except Fault as fault:
            self.notes.fault(f"{where}: picture", str(fault))
            return None

    # ---- fades

    def _first_fade(self, where, values, table, is_graphics):
        if "fading" in values and "fade" not in table:
            self.notes.fault(f"{where}: fading", 'has no fade; write fade = "card" or fade = "ink"')
        if "fade" in table and "fading" not in table:
            self.notes.fault(f"{where}: fade", "has no time; write fading = { start = 0, length = 60 }")
        if "fade" not in values or "fading" not in values:
            return None
        return self._fade(where, values, values["fade"], is_graphics, 0, lambda start: 0)

    def _fade(self, where, values, kind, is_graphics, frame, reached):
        """The fade that a layer or a change asks for, from `frame` on unless told, and from the value that
        was reached."""
        if "alpha" in values:
            what = "stands beside a fade; write fading.from and fading.to, and no alpha"
            self.notes.fault(f"{where}: alpha", what)
        if kind == "ink" and not is_graphics:
            what = '"ink" is for boxes and texts; write fade = "card" for a picture'
            self.notes.fault(f"{where}: fade", what)
        times = keys.read(self.notes, "fading", f"{where}: fading", values["fading"], needed=["length"])
        start = times.get("start", frame)
        first = times.get("from", reached(start))
        return Fade(kind, first, times.get("to", OPAQUE), start, times.get("length", 1))

    # ---- changes

    def in_order(self, changes):
        """The changes with their places in the file, those of earlier frames first."""
        numbered = list(enumerate(changes, 1))
        return sorted(numbered, key=lambda pair: pair[1]["frame"] if type(pair[1].get("frame")) is int else 0)

    def change(self, scene, number, table):
        where = f"change {number}"
        values = keys.read(self.notes, "change", where, table, needed=["frame"])
        if "frame" not in values:
            return
        mine = {"background", "on"} if "layer" not in table else set(keys.names("change")) - {"background"}
        for key in sorted(set(values) - mine - {"frame", "layer"}):
            theirs = "is the screen's; leave layer out", 'is a layer\'s; write layer = "NAME" too'
            self.notes.fault(f"{where}: {key}", theirs["layer" not in table])
        if "layer" not in table:
            screen = {key: values[key] for key in mine if key in values}
            append(scene.screens, values["frame"], {**scene.screens[-1][1], **screen})
        elif "layer" in values:
            layer = self._layer_of(scene, where, values["layer"])
            if layer:
                self._change_layer(layer, f"{where} ({layer.where})", values)

    def _layer_of(self, scene, where, wanted):
        for layer in scene.layers:
            if wanted in (layer.name, layer.number):
                return layer
        if wanted in self.names or wanted in range(len(self.names)):
            return None  # what is wrong in that layer is told there
        known = [layer.name for layer in scene.layers]
        hint = keys.nearest(str(wanted), known) if known else "write [[layer]] first"
        self.notes.fault(f"{where}: layer", f'there is no "{wanted}"; {hint}')
        return None

    def _change_layer(self, layer, where, values):
        look, before = layer.looks[-1][1], len(self.notes.faults)
        frame = values["frame"]
        new = {key: values[key] for key in ("on", "depth") if key in values}
        if "over" in values and "at" not in values:
            self.notes.fault(f"{where}: over", "has nowhere to go; write at = [x, y] too")
        if "at" in values:
            new["at"] = Slide(look.at.place(frame), values["at"], frame, values.get("over", FIXED))
        new |= self._new_picture(layer, where, values) | self._new_drawing(layer, look, where, values)
        new |= self._new_alpha(layer, look, where, values)
        if len(self.notes.faults) == before:
            append(layer.looks, frame, look._replace(**new))

    def _new_alpha(self, layer, look, where, values):
        if "fade" in values or "fading" in values:
            kind = values.get("fade") or (look.fade and look.fade.kind)
            if not kind:
                what = 'the layer has no fade yet; write fade = "card" or fade = "ink"'
                self.notes.fault(f"{where}: fading", what)
            elif "fading" not in values:
                self.notes.fault(f"{where}: fade", "has no time; write fading = { to = 0, length = 60 }")
            else:
                reached = partial(_reached, look, kind)
                fade = self._fade(where, values, kind, layer.is_graphics, values["frame"], reached)
                return {"fade": fade, "alpha": None}
        return {"alpha": values["alpha"], "fade": None} if "alpha" in values else {}

    def _new_picture(self, layer, where, values):
        if "picture" not in values:
            return {}
        if layer.is_graphics:
            self.notes.fault(f"{where}: picture", "the layer has a list; write another layer for the picture")
        picture = self._picture(where, values["picture"])
        return {"picture": picture, "size": picture.size} if picture else {}

    def _new_drawing(self, layer, look, where, values):
        new = {}
        for key in ("draw", "colours"):
            if key in values and not layer.is_graphics:
                what = "the layer has a picture; write another layer for boxes and texts"
                self.notes.fault(f"{where}: {key}", what)
        if "draw" in values:
            new["items"] = drawing.read(self.notes, where, values["draw"], look.colours)
        if "colours" in values:
            colours = drawing.read_colours(self.notes, where, values["colours"])
            for name in sorted(set(colours) - set(look.colours) - {CLEAR}):
                what = f"the layer has no such colour; {keys.nearest(name, [CLEAR, *look.colours])}"
                self.notes.fault(f"{where}: colours: {name}", what)
            new["colours"] = {**look.colours, **colours}
        return new


def _reached(look, kind, frame):
    """The value at which a fade of a kind finds a layer."""
    if look.fade and look.fade.kind == kind:
        return look.fade.value(frame)
    return look.alpha if kind == "card" and look.alpha is not None else OPAQUE
