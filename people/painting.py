"""The commands `still` and `film`: a scene painted by the proved calls."""

import re

from people import check, film, files, pictures
from people.keys import LAST_FRAME
from people.painter import Painter


def still(words):
    out = words.output or files.named_after(words.scene, ".png")
    files.ask_for_folder(out)
    timeline = check.whole(words.scene)
    number = timeline.scene.still if words.frame is None else words.frame
    with Painter() as painter:
        pixels = film.paint(painter, timeline.frame(number), words.scene)
    image = pictures.of_pixels(pixels, timeline.scene.width, timeline.scene.height, words.zoom)
    files.write(out, pictures.png(image))
    if out != "-":
        print(f"The picture is {out}, frame {number}")


def span(text):
    """A..B, both included."""
    found = re.fullmatch(r"(\d+)\.\.(\d+)", text)
    first, last = (int(number) for number in found.groups()) if found else (1, 0)
    if not first <= last <= LAST_FRAME:
        raise ValueError(f"'{text}' is no span of frames; write FIRST..LAST, such as 0..119")
    return range(first, last + 1)


def frames_of(timeline, given):
    """The frames asked for, or all up to the last that changes anything."""
    return given or range(0, timeline.last() + 1)


def make_film(words):
    out = words.output or files.named_after(words.scene, ".webp")
    film.ask_for_form(out)
    timeline = check.whole(words.scene)
    wanted = frames_of(timeline, words.frames)
    width, height = timeline.scene.width * words.zoom, timeline.scene.height * words.zoom
    film.ask_for_room(out, len(wanted), width, height)
    with Painter() as painter:
        numbers = film.with_bar(wanted, len(wanted))
        images = ((number, _image(painter, timeline, number, words.zoom)) for number in numbers)
        print(film.save(out, images, words.rate))


def _image(painter, timeline, number, zoom):
    pixels = film.paint(painter, timeline.frame(number), timeline.scene.file)
    return pictures.of_pixels(pixels, timeline.scene.width, timeline.scene.height, zoom)
