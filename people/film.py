"""Painted frames as files: a still, numbered PNGs, a GIF or a WebP, with a bar on long work."""

import io
import sys
import time
from pathlib import Path

from people import files, pictures
from people.answers import named
from people.faults import Fault, say

RATE = 60
FORMS = (".gif", ".webp", ".png")
MOST_MEMORY = 1 << 30  # bytes of frames that a GIF or a WebP is made of at once
_GIF_TICK = 10  # milliseconds; browsers hold a frame for at least two ticks
_GIF_RATE = 50


def paint(painter, frame, file):
    """A frame's pixels; a refusal is a fault that says its number."""
    answer, pixels = painter.frame(frame)
    if answer:
        what = f"frame {frame.number} is refused with {named(answer)}; `spoonwing check {file}` says why"
        raise Fault(file, what)
    return pixels


class Bar:
    """Progress on a terminal, once the work has taken a second."""

    def __init__(self, total):
        self.total = total
        self.begun = time.monotonic()
        self.is_shown = False

    def step(self, done):
        if sys.stderr and sys.stderr.isatty() and time.monotonic() - self.begun > 1:
            filled = 40 * done // self.total
            self.is_shown = True
            print(f"\r[{'#' * filled:.<40}] {done} of {self.total}", end="", file=sys.stderr, flush=True)

    def end(self):
        if self.is_shown:
            print(file=sys.stderr, flush=True)


def with_bar(frames, total):
    bar = Bar(total)
    try:
        for done, frame in enumerate(frames, 1):
            yield frame
            bar.step(done)
    finally:
        bar.end()


def ask_for_form(path):
    """What a film's name may end in is asked before anything is painted."""
    files.ask_for_folder(path)
    if path == "-" or Path(path).suffix.lower() not in FORMS:
        raise Fault(path, "a film is a file that ends in .gif, .webp or .png; name one with -o")


def ask_for_room(path, count, width, height):
    need = 3 * width * height * count
    if Path(path).suffix.lower() != ".png" and need > MOST_MEMORY:
        fits = MOST_MEMORY // (3 * width * height)
        what = f"{count} frames of {width} by {height} are too many for one file"
        raise Fault(path, f"{what}; write at most {fits}, or a name in .png")


def save(path, images, rate):
    """Writes the film, and says what it is. `images` are pairs of a frame number and an image."""
    form = Path(path).suffix.lower()
    if form == ".png":
        return _save_numbered(path, images)
    if form == ".gif":
        kept = _gif_frames(images, rate)
        more = {"duration": _times(len(kept), min(rate, _GIF_RATE), _GIF_TICK), "optimize": False}
    else:
        kept = [image for _, image in images]
        more = {"duration": _times(len(kept), rate, 1), "lossless": True, "method": 1}
    data = io.BytesIO()
    kept[0].save(data, form[1:], save_all=True, append_images=kept[1:], loop=0, **more)
    files.write(path, data.getvalue())
    return f"The film is {path}, {_frames(len(kept))}"


def _frames(count):
    return f"{count} frame{'s' * (count != 1)}"


def _times(count, rate, tick):
    """Milliseconds for each frame, in whole ticks, that keep to the rate over the film."""
    ends = [round(1000 * at / rate / tick) for at in range(count + 1)]
    return [tick * (end - begin) for begin, end in zip(ends, ends[1:])]


def _gif_frames(images, rate):
    """A GIF has 256 colours a frame and at most 50 frames a second; frames are left out to keep time."""
    kept, left, is_reduced = [], 0, False
    for place, (_, image) in enumerate(images):
        if rate > _GIF_RATE and place * _GIF_RATE // rate == (place - 1) * _GIF_RATE // rate:
            left += 1
            continue
        is_reduced = is_reduced or image.getcolors(256) is None
        kept.append(image.quantize(256))
    if left:
        say(f"warning: a GIF has at most {_GIF_RATE} frames a second: {_frames(left)} left out; .webp has all")
    if is_reduced:
        say("warning: a GIF has 256 colours a frame and this film has more; .webp has them exactly")
    return kept


def _save_numbered(path, images):
    names = []
    for number, image in images:
        names.append(f"{Path(path).with_suffix('')}-{number:05d}.png")
        files.write(names[-1], pictures.png(image))
    return f"The film is {names[0]} to {names[-1]}, {_frames(len(names))}"
