"""The pipe to the painter, the one program that makes the proved calls."""

import struct
import subprocess
from pathlib import Path

from people.faults import Fault
from people.registers import image_of, screen_of

SCRIPT = Path(__file__).with_name("painter.sh")
FRAME, MEND, NEW, LOAD, WRITE, START, SHOW = range(7)
KEPT = 0xFFFFFFFF


class Painter:
    """Begins at the first call and stays up from frame to frame, inside a `with`."""

    def __enter__(self):
        self._program = None
        self._sent = [None] * 3
        return self

    def __exit__(self, *_):
        if not self._program:
            return
        try:
            self._program.stdin.close()
        except BrokenPipeError:
            pass  # it has ended, which the call before has said
        self._program.stdout.close()
        self._program.wait()

    def _begin(self):
        try:
            self._program = subprocess.Popen(["bash", SCRIPT], stdin=subprocess.PIPE, stdout=subprocess.PIPE)
        except OSError as error:
            raise Fault("painter", f"cannot be run ({error.strerror}); install bash") from None

    def _call(self, call, number=0, value=0, buffers=(b"", b"", b"")):
        """An answer, a count and bytes. Buffers that are the same as before are not sent again."""
        if not self._program:
            self._begin()
        lengths, parts = [], []
        for at, buffer in enumerate(buffers):
            is_kept = buffer == self._sent[at]
            lengths.append(KEPT if is_kept else len(buffer))
            parts += [] if is_kept else [buffer]
        self._sent = list(buffers)
        try:
            self._program.stdin.write(struct.pack("<6I", call, number, value, *lengths) + b"".join(parts))
            self._program.stdin.flush()
        except BrokenPipeError:
            raise self._ended() from None
        answer, count, length = struct.unpack("<3I", self._read(12))
        return answer, count, self._read(length)

    def _read(self, length):
        data = self._program.stdout.read(length)
        if len(data) != length:
            raise self._ended()
        return data

    def _ended(self):
        return Fault("painter", "it ended before it answered; the lines above say why")

    def frame(self, frame):
        """The answer for a frame of a scene, and its pixels."""
        width, height = screen_of(frame.words)
        buffers = image_of(frame.words), frame.tables, frame.pictures
        answer, _, pixels = self._call(FRAME, frame.number, 4 * width * height, buffers)
        return answer, pixels

    def mend(self, image):
        """The answer, the mended image, and for each changed word register, old and new value."""
        answer, count, data = self._call(MEND, buffers=(image, b"", b""))
        numbers = struct.unpack(f"<{3 * count}I", data[len(image) :])
        return answer, data[: len(image)], [numbers[3 * i : 3 * i + 3] for i in range(count)]

    # ---- a kept display, as the sheet program has it

    def new(self, bits):
        return self._call(NEW, bits)[0]

    def load(self, selection, data):
        """The answer, and how many bytes were put."""
        return self._call(LOAD, selection, buffers=(data, b"", b""))[:2]

    def write(self, register, value):
        return self._call(WRITE, register, value)[0]

    def start(self):
        return self._call(START)[0]

    def show(self, pictures, output):
        """The answer, the error word and the pixels, with so many bytes lent."""
        return self._call(SHOW, output, buffers=(b"", b"", pictures))
