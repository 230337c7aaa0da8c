"""The sheet program's display: a line's loads and writes, its start and its frame, step by step, so that
the step that is refused can be told."""

from people import banks, form, refusals, registers
from people.answers import cure


class Display:
    """Kept by the painter from line to line, with what it was told."""

    def __init__(self, painter):
        self.painter = painter
        self.pending = [0] * registers.WORDS
        self.active = list(self.pending)
        self.errors = 0
        painter.new(1)

    def run(self, line):
        """What is refused first, its number and what to do; None where the line paints a frame. After a
        refusal the line's other steps are left out, except the start."""
        wrong = self._loads(line) or self._writes(line)
        answer = self.painter.start()
        if answer:
            wrong = wrong or self._refused_start(answer)
        elif registers.fields(0, self.pending[0])["update"]:
            self.active = list(self.pending)
        return wrong if wrong else self._frame(line)

    def _loads(self, line):
        for place, (selection, data) in enumerate(line.loads, 1):
            answer, done = self.painter.load(selection, data)
            if answer:
                where = f"load {place} ({banks.selected(selection)}), byte {done + 1} of {len(data)}"
                return where, answer, cure(answer)
        return None

    def _writes(self, line):
        for place, (register, value) in enumerate(line.writes, 1):
            answer = self.painter.write(register, value)
            if answer:
                return f"write {place} (register {register})", answer, cure(answer)
            self.pending[register] = value
        return None

    def _refused_start(self, answer):
        first = refusals.of_words(self.pending)[0]
        where = "screen" if first.layer is None else f"layer {first.layer}"
        return f"the start: {where}: {first.part}", answer, first.what

    def _frame(self, line):
        width, height = registers.screen_of(self.active)
        lent = min(4 * width * height, form.MOST_OUTPUT)
        answer, self.errors, _ = self.painter.show(line.pictures, lent)
        if answer == 14:
            what = f"{len(line.pictures)} bytes came and {registers.pictures_length(self.active)} pass"
            return f"the pictures: {what}", answer, cure(answer)
        if answer == 13:
            most = form.MOST_OUTPUT // 4
            what = f"the screen is {width} by {height}, {width * height} pixels, and {most} pass"
            return f"the frame: {what}", answer, cure(answer)
        return ("the frame", answer, cure(answer)) if answer else None
