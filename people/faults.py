"""What is wrong, in lines that say where and what to write. Faults end a command, warnings do not."""

import sys


class Fault(Exception):
    """One fault, or several at once: each is a place and what is wrong there."""

    def __init__(self, where, what):
        super().__init__(_on_one_line(f"{where}: {what}"))
        self.lines = [str(self)]

    @classmethod
    def of_all(cls, faults):
        """One fault that says the lines of all."""
        whole = faults[0]
        whole.lines = [line for fault in faults for line in fault.lines]
        return whole


class Notes:
    """Gathers faults, so that all are said and not the first alone, and warnings."""

    def __init__(self, file):
        self.file = file
        self.faults = []
        self.warnings = []

    def fault(self, key, what):
        self.faults.append(Fault(f"{self.file}: {key}", what))

    def warn(self, key, what):
        line = _on_one_line(f"warning: {self.file}: {key}: {what}")
        if line not in self.warnings:
            self.warnings.append(line)

    def end(self):
        """Says the warnings once, and raises the faults if there are any."""
        for line in self.warnings:
            say(line)
        self.warnings = []
        if self.faults:
            raise Fault.of_all(self.faults)


def _on_one_line(text):
    """A name may have line feeds and more that no terminal should be sent."""
    return "".join(c if c.isprintable() else repr(c)[1:-1] for c in text)


def say(line):
    """A line for the person, beside what goes to standard output."""
    print(line, file=sys.stderr, flush=True)


def reason(error):
    """Why a file could not be read or written, in the system's words."""
    return (getattr(error, "strerror", None) or str(error) or "no reason given").lower()
