"""What the tests of people's commands share: commands run as a user runs them, and the second display."""

import subprocess
import sys
import tempfile
import unittest
from pathlib import Path

TOP = Path(__file__).resolve().parents[2]
SPOONWING = TOP / "tools/spoonwing"
SECOND = TOP / "tests/second/target/debug"
sys.path.insert(0, str(TOP))

from PIL import Image


def second_frame(folder):
    """The second display's frame of what `pack` left in a folder."""
    ended = subprocess.run([SECOND / "frame", folder], capture_output=True)
    assert ended.returncode == 0, f"the second display answers {ended.returncode}: {ended.stderr}"
    return ended.stdout


def second_sheet(text):
    """What the second display's sheet program prints."""
    return subprocess.run([SECOND / "second_sheet"], input=text, capture_output=True, check=True).stdout


def pixels(path):
    """A picture's bytes, four a pixel."""
    with Image.open(path) as image:
        return image.convert("RGBA").tobytes()


class Case(unittest.TestCase):
    """A test in a folder of its own."""

    def setUp(self):
        folder = tempfile.TemporaryDirectory()
        self.addCleanup(folder.cleanup)
        self.folder = Path(folder.name)

    def write(self, name, text):
        path = self.folder / name
        path.write_bytes(text if isinstance(text, bytes) else text.encode())
        return path

    def run_tool(self, *words, status=0, data=b""):
        """Standard output and error of a command in that folder, which has to end so."""
        ended = subprocess.run([SPOONWING, *words], cwd=self.folder, input=data, capture_output=True)
        out, err = ended.stdout.decode(), ended.stderr.decode()
        self.assertEqual(ended.returncode, status, f"{words}: {out}{err}")
        self.assertNotIn("Traceback", err)
        return out, err

    def assert_line(self, text, *parts):
        """One line that has these parts in this order."""
        self.assertEqual(text.count("\n"), 1, text)
        at = 0
        for part in parts:
            self.assertIn(part, text[at:], text)
            at = text.index(part, at) + len(part)
