"""The manners of the shell tools: each is run as a user runs it. Where a tool would prove, install packages or run a Rattle
program, it stands in a tree of its own, with stand-ins for rt, apt-get and the like."""
import os
import shutil
import subprocess
import tempfile
import unittest
from pathlib import Path

from people_tools import TOP

OTHERS = {"lib.sh", "spoonwing"}
TOOLS = sorted(f"tools/{path.name}" for path in (TOP / "tools").iterdir() if path.name not in OTHERS and path.is_file())
TOOLS += ["bench/run", ".ci/run"]
PAINTERS = ["caption", "letters", "hall", "flow"]


def program(path, text):
    path.parent.mkdir(parents=True, exist_ok=True)
    path.write_text(text)
    path.chmod(0o755)


class Manners(unittest.TestCase):
    def setUp(self):
        self.folder = tempfile.TemporaryDirectory()
        self.addCleanup(self.folder.cleanup)
        self.here = Path(self.folder.name) / "here"
        self.here.mkdir()

    def run_in(self, command, env=None):
        """A command in an empty folder, by the shell."""
        done = subprocess.run(["bash", "-c", command], cwd=self.here, env=env, capture_output=True, text=True)
        return done.returncode, done.stdout, done.stderr

    def assert_one_line(self, text, *parts):
        self.assertEqual(text.count("\n"), 1, text)
        for part in parts:
            self.assertIn(part, text)


class Words(Manners):
    def test_help_is_the_header_and_makes_nothing(self):
        for tool in TOOLS:
            with self.subTest(tool):
                status, told, errors = self.run_in(f"{TOP}/{tool} --help")
                self.assertEqual((status, errors), (0, ""))
                comment = (TOP / tool).read_text().split("\n")[1]
                self.assertEqual("# " + told.split("\n")[0], comment)
                self.assertTrue(told.startswith(Path(tool).name), told)
        self.assertEqual(list(self.here.iterdir()), [])

    def test_help_behind_other_words(self):
        for words in ["install here --help", "picture here.png --help", "caption here there.png -h"]:
            status, told, _ = self.run_in(f"{TOP}/tools/{words}")
            self.assertEqual((status, told.split(" ")[0]), (0, words.split()[0]))
        self.assertEqual(list(self.here.iterdir()), [])

    def test_unknown_words_are_told_with_the_usage(self):
        for tool in TOOLS:
            with self.subTest(tool):
                status, told, errors = self.run_in(f"{TOP}/{tool} --frobnicate")
                self.assertEqual((status, told), (2, ""))
                self.assert_one_line(errors, "--frobnicate", "usage: ", "--help")
        self.assertEqual(list(self.here.iterdir()), [])

    def test_too_few_and_too_many(self):
        for tool in ["install", "run", "check-header", *PAINTERS]:
            self.assertEqual(self.run_in(f"{TOP}/tools/{tool}")[0], 2, tool)
        for words in ["picture a b", "sheet a", "mend a", "native x86-64 b", "native wasm64", "c-host build b", "c-host biuld", "w-host build b", "w-host biuld", "install a b c"]:
            status, _, errors = self.run_in(f"{TOP}/tools/{words}")
            self.assertEqual(status, 2, words)
            self.assert_one_line(errors, "usage: ")
        self.assertEqual(list(self.here.iterdir()), [])


def setUpModule():
    """The system's commands in one folder, but those that stand-ins are for."""
    folder = tempfile.TemporaryDirectory()
    unittest.addModuleCleanup(folder.cleanup)
    Alone.system = Path(folder.name)
    for path in [path for place in ["/usr/bin", "/usr/sbin"] for path in Path(place).iterdir()]:
        if path.name not in {"rt", "pnmtopng", "apt-get"} and not (Alone.system / path.name).is_symlink():
            (Alone.system / path.name).symlink_to(path)


class Alone(Manners):
    """A tree with the tools and nothing built, and stand-ins before the system's commands."""

    def setUp(self):
        super().setUp()
        self.top = Path(self.folder.name) / "top"
        for name in ["tools", "include", "examples", "bench", ".ci"]:
            shutil.copytree(TOP / name, self.top / name)
        shutil.copy(TOP / "crates.txt", self.top)
        for part in (TOP / "crates").glob("*/*"):
            if part.name != "out":
                crate = self.top / "crates" / part.parent.name
                crate.mkdir(parents=True, exist_ok=True)
                (crate / part.name).symlink_to(part)
        self.bin = Path(self.folder.name) / "bin"
        self.bin.mkdir()
        self.called = Path(self.folder.name) / "called"
        self.stand_in("rt", f'echo "rt $*" >>{self.called}; exit 1')
        self.stand_in("uname", "echo x86_64")

    def stand_in(self, name, text):
        program(self.bin / name, f"#!/bin/bash\n{text}\n")

    def tool(self, words):
        env = {"PATH": f"{self.bin}:{self.system}", "HOME": self.folder.name}
        return self.run_in(f"{self.top}/tools/{words}", env)


class Folders(Alone):
    def test_a_missing_folder_is_told_before_anything_is_worked_out(self):
        for words in ["picture nowhere/a.png", *(f"{name} prefix nowhere/a.png" for name in PAINTERS)]:
            status, _, errors = self.tool(words)
            self.assertEqual(status, 1, words)
            self.assert_one_line(errors, words.split()[0], "nowhere/a.png", "mkdir -p nowhere")
        self.assertFalse(self.called.exists())

    def test_a_folder_is_no_picture(self):
        status, _, errors = self.tool("picture .")
        self.assertEqual(status, 1)
        self.assert_one_line(errors, "it is a folder")
        self.assertFalse(self.called.exists())

    def test_a_file_is_no_prefix(self):
        (self.here / "file").touch()
        status, _, errors = self.tool("install file")
        self.assertEqual(status, 1)
        self.assert_one_line(errors, "install: file", "folder")
        self.assertFalse(self.called.exists())

    def test_nothing_installed(self):
        for name in [*PAINTERS, "check-header"]:
            self.stand_in("pnmtopng", "true")
            status, _, errors = self.tool(f"{name} prefix")
            self.assertEqual(status, 1)
            self.assert_one_line(errors, f"{name}: prefix", "tools/install prefix")


class Programs(Alone):
    def test_what_is_not_built_says_how(self):
        for words in ["run sheet", "sheet", "mend", "run figures"]:
            status, _, errors = self.tool(words)
            self.assertEqual(status, 1)
            self.assert_one_line(errors, "is not built", f"crates/{words.split()[-1]}: rt run")
        for name in [f"{letter}-{name}" for letter in "cw" for name in ["host", "display", "mend", "floats"]]:
            status, _, errors = self.tool(name)
            self.assertEqual(status, 1)
            self.assert_one_line(errors, "is not built", f"tools/{name} build")

    def test_what_is_no_program(self):
        for name in ["words", "nothing"]:
            status, _, errors = self.tool(f"run {name}")
            self.assertEqual(status, 1)
            self.assert_one_line(errors, f"no program {name}", "figures, mend, sheet")

    def build(self, name):
        program(self.top / "crates" / name / "out" / name, "#!/bin/bash\ncat 2>/dev/null\nexit 0\n")

    def test_lines_go_through(self):
        self.build("sheet")
        self.assertEqual(self.tool("sheet <<<0A"), (0, "0A\n", ""))

    def test_reads_and_writes_that_fail(self):
        for name in ["sheet", "mend"]:
            self.build(name)
            for ending in ["<.", "<&-", "<<<00 >/dev/full", "<<<00 >&-"]:
                with self.subTest(name + ending):
                    status, _, errors = self.tool(f"{name} {ending}")
                    self.assertNotEqual(status, 0)
                    self.assertIn("cat: ", errors)


class Packages(Alone):
    GET = "apt-get install -y --no-install-recommends netpbm"

    def setUp(self):
        super().setUp()
        self.stand_in("apt-get", f'echo "apt-get $*" >>{self.called}; exit 1')

    def test_without_root_the_line_to_type(self):
        self.stand_in("id", "echo 1000")
        status, _, errors = self.tool("picture")
        self.assertEqual(status, 1)
        self.assert_one_line(errors, "picture: pnmtopng is missing", f"as root: {self.GET}\n")
        self.assertFalse(self.called.exists())

    def test_with_root_it_is_said_and_fetched_without_extras(self):
        self.stand_in("id", "echo 0")
        self.stand_in("apt-get", f'echo "apt-get $*" >>{self.called}; echo "E: no route"; [ "$1" = -q ]')
        status, _, errors = self.tool("picture")
        said, told = errors.splitlines()
        self.assertEqual(status, 1)
        self.assertIn(self.GET, said)
        self.assertIn("E: no route", told)
        self.assertIn(f"{self.top}/target/packages.log", told)
        self.assertTrue(self.called.read_text().splitlines()[-1].startswith(self.GET))

    def test_without_a_kit(self):
        self.stand_in("pnmtopng", "true")
        (self.bin / "rt").unlink()
        status, _, errors = self.tool("picture")
        self.assertEqual(status, 1)
        self.assert_one_line(errors, "rt is missing", "Rattle kit")


class Progress(Alone):
    """A prover whose notes are long, and the kit's compiler, which makes the archive."""

    RT = """case $1 in
doc) echo {kit}/guide.md ;;
check)
    for name in lists repair; do
        echo "rt: chose --jobs 2 for $name"
        [ $name != {bad} ] || {{ echo "fn $name::of: no proof"; echo "rt: the library $name did not build"; exit 1; }}
        echo "fn $name::of: proved"
        echo "library std: modules loaded=0" >&2
        echo "crate $name: modules loaded=0 checked=2"
        echo "logic=proved functions=1"
    done
    echo "crate spoonwing: modules loaded=0 checked=2"
    echo "logic=proved functions=18" ;;
esac"""
    COMPILER = """#!/bin/bash
echo "crate spoonwing: modules loaded=2 checked=0"
echo "logic=proved functions=18"
touch "${@: -1}"
"""

    def prove(self, bad, words="native x86-64"):
        kit = Path(self.folder.name) / "kit"
        self.stand_in("rt", self.RT.format(kit=kit, bad=bad))
        program(kit / "bin/rattle", self.COMPILER)
        return self.tool(words), self.top / "target/prove.log"

    def test_a_line_a_step(self):
        (status, told, errors), log = self.prove("none")
        self.assertEqual(status, 0, errors)
        first, *steps = errors.splitlines()
        self.assertIn(str(log), first)
        names = [step.split(": ")[1].split()[0] for step in steps]
        self.assertEqual(names, ["lists", "repair", "spoonwing"])
        self.assertIn("  1 of ", steps[0])
        self.assertIn("fn lists::of: proved", log.read_text())
        self.assertIn("library std", log.read_text())
        self.assertIn("libspoonwing.a", told)

    def test_what_is_not_proved_names_the_log(self):
        (status, _, errors), log = self.prove("repair")
        self.assertEqual(status, 1)
        self.assertIn(f"fn repair::of: no proof; all of it is in {log}", errors.splitlines()[-1])
        self.assertFalse((self.top / "target/staticlib/libspoonwing.a").exists())

    def test_without_means_for_a_module_one_line_says_so(self):
        self.prove("none")
        (status, told, errors), _ = self.prove("none", "native wasm32")
        self.assertEqual((status, told), (0, ""))
        self.assert_one_line(errors, "no WebAssembly module is made", "no clang")
        self.assertFalse((self.top / "target/native/wasm32").exists())

    def test_a_module_is_not_installed(self):
        status, _, errors = self.tool("install prefix wasm32")
        self.assertEqual(status, 1)
        self.assert_one_line(errors, "tools/native wasm32")

    def test_the_number_of_steps_is_that_of_the_crates(self):
        """Worked out here from crates.txt anew."""
        lines = [line.split(":") for line in (TOP / "crates.txt").read_text().splitlines() if not line.startswith("#")]
        below = {name.split()[0]: more for name, more in lines}
        parts, more = set(), {"spoonwing"}
        while more:
            parts |= more
            more = {name for part in more for name in below[part].split() if name in below} - parts
        (_, _, errors), _ = self.prove("none")
        self.assertIn(f"  3 of {len(parts)}: spoonwing is proved", errors)


class Built(Manners):
    """With the archive of this tree."""

    def test_a_full_disk_and_a_closed_output(self):
        for words in ["picture /dev/full", "picture here.png >&-", "picture here.png >/dev/full"]:
            status, _, errors = self.run_in(f"{TOP}/tools/{words}")
            self.assertEqual(status, 1, words)
            self.assertIn("error", errors)

    def test_the_lines_that_install_prints_build_a_program(self):
        status, told, _ = self.run_in(f"{TOP}/tools/install prefix")
        self.assertEqual(status, 0)
        (self.here / "program.c").write_text(
            '#include <spoonwing.h>\n#include <stdio.h>\nint main(void) { return puts(spoonwing_refusal(10)) < 0; }\n'
        )
        lines = "\n".join(told.splitlines()[-2:])
        status, told, errors = self.run_in(f"{lines}\n./a.out")
        self.assertEqual((status, errors), (0, ""))
        self.assertIn("leaves the screen", told)


if __name__ == "__main__":
    unittest.main()
