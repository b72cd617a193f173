"""Builds the programs of examples/programs with their Makefiles, in a copy, and compares what they print with what they have to print.

What is in C is built with gcc and with clang. A warning of a compiler is a failure. Each program is built once more after `touch *.l`, which may change no
file of the example: make's own rules would run flex over a .l that is newer than a .c of the same name.

The programs of lex-* have files for flex, which `lx flex` takes, or the command that the environment names: `LEX=flex ./test programs`.
"""
import os
import shutil
import subprocess
import sys
import unittest

from tests import support
from tests.support import TOP, Case

LIMIT_SECONDS = 300
COMPILERS = ["gcc", "clang"]
PROGRAMS = TOP / "examples/programs"
# The folder, the target of its Makefile, and the tools that the target needs; `cc` is each of the compilers.
TARGETS = [
    ("calculator", "check", ["cc"]),
    ("includes", "check", ["cc"]),
    ("ini-to-json", "check", []),
    ("json-check", "check", ["cc", "bison"]),
    ("lex-calculator", "check", ["cc", "bison"]),
    ("lex-count", "check", ["cc"]),
    ("lex-includes", "check", ["cc"]),
    ("lex-threads", "check", ["cc"]),
    ("log-report", "check-c", ["cc"]),
    ("log-report", "check-python", []),
    ("log-report", "check-rust", ["rustc"]),
]
FOLDERS = sorted({name for name, _, _ in TARGETS})


def files_of(folder):
    return {path.name: path.read_bytes() for path in folder.iterdir() if path.is_file()}


def make(folder, *words):
    """Returns what make prints, and its status if that isn't 0."""
    ended = support.run("make", "-s", *words, cwd=folder, seconds=LIMIT_SECONDS, stderr=subprocess.STDOUT, text=True)
    return ended.stdout + (f"make ends with {ended.returncode}" if ended.returncode else "")


@unittest.skipUnless(shutil.which("make"), "there is no make")
class Programs(Case):
    def setUp(self):
        self.top = self.make_folder()
        for name in ("drivers", "examples"):
            shutil.copytree(TOP / name, self.top / name)
        command = os.environ.get("LEX") or f"{support.built()} flex"
        self.words = [f"LX={support.built()}", f"LEX={command}", f"PYTHON={sys.executable}"]

    def builds_of(self, name, target, tools):
        """Returns the words of make for each way to build a program, none if a tool is missing."""
        missing = [tool for tool in tools if tool != "cc" and not shutil.which(tool)]
        compilers = [[f"CC={tool}"] for tool in COMPILERS if shutil.which(tool)] if "cc" in tools else [[]]
        if missing or not compilers:
            self.leave_out(f"{name}, {target}", f"there is no {' and no '.join(missing or COMPILERS)}")
            return []
        return compilers

    def try_build(self, folder, original, what, words):
        """Builds and checks a program, and does so once more when the specifications are newer than all other files, as after an editor."""
        self.expect(what, make(folder, *words), "")
        for path in folder.glob("*.l"):
            os.utime(path)
        printed = make(folder, *words)
        changed = [name for name, text in files_of(original).items() if files_of(folder).get(name) != text]
        self.expect(f"{what}, after touch *.l", (printed, changed), ("", []))
        make(folder, "clean")

    def test_builds(self):
        for name, target, tools in TARGETS:
            for words in self.builds_of(name, target, tools):
                folder, what = self.top / "examples/programs" / name, ", ".join([name, target, *words])
                self.try_build(folder, PROGRAMS / name, what, [*self.words, *words, target])
        for name in FOLDERS:
            self.expect(f"{name}, clean", {*files_of(self.top / "examples/programs" / name)}, {*files_of(PROGRAMS / name)})

    def test_names(self):
        for name in FOLDERS:
            stems = [{path.stem for path in (PROGRAMS / name).glob(pattern)} for pattern in ("*.l", "*.c")]
            self.expect(f"{name}, specifications that would make a C file", set.intersection(*stems), set())


if __name__ == "__main__":
    support.main()
