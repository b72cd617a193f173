"""Runs the Makefile: `make help` has a line for each target, and `make uninstall` removes all that `make install` copied below another folder.

The installed libl.a gives main and yywrap to programs without them, together and each by itself.
"""
import os
import shutil
import sys
import unittest

from tests import support
from tests.markdown import dead_links
from tests.support import TOP, Case

PREFIX = "usr"
PROGRAM = f"{PREFIX}/bin/lx"
DOCUMENTS = f"{PREFIX}/share/doc/lx"
INSTALLED = [PROGRAM, f"{PREFIX}/share/man/man1/lx.1", *(f"{PREFIX}/share/lx/{name}" for name in ("lx.h", "lx.py", "lx.rs", "lx_c.py", "libl.c")), f"{DOCUMENTS}/README.md", f"{DOCUMENTS}/docs/LANGUAGE.md"]
LIBRARY = f"{PREFIX}/lib"
COMPILER = os.environ.get("CC") or "cc"
# A scanner's part of a program with libl, which needs yywrap; and what a program may have itself.
YYLEX = "#include <stdio.h>\nint yywrap(void);\nint yylex(void) { static int calls; puts(yywrap() ? \"end\" : \"more\"); return ++calls < 3; }\n"
OWN_MAIN = "int main(void) { return yylex() - 1; }\n"
OWN_YYWRAP = "int yywrap(void) { return 0; }\n"
PROGRAMS = [("main and yywrap", "", "end\nend\nend\n"), ("yywrap", OWN_MAIN, "end\n"), ("main", OWN_YYWRAP, "more\nmore\nmore\n"),
            ("neither", OWN_MAIN + OWN_YYWRAP, "more\n")]
SCRIPT = "import lx; print([token.kind for token in lx.Tables(open('tables').read()).scan(b'ab 12')])"


def files_below(folder):
    return sorted(str(path.relative_to(folder)) for path in folder.rglob("*") if not path.is_dir())


@unittest.skipUnless(shutil.which("make"), "there is no make")
class Make(Case):
    def make(self, *words):
        ended = support.run("make", "-s", *words, cwd=TOP, text=True)
        self.assertEqual((ended.returncode, ended.stderr), (0, ""), f"make {' '.join(words)}")
        return ended.stdout

    def test_help(self):
        targets = (TOP / "Makefile").read_text().partition("\n.PHONY: ")[2].partition("\n")[0].split()
        self.expect("make help", [line.partition(":")[0] for line in self.make("help").splitlines()], targets)

    def try_installed(self, folder):
        installed = files_below(folder)
        for name in INSTALLED:
            self.check(f"{name} is installed", name in installed, f"there are {installed}")
        ended = support.run(folder / PROGRAM, "gen", folder / DOCUMENTS / "examples/words.l")
        self.expect("the installed program makes tables", (ended.returncode, ended.stderr), (0, b""))
        (folder / "tables").write_bytes(ended.stdout)
        ended = support.run(sys.executable, "-c", SCRIPT, cwd=folder, env={"PYTHONPATH": str(folder / PREFIX / "share/lx"), "PYTHONDONTWRITEBYTECODE": "1"}, text=True)
        self.expect("the installed driver scans by them", ended.stdout, "['ID', 'NUM']\n")
        self.expect("links of the installed documents that lead to no file", dead_links(folder / DOCUMENTS), [])

    def try_library(self, folder):
        library, room = folder / LIBRARY, self.make_folder()
        self.expect("libfl.a leads to", os.readlink(library / "libfl.a"), "libl.a")
        for given, own, wanted in PROGRAMS:
            for name in ("l", "fl"):
                (room / "program.c").write_text(YYLEX + own)
                support.compile_by(*COMPILER.split(), "-o", room / "program", room / "program.c", f"-L{library}", f"-l{name}")
                ended = support.run(room / "program", text=True)
                self.expect(f"-l{name} gives {given}", (ended.stdout, ended.returncode), (wanted, 0))

    def install_words(self, folder):
        return [f"PREFIX=/{PREFIX}", f"DESTDIR={folder}", f"PROGRAM={support.built()}"]

    def test_install(self):
        folder = self.make_folder()
        words = self.install_words(folder)
        self.make("install", *words)
        self.try_installed(folder)
        if shutil.which(COMPILER.split()[0]):
            self.try_library(folder)
        self.make("uninstall", *words)
        self.expect("what uninstall leaves", files_below(folder), ["tables"])

    def test_install_without_compiler(self):
        folder = self.make_folder()
        self.make("install", *self.install_words(folder), "CC=no-compiler")
        self.check("no library", not (folder / LIBRARY).exists())

    def test_foreign_library(self):
        folder = self.make_folder()
        foreign = folder / LIBRARY / "libfl.a"
        foreign.parent.mkdir(parents=True)
        foreign.write_text("flex's")
        self.make("install", *self.install_words(folder))
        self.make("uninstall", *self.install_words(folder))
        self.expect("a libfl.a that was there", (foreign.read_text(), files_below(folder)), ("flex's", [f"{LIBRARY}/libfl.a"]))


if __name__ == "__main__":
    support.main()
