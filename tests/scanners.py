"""Lists texts in the place of `lx scan`: by the drivers of drivers/, which read tables, and by the scanners that `lx gen --c` prints."""
import pathlib
import unittest

from tests import support
from tests.drivers import list_by_python
from tests.support import LIMIT_SECONDS, SANITIZERS, TESTS, Case, compile_by, run, tool

import lx  # of drivers/
import lx_c

C_FILES = TESTS / "drivers"
STRICT = ["-Wall", "-Wextra", "-pedantic", "-Werror"]
PARTS = ["whole", "part1", "part3", "part5"]
WAYS = [*PARTS, "fill1", "fill7"]
SECONDS = 2 * LIMIT_SECONDS
PRINTED_AT_ONCE = 25


def printed_by(*words):
    """Returns what a lister prints; if it fails, also why."""
    ended = run(*words, seconds=SECONDS)
    return ended.stdout + (b"status %d: " % ended.returncode + ended.stderr[:2_000] if ended.returncode else b"")


def with_columns(listing, texts):
    """Returns the lines of a listing, each after its column."""
    lines = []
    for line in listing.splitlines(keepends=True):
        file, start = int(line.split(b" ")[0]), int(line.split(b" ")[4])
        lines.append(b"%d %s" % (start - texts[file].rfind(b"\n", 0, start), line))
    return b"".join(lines)


def tables_of(specification):
    """Returns the tables of a specification, or nothing if it is refused."""
    ended = support.lx("gen", "-", input=specification, seconds=SECONDS)
    if ended.returncode not in (0, 1):
        raise AssertionError(f"lx gen ends with {ended.returncode}: {support.said_by(ended)}")
    return ended.stdout if ended.returncode == 0 else b""


class Header:
    """Lists by drivers/lx.h, compiled as C."""

    name, compilers, language, ways, reads_tables = "lx.h", ["gcc", "clang"], "-std=c99", PARTS, True

    def __init__(self, folder):
        self.lister, self.reader, self.caller = (folder / f"{program}-{self.name}" for program in ("list", "damage", "calls"))
        words = [tool(*self.compilers), self.language, *STRICT, *SANITIZERS, *(["-x", "c++"] if "++" in self.language else [])]
        for program, source in ((self.lister, "list_by_header.c"), (self.reader, "damage_by_header.c"), (self.caller, "calls_of_header.c")):
            compile_by(*words, "-o", program, C_FILES / source, seconds=SECONDS)

    def list(self, wanted, way):
        return printed_by(self.lister, way, wanted.folder / "tables", *wanted.paths)

    def calls(self, tables_file):
        return printed_by(self.caller, tables_file)

    def damage(self, texts_file, text_file):
        return printed_by(self.reader, texts_file, text_file)


class HeaderInCpp(Header):
    """Lists by drivers/lx.h, compiled as C++."""

    name, compilers, language, ways = "lx.h++", ["g++", "clang++"], "-std=c++98", ["whole", "part3"]


class Python:
    """Lists by drivers/lx.py."""

    name, ways, reads_tables = "lx.py", ["whole"], True

    def __init__(self, folder):
        pass

    def list(self, wanted, way):
        return "".join(list_by_python.listing(lx.Tables(wanted.case.tables), wanted.case.texts)).encode()

    def calls(self, tables_file):
        return "".join(list_by_python.calls(lx.Tables(tables_file.read_bytes()))).encode()

    def damage(self, texts_file, text_file):
        return "".join(list_by_python.damage(texts_file.read_bytes(), text_file.read_bytes())).encode()


class Rust:
    """Lists by drivers/lx.rs."""

    name, ways, reads_tables = "lx.rs", ["whole"], True

    def __init__(self, folder):
        self.lister = folder / "list-rust"
        words = [tool("rustc"), "--edition", "2021", "-O", "-D", "warnings", "-C", "debug-assertions"]
        compile_by(*words, "-o", self.lister, C_FILES / "list_by_rust.rs", seconds=SECONDS)

    def list(self, wanted, way):
        return printed_by(self.lister, wanted.folder / "tables", *wanted.paths)

    def calls(self, tables_file):
        return printed_by(self.lister, "--calls", tables_file)

    def damage(self, texts_file, text_file):
        return printed_by(self.lister, "--damage", texts_file, text_file)


class Printed:
    """Lists by what `lx gen --c` prints, with rows over classes of bytes. Several scanners are compiled into one program."""

    name, ways, words, reads_tables = "gen --c", WAYS, ["--c"], False

    def __init__(self, folder):
        self.compiler, self.folder = tool("gcc", "clang"), folder / self.name.replace(" ", "")
        self.folder.mkdir()
        self.listers, self.refused = {}, {}

    def prepare(self, cases, pool):
        """Notes which program lists by which case. The large cases, which are adjacent, go to different programs."""
        numbered = [(f"s{number}", case) for number, case in enumerate(cases)]
        programs = -(-len(numbered) // PRINTED_AT_ONCE)
        list(pool.map(self.prepare_some, [dict(numbered[first::programs]) for first in range(programs)]))

    def prepare_some(self, chosen):
        lister, prefixes = self.folder / f"list-{next(iter(chosen))}", []
        for prefix, case in chosen.items():
            ended = support.lx("gen", *self.words, "--prefix", prefix, "-", input=case.specification, seconds=SECONDS)
            if ended.returncode:
                self.refused[case.name] = ended.stderr
                continue
            (self.folder / f"{prefix}.c").write_bytes(ended.stdout)
            self.listers[case.name] = (lister, prefix)
            prefixes.append(prefix)
        self.compile(lister, prefixes)

    def compile(self, lister, prefixes):
        part = '#define P(name) {0}_##name\n#define {0}__API static inline\n#include "{0}.c"\n#include "listing.h"\n#undef P\n'
        table = "".join(f'    {{"{prefix}", {prefix}_list}},\n' for prefix in prefixes)
        text = '#include "printed.h"\n' + "".join(part.format(prefix) for prefix in prefixes)
        lister.with_suffix(".c").write_text(f"{text}const struct printed_scanner printed_scanners[] = {{\n{table}    {{0, 0}},\n}};\n")
        words = [self.compiler, "-std=c99", *STRICT, "-Wno-unused-function", *SANITIZERS, f"-I{C_FILES}"]
        compile_by(*words, "-o", lister, lister.with_suffix(".c"), seconds=SECONDS)

    def list(self, wanted, way):
        if wanted.case.name in self.refused:
            return b"refused: " + self.refused[wanted.case.name]
        lister, prefix = self.listers[wanted.case.name]
        return self.list_by(lister, prefix, wanted, way)

    def list_by(self, lister, prefix, wanted, way):
        return printed_by(lister, prefix, way, *wanted.paths)


class Direct(Printed):
    """Lists by what `lx gen --c --direct` prints: code for each state."""

    name, words = "gen --c --direct", ["--c", "--direct"]


class PythonOverC(Printed):
    """Lists by drivers/lx_c.py, over what `lx gen --c` prints."""

    name, ways = "lx_c.py", ["whole"]

    def compile(self, lister, prefixes):
        lister.with_suffix(".c").write_text("".join(f'#include "{prefix}.c"\n' for prefix in prefixes))
        compile_by(self.compiler, "-O1", "-shared", "-fPIC", "-o", lister, lister.with_suffix(".c"), seconds=SECONDS)

    def list_by(self, lister, prefix, wanted, way):
        return "".join(list_by_python.listing(lx_c.Library(str(lister), prefix), wanted.case.texts)).encode()


ALL = [Header, HeaderInCpp, Python, Rust, Printed, Direct, PythonOverC]


class Wanted:
    """A case in a folder of its own, with the listing that `lx scan` prints."""

    def __init__(self, case, folder):
        self.case, self.folder = case, pathlib.Path(folder)
        self.folder.mkdir()
        (self.folder / "tables").write_bytes(case.tables)
        self.paths = [self.folder / f"text{number}" for number in range(len(case.texts))]
        for path, text in zip(self.paths, case.texts):
            path.write_bytes(text)
        ended = support.lx("scan", "-j", "1", self.folder / "tables", *self.paths, seconds=SECONDS)
        self.listing = with_columns(ended.stdout, case.texts) if ended.returncode == 0 else b"lx scan ends with %d" % ended.returncode


class Listings(Case):
    """Compares the listings of scanners with those of `lx scan`."""

    def make_scanner(self, kind, folder):
        """Makes a scanner, or reports why it is left out and returns nothing."""
        try:
            return kind(folder)
        except unittest.SkipTest as reason:
            self.leave_out(kind.name, str(reason))

    def try_listings(self, scanner, wanted, pool):
        """Lists each case in each way; each listing is a check."""
        tried = [(one, way) for one in wanted for way in scanner.ways]
        for (one, way), listing in zip(tried, pool.map(lambda pair: scanner.list(*pair), tried)):
            self.expect(f"{scanner.name}, {one.case.name}, {way}", listing, one.listing)
        print(f"{scanner.name}: {len(tried)} listings")
