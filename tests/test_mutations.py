"""Feeds mutated specifications, files for flex, tables and command lines to every command of `lx`.

The inputs are mutations of the specifications of examples/ and tests/rows, of the files for flex there, of tables that `lx gen` prints, and command lines. A
mutation changes, drops, duplicates or swaps bytes, lines or pieces of two inputs. Each input is a check:

- no run crashes, takes more than 20 seconds or ends with a status outside 0 to 5, and a further run has the same status;
- a run that is refused prints nothing to the output, but the report of `check`, and its first line on stderr begins with `lx: `, or for `lex` and `flex` with
  the place of a fault;
- `gen`, `run` and `check` agree on the first fault; what `import` prints is accepted by `gen`;
- `run`, `scan` with 1 and 4 workers, the driver in Python and, for some inputs, the printed scanners in C, by rows and as code, list the same items;
- `up`, `scan` and the driver in Python accept the same tables, and `up` prints what it reads again.
"""
import concurrent.futures
import json
import pathlib
import random
import re
import subprocess
import tempfile

from tests import scanners, support
from tests.drivers import cases, list_by_python
from tests.row_files import ROWS
from tests.support import EXAMPLES, difference

import lx  # of drivers/

PARSER = support.parser("Feeds mutated inputs to every command of lx.")
PARSER.add_argument("--inputs", type=int, default=150, metavar="N", help="inputs of each kind (default: 150)")
PARSER.add_argument("--seed", type=int, default=1, metavar="N", help="the seed of the mutations (default: 1)")
PARSER.add_argument("--jobs", type=int, default=support.PROCESSORS, metavar="N", help="how many inputs are tried at a time")
OPTIONS = PARSER.parse_args([])
LIMIT_SECONDS = 20
STATUSES = range(6)
SCANNERS = 20
FIRST_LINE = re.compile(rb"lx: (E\d\d)(?: at line (\d+))?\n")
FINDING = re.compile(rb"S(?::(\d+))?(?::\d+)?: error: (E\d\d): ")
NOT_ECHO = b"\n#if 0\nab 07 12.5e3 /* c */ \"x\\\"y\" 'c' <a href=\"b\"> [key] = value; -- # \t{\"k\": [true, null]}\r\nend\n"
WORDS = [b"%%\n", b"%x A\n", b"%s B\n", b"%{\n%}\n", b"<A>", b"<*>", b"{D}", b"{2}", b"{1,3}", b"{0,255}", b"[^", b"[[:alpha:]]", b"]", b"(", b")", b"|", b"*", b"+", b"?", b"$", b"^", b"/", b'"', b"\\",
         b"\\n", b"\\x41", b"\\0", b".", b" return A;", b" BEGIN(A);", b" ECHO;", b" ;", b" |\n", b"\n", b"\r\n", b"\t", b" ", b"\0", b"\xff", b"\xc3\xa9", b"lx-tables 2\n", b"end\n", b"REJECT;", b"yymore();", b"BEGIN(B); yymore();",
         b"<<EOF>>", b"%option posix\n", b"(?i:a)", b"a{-}[b]", b"4294967296", b"a" * 2_000]  # fmt: skip
# No option has a device for its output.
COMMAND_WORDS = ["-j", "1", "4", "9", "-b", "0", "256", "--names", "--only", "--only=-", "ID", "A,B", "--no-text", "--format", "json", "text", "xml", "--first", "4294967295", "-1", "--files-from", "L", "-0", "-o", "-", "out", "S", "T", "F", "none", "--c",
                 "--direct", "--header", "--prefix", "p", "P", "--include", "y.tab.h", "-c", "--lossy", "-q", "-W", "all", "no-all", "error", "--most", "3", "--json", "--all", "--", "-h", "-V", "E10", "warning", "caf\udce9", ""]  # fmt: skip
# The first line of what `lx flex` refuses.
PLACE_OR_LX = re.compile(rb"lx: |[^\n]*?(?::\d+:\d+)?: error: ")
COMMANDS = ["run", "scan", "gen", "up", "check", "explain", "show", "import", "lex", "flex", ""]
FILES = {"S": b"%%\n[a-z]+ return ID;\n", "F": b"ab\n", "L": b"F\n"}


class Wrong(Exception):
    """A fault of the program."""


def texts_of_rows(name):
    """Yields the texts of files with this name in tests/rows that are written line by line."""
    for path in sorted(ROWS.glob("*.txt")):
        lines = path.read_bytes().split(b"\n")
        for at, line in enumerate(lines):
            if line == name + b":":
                end = next((i for i in range(at + 1, len(lines)) if not lines[i].startswith(b"  ")), len(lines))
                yield b"".join(one[2:] + b"\n" for one in lines[at + 1 : end])


def with_lines_changed(draw, text, is_swap):
    lines = text.split(b"\n")
    if is_swap:
        one, two = draw.randrange(len(lines)), draw.randrange(len(lines))
        lines[one], lines[two] = lines[two], lines[one]
    else:
        del lines[draw.randrange(len(lines))]
    return bytearray(b"\n".join(lines))


def mutated_once(draw, text, corpus):
    at = draw.randrange(len(text) + 1)
    end = min(len(text), at + draw.choice([1, 2, 10, 60]))
    kind = draw.randrange(8)
    if kind == 0 and at < len(text):
        text[at] = draw.choice([0, 10, 34, 91, 92, 127, 255, draw.randrange(256)])
    elif kind == 1:
        del text[at:end]
    elif kind == 2:
        text[at:at] = text[at:end]
    elif kind == 3:
        other = draw.choice(corpus)
        begin = draw.randrange(len(other) + 1)
        text[at:at] = other[begin : begin + draw.choice([1, 5, 40, 200])]
    elif kind in (4, 5):
        return with_lines_changed(draw, text, kind == 4)
    else:
        text[at:at] = draw.choice(WORDS)
    return text


def mutated(draw, corpus):
    """Returns a text that is made of one or two others."""
    text = bytearray(draw.choice(corpus))
    for _ in range(draw.choice([1, 1, 2, 3, 8])):
        text = mutated_once(draw, text, corpus)
    return bytes(text)


def same(what, found, wanted):
    if found != wanted:
        raise Wrong(f"{what}: {difference(found, wanted)}")


class Runs:
    """Runs of `lx` in a folder."""

    def __init__(self, folder):
        self.folder = folder

    def write(self, name, text):
        (self.folder / name).write_bytes(text)

    def lx(self, *words):
        """Runs `lx`, which prints nothing but a report if it refuses."""
        try:
            ended = support.lx(*words, cwd=self.folder, seconds=LIMIT_SECONDS)
        except subprocess.TimeoutExpired:
            raise Wrong(f"lx {words} takes more than {LIMIT_SECONDS} seconds") from None
        reports = words[0] in ("check", b"check")
        begins = PLACE_OR_LX if words[0] in (b"lex", b"flex") else re.compile(rb"lx: ")
        if ended.returncode not in STATUSES:
            raise Wrong(f"lx {words} ends with {ended.returncode}: {ended.stderr[-300:]!r}")
        if ended.returncode in (1, 2) and ended.stdout and not reports:
            raise Wrong(f"lx {words} is refused with {ended.returncode}, and prints {ended.stdout[:100]!r}")
        if ended.returncode in (1, 3, 4, 5) and not reports and not begins.match(ended.stderr):
            raise Wrong(f"lx {words} ends with {ended.returncode}, and says {ended.stderr[:100]!r}")
        return ended

    def lists(self, *words):
        ended = self.lx(*words)
        if ended.returncode:
            raise Wrong(f"lx {words} ends with {ended.returncode}: {ended.stderr[:200]!r}")
        return ended.stdout


def first_fault(ended):
    """Returns the code and the line of a refusal; the line is 0 if it has none."""
    found = FIRST_LINE.match(ended.stderr)
    if not found:
        raise Wrong(f"the first line of a refusal is {ended.stderr[:100]!r}")
    return found[1], found[2] or b"0"


def reported_fault(report):
    found = FINDING.match(report)
    if not found:
        raise Wrong(f"a report begins with {report[:100]!r}")
    return found[2], found[1] or b"0"


def listing_by_python(tables, text):
    """Returns the listing of the driver in Python, without columns."""
    columns = "".join(list_by_python.listing(lx.Tables(tables), [text])).encode()
    return b"".join(line.split(b" ", 1)[1] for line in columns.splitlines(True))


def try_refused(runs, gen):
    """All commands refuse a specification for the same fault."""
    due = first_fault(gen)
    # `show` takes a text that begins so for tables.
    shows = [] if (runs.folder / "S").read_bytes().startswith(b"lx-tables ") else [["show", "S"]]
    for words in (["run", "S", "F"], ["gen", "--c", "S"], *shows):
        ended = runs.lx(*words)
        if ended.returncode != 1:
            raise Wrong(f"{words} ends with {ended.returncode}, and gen refuses")
        same(f"fault by {words}", first_fault(ended), due)
    report = runs.lx("check", "S")
    if report.returncode != 1:
        raise Wrong(f"check ends with {report.returncode}, and gen refuses")
    same("fault by check", reported_fault(report.stdout), due)
    json.loads(runs.lx("check", "--json", "S").stdout)


def try_accepted(runs, tables, text):
    """All ways to list a text give the same items."""
    for words in (["check", "S"], ["check", "-q", "-W", "all", "S"]):
        ended = runs.lx(*words)
        if ended.returncode:
            raise Wrong(f"{words} ends with {ended.returncode}, and gen accepts the specification: {ended.stdout[:200]!r}")
    json.loads(runs.lx("check", "--json", "S").stdout)
    runs.lx("show", "--all", "S")
    runs.write("T", tables)
    listing = runs.lists("run", "S", "F")
    for words in (["run", "-j", "3", "-b", "1", "S", "F"], ["scan", "-j", "1", "T", "F"], ["scan", "-b", "7", "T", "F"]):
        same(f"listing by {words}", runs.lists(*words), listing)
    for options in (["--format", "json"], ["--names"], ["--no-text"], ["--only=-"]):
        same(f"listing with {options}", runs.lists("run", *options, "S", "F"), runs.lists("scan", *options, "T", "F"))
    same("listing by Python", listing_by_python(tables, text), listing)


def try_specification(runs, specification, text):
    """Returns true if the specification is accepted."""
    runs.write("S", specification)
    runs.write("F", text)
    gen = runs.lx("gen", "S")
    if gen.returncode not in (0, 1):
        raise Wrong(f"gen ends with {gen.returncode}")
    if gen.returncode == 0:
        try_accepted(runs, gen.stdout, text)
    else:
        try_refused(runs, gen)
    return gen.returncode == 0


def try_import(runs, options):
    for name in ("L", "A"):
        (runs.folder / name).unlink(missing_ok=True)
    ended = runs.lx("import", *options, "-o", "L", "-c", "A", "S")
    if ended.returncode == 1 and ((runs.folder / "L").exists() or (runs.folder / "A").exists()):
        raise Wrong("import refuses and makes a file")
    if ended.returncode == 0:
        printed = (runs.folder / "L").read_bytes()
        same("import without -o", runs.lists("import", *options, "S"), printed)
        gen = runs.lx("gen", "L")
        if gen.returncode:
            raise Wrong(f"import {options} accepts what gen refuses: {gen.stderr[:200]!r}")


def try_flex_file(runs, specification):
    """`gen` accepts what `import` prints, and a refusal makes no file."""
    runs.write("S", specification)
    for options in ([], ["--lossy"]):
        try_import(runs, options)


def is_accepted_by_python(tables):
    try:
        return bool(lx.Tables(tables))
    except lx.Damaged:
        return False


def try_tables(runs, tables, text):
    """All that read tables accept them, or none does."""
    runs.write("T", tables)
    runs.write("F", text)
    up, scan = runs.lx("up", "T"), runs.lx("scan", "-j", "1", "T", "F")
    same("status of up and scan", up.returncode, scan.returncode)
    is_accepted = is_accepted_by_python(tables)
    if up.returncode == 0:
        runs.write("U", up.stdout)
        same("up of what up printed", runs.lists("up", "U"), up.stdout)
        same("listing by Python", listing_by_python(up.stdout, text), scan.stdout)
    elif up.returncode != 1:
        raise Wrong(f"up ends with {up.returncode}")
    elif is_accepted:
        raise Wrong("the driver in Python accepts tables that lx refuses")


def try_words(runs, words):
    """A command line has the same status twice, and leaves what it reads as it was."""
    outputs = {after for option, after in zip(words, words[1:]) if option in (b"-o", b"-c")}
    before = {name: (runs.folder / name).read_bytes() for name in ("S", "F", "L") if name.encode() not in outputs}
    statuses = [runs.lx(*words).returncode for _ in range(2)]
    same(f"status of {words}", statuses[1], statuses[0])
    if {name: (runs.folder / name).read_bytes() for name in before} != before:
        raise Wrong(f"lx {words} changed a file that it reads")


def drawn_words(draw):
    return [word.encode("utf-8", "surrogateescape") for word in [draw.choice(COMMANDS), *draw.choices(COMMAND_WORDS, k=draw.randrange(7))]]


class Inputs:
    """The inputs of each kind."""

    def __init__(self, pool):
        draw, numbers = random.Random(OPTIONS.seed), range(OPTIONS.inputs)
        specifications = [path.read_bytes() for path in sorted(EXAMPLES.glob("*.l"))] + list(texts_of_rows(b"S"))
        flex_files = [path.read_bytes() for path in sorted((EXAMPLES / "programs").rglob("*.l"))] + list(texts_of_rows(b"X")) + list(texts_of_rows(b"S"))
        texts = [path.read_bytes()[:3_000] for path in sorted(EXAMPLES.glob("*.txt"))] + [NOT_ECHO, b"", bytes(range(256))]
        short = [text for text in specifications if len(text) < 4_000][:60]
        tables = [ended.stdout for ended in pool.map(lambda text: support.lx("gen", "-", input=text), short) if ended.returncode == 0]
        self.first_text = texts[0]
        self.specifications = [(mutated(draw, specifications), mutated(draw, texts)) for _ in numbers]
        self.flex_files = [(mutated(draw, flex_files),) for _ in numbers]
        self.tables = [(mutated(draw, tables), draw.choice(texts)) for _ in numbers]
        self.words = [(drawn_words(draw),) for _ in numbers]


class Mutations(scanners.Listings):
    @classmethod
    def setUpClass(cls):
        cls.folder = pathlib.Path(cls.enterClassContext(tempfile.TemporaryDirectory(prefix="mutations-")))
        cls.pool = cls.enterClassContext(concurrent.futures.ThreadPoolExecutor(OPTIONS.jobs))
        cls.inputs = Inputs(cls.pool)

    def try_one(self, attempt, given):
        """Tries an input in a folder of its own, and returns what came of it and the fault."""
        with tempfile.TemporaryDirectory(dir=self.folder) as folder:
            runs = Runs(pathlib.Path(folder))
            for name, text in FILES.items():
                runs.write(name, text)
            try:
                return attempt(runs, *given), ""
            except Wrong as why:
                return None, f"{why}\n    {given[0]!r}"[:2_000]

    def try_all(self, kind, attempt, inputs):
        """Tries all inputs of a kind, and returns what came of each."""
        results = list(self.pool.map(lambda given: self.try_one(attempt, given), inputs))
        for number, (_, fault) in enumerate(results):
            self.check(f"{kind} {number}", not fault, fault)
        print(f"{kind}: {len(inputs)} inputs, {sum(bool(fault) for _, fault in results)} wrong")
        return [result for result, _ in results]

    def test_flex_files(self):
        self.try_all("file for flex", try_flex_file, self.inputs.flex_files)

    def test_tables(self):
        self.try_all("tables", try_tables, self.inputs.tables)

    def test_command_lines(self):
        self.try_all("words", try_words, self.inputs.words)

    def test_specifications(self):
        accepted = self.try_all("specification", try_specification, self.inputs.specifications)
        chosen = [given[0] for given, is_accepted in zip(self.inputs.specifications, accepted) if is_accepted][:SCANNERS]
        self.try_scanners([cases.Case(f"mutation {number}", text, [NOT_ECHO, self.inputs.first_text]) for number, text in enumerate(chosen)])

    def try_scanners(self, chosen):
        """Compares the printed scanners in C by accepted specifications with `lx`."""
        for case in chosen:
            case.tables = scanners.tables_of(case.specification)
        wanted = [scanners.Wanted(case, self.folder / f"wanted-{number}") for number, case in enumerate(chosen)]
        for kind in (scanners.Printed, scanners.Direct):
            scanner = self.make_scanner(kind, self.folder)
            if scanner:
                scanner.prepare(chosen, self.pool)
                self.try_listings(scanner, [one for one in wanted if one.case.name not in scanner.refused], self.pool)


if __name__ == "__main__":
    support.main(PARSER, OPTIONS)
