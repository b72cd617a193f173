r"""Reads the worked rows of tests/rows. Each file tests/rows/TOPIC.txt has rows, and each row has files, runs of `lx` over them, and what they give:

    == three-rules                 a row begins; its name is unique
    S:                             the file S: the following lines, which are indented by two blanks
      %%
      [a-z]+ return ID;
    F: "ab\xFF" + "c" * 3          the file F, byte for byte, by the escapes \n \r \t \\ \" \xHH; ` + ` joins, ` * N` repeats,
                                   and ` for M..N` repeats with each number from M to N for `#`, and the next number for `#+`
    G = examples/c.txt             the file G, which is this one of the repository
    D/                             the folder D
    $ lx run S F                   a run in the folder of these files; a word before `* N` is given N times
    out:                           what it writes to the output, and `err` to the error stream, given as a file is; by default nothing.
      0 T ID 1 0 2 ab              After ` + ..` anything may follow; `..` alone is anything but nothing
    status 3                       how it ends; by default 0

Runs on adjacent lines end alike. After `< T` the file T is standard input, which is empty otherwise. After `> T` the output goes to the file T, for the
runs that follow, and the status is 0. A line that begins with `# ` is a comment.
"""
import ast
import dataclasses
import re
import shlex

from tests.support import TESTS, TOP

ROWS = TESTS / "rows"
INDENT = "  "
QUOTED = r'"(?:[^"\\]|\\.)*"'
PART = re.compile(rf"({QUOTED})(?: \* (\d+)| for (\d+)\.\.(\d+))?")
ESCAPE = re.compile(r'[^\\]|\\[nrt\\"]|\\x[0-9A-Fa-f]{2}')


@dataclasses.dataclass
class Text:
    """Wanted bytes, which more may follow."""

    wanted: bytes = b""
    open_ended: bool = False

    def is_met_by(self, found):
        if self.open_ended:
            return found.startswith(self.wanted) and found != b""
        return found == self.wanted


@dataclasses.dataclass
class Run:
    words: list
    input: str = ""
    output: str = ""
    out: Text = None
    err: Text = None
    status: int = 0


@dataclasses.dataclass
class Row:
    place: str
    name: str
    files: dict = dataclasses.field(default_factory=dict)
    runs: list = dataclasses.field(default_factory=list)


class Malformed(Exception):
    pass


def unquoted(quoted):
    inner = quoted[1:-1]
    if "".join(ESCAPE.findall(inner)) != inner:
        raise Malformed(f"an unknown escape in {quoted}")
    if not inner.isascii():
        raise Malformed(f"a byte beyond ASCII in {quoted}; write it as \\xHH")
    return ast.literal_eval(f'b"{inner}"')


def numbered(text, number):
    return text.replace(b"#+", b"%d" % (number + 1)).replace(b"#", b"%d" % number)


def bytes_of(expression):
    """Returns the bytes of quoted parts that are joined, repeated or numbered."""
    result, at = b"", 0
    while True:
        part = PART.match(expression, at)
        if not part:
            raise Malformed(f"no bytes: {expression}")
        quoted, times, first, last = part.groups()
        once = unquoted(quoted)
        if first:
            result += b"".join(numbered(once, number) for number in range(int(first), int(last) + 1))
        else:
            result += once * int(times or 1)
        at = part.end()
        if at == len(expression):
            return result
        if not expression.startswith(" + ", at):
            raise Malformed(f"no bytes: {expression}")
        at += 3


def run_of(command):
    """Reads the line of a run."""
    words, files = shlex.split(command), {">": "", "<": ""}
    for sign in files:
        if len(words) > 2 and words[-2] == sign:
            words, files[sign] = words[:-2], words[-1]
    if words[:1] != ["lx"]:
        raise Malformed("a run begins with lx")
    repeated = []
    for word in words[1:]:
        if repeated[-1:] == ["*"]:
            repeated[-2:] = [repeated[-2]] * int(word)
        else:
            repeated.append(word)
    return Run(repeated, files["<"], files[">"])


class Reader:
    """Reads the rows of one file."""

    def __init__(self, path):
        self.path, self.lines, self.at = path, path.read_text(encoding="utf-8").split("\n"), 0
        self.found, self.row, self.group, self.is_open = [], None, [], False

    def place(self):
        return f"{self.path.relative_to(TOP)}:{self.at}"

    def block(self):
        """Takes the following lines that are indented, and the empty lines between these."""
        taken = []
        while self.at < len(self.lines):
            line = self.lines[self.at]
            following = next((it for it in self.lines[self.at :] if it), "")
            if not line.startswith(INDENT) and not (line == "" and following.startswith(INDENT)):
                break
            taken.append(line[len(INDENT) :])
            self.at += 1
        return taken

    def text(self, given):
        """Reads a text, which is on the line of its name or on the lines after it."""
        if given == "..":
            return Text(b"", True)
        if given.endswith(" + .."):
            return Text(bytes_of(given.removesuffix(" + ..")), True)
        if given:
            return Text(bytes_of(given))
        return Text("".join(f"{line}\n" for line in self.block()).encode("utf-8"))

    def take_end(self, line):
        """Takes what a line says of all runs of the group before it."""
        if not self.group:
            raise Malformed("no run is before this line")
        name, _, given = line.partition(":")
        wanted = int(line[-1]) if line.startswith("status ") else self.text(given.strip())
        for run in self.group:
            setattr(run, name.partition(" ")[0], wanted)

    def take_file(self, line):
        """Takes a line that says what a file or a folder of the row is."""
        name, _, path = line.partition(" = ")
        if re.fullmatch(r"\S+/", line):
            self.row.files[line[:-1]] = None
        elif path and (TOP / path).is_file():
            self.row.files[name] = (TOP / path).read_bytes()
        elif re.match(r"\S+:( |$)", line):
            name, _, given = line.partition(":")
            self.row.files[name] = self.text(given.strip()).wanted
        else:
            raise Malformed("a line of no form")

    def take(self, line):
        if line.startswith("== "):
            self.row, self.group = Row(self.place(), line[3:]), []
            self.found.append(self.row)
        elif self.row is None:
            raise Malformed("no row has begun")
        elif line.startswith("$ "):
            run = run_of(line[2:])
            self.group = [*self.group, run] if self.is_open else [run]
            self.row.runs.append(run)
        elif re.match(r"(out|err):|status \d$", line):
            self.take_end(line)
        else:
            self.take_file(line)
        self.is_open = line.startswith("$ ") and not self.group[-1].output

    def rows(self):
        while self.at < len(self.lines):
            line = self.lines[self.at]
            self.at += 1
            if line and not line.startswith("# "):
                self.take(line)
        return self.found


def rows_in(path):
    reader = Reader(path)
    try:
        return reader.rows()
    except (Malformed, ValueError) as fault:
        raise Malformed(f"{reader.place()}: {fault}") from None


def read_all(names=()):
    """Reads all rows, or those of these topics and names."""
    rows, seen = [], set()
    for path in sorted(ROWS.glob("*.txt")):
        rows += [row for row in rows_in(path) if not names or path.stem in names or row.name in names]
    for row in rows:
        if row.name in seen:
            raise Malformed(f"{row.place}: there is another row {row.name}")
        if not row.runs:
            raise Malformed(f"{row.place}: {row.name} runs nothing")
        seen.add(row.name)
    if not rows:
        raise Malformed("there is no such row")
    return rows
