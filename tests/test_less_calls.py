"""Compares what P_less of printed scanners does with a plain scanner in Python: the next token, and the line and the column of each.

The specifications are fixed and random ones whose tokens often contain newlines; of each a scanner is printed, by rows and with --direct. A third of the
tokens are shortened to a drawn length, in a text that is handed over whole, and in parts of 1, 3 and 7 bytes. The scanners are compiled with sanitizers, and
once with P__NO_LINES, by which all lines are 1. A length of 0, one above the token's, and an earlier token have to change nothing. A check is a listing.
"""
import random

from tests import support
from tests.drivers import cases
from tests.support import SANITIZERS, TESTS, Case, compile_by, output_of, run

import lx  # of drivers/

PARSER = support.parser("Compares P_less of printed scanners with a plain scanner.")
PARSER.add_argument("--specifications", default=12, type=int, metavar="N", help="how many specifications are tried (default: 12)")
PARSER.add_argument("--seed", default=1, type=int, metavar="N", help="the seed of the random specifications (default: 1)")
OPTIONS = PARSER.parse_args([])
LIMIT_SECONDS = 300
C_FILES = TESTS / "drivers"
FLAGS = ["-std=c99", "-Wall", "-Wextra", "-Werror", "-Wno-unused-function", *SANITIZERS]
PARTS = [0, 1, 3, 7]
FORMS = {"rows": [], "direct": ["--direct"]}
LINES = {"lines": [], "no-lines": ["-DNO_LINES"]}
# A token with newlines and each kind of action; the last rules tell if they match at the begin of a line.
FIXED = [
    b"%%\n\"<\"[^>]*\">\" return BOX;\n[a-z]+ return ID;\n\\n ;\n^[0-9]+ return FIRST;\n[0-9]+ return NUM;\n",
    b"%x IN\n%%\na(.|\\n)*b { ECHO; BEGIN IN; return LONG; }\n<IN>(.|\\n){1,5} { BEGIN INITIAL; return SHORT; }\n\\n+ return LINES;\n",
    b"%%\n(ab\\n)+ return A;\n^b return B;\n\\n$ return N;\n(.|\\n){3} return ANY;\n",
]
LINE_BYTES = b"aabb01<>\n\n\n"


def less_length(number, start, length):
    """Returns the length to which a token is shortened, as less.h has it."""
    drawn = (number * 2654435761 + start * 40503 + length * 9973) & 0xFFFFFFFF
    return 1 + (drawn >> 16) % length if (drawn >> 8) % 3 == 0 else length


def longest(tables, data, condition, at):
    """Returns the action and the end of the next match, tried length by length."""
    row = tables.starts[condition][at == 0 or data[at - 1] == 10]
    action, end = lx.ECHO_BYTE, at + 1
    for place in range(at, len(data)):
        row = row[tables.classes[data[place]]]
        if not row:
            break
        if row[-1] and place + 1 - row[-1].gives_back > at:
            action, end = row[-1], place + 1 - row[-1].gives_back
    return action, end


def wanted_lines(tables, data):
    """Yields kind, start, line, column and text of each token, and the length to which it is shortened, if it is."""
    at, condition, number = 0, 0, 0
    while at < len(data):
        action, end = longest(tables, data, condition, at)
        for what, value in action.steps:
            if what == lx.BEGIN:
                condition = value
                continue
            length = less_length(number, at, end - at)
            line, column = data.count(b"\n", 0, at) + 1, at - data.rfind(b"\n", 0, at)
            yield value, at, line, column, data[at:end], length if length != end - at else None
            end, number = at + length, number + 1
        at = end


def numbered(tables):
    """Returns the number of each kind in C: names are counted from 256, or from one above the greatest number that an action returns."""
    returned = [value for action in tables.actions for what, value in action.steps if what == lx.ITEM and isinstance(value, int)]
    first = max([255, *returned]) + 1
    return {None: -2, **{name: first + place for place, name in enumerate(tables.kinds)}}


def wanted_listing(tables, data, has_lines):
    kinds, lines = numbered(tables), []
    for kind, start, line, column, text, shortened in wanted_lines(tables, data):
        place = f"{line} {column}" if has_lines else f"1 {start + 1}"
        lines.append(f"{kinds.get(kind, kind)} {start} {place} {text.hex()}" + (f" {shortened}" if shortened else "") + "\n")
    return "".join(lines)


class Tables(lx.Tables):
    """Tables with the actions of all rules."""

    def _action(self, reader, conditions):
        action = super()._action(reader, conditions)
        self.actions = [*getattr(self, "actions", []), action]
        return action


def chosen_specifications(count, draw):
    """Returns the fixed specifications, and random ones that are accepted."""
    found = [*FIXED]
    while len(found) < count:
        text = cases.specification(draw)
        if support.lx("gen", "-", input=text).returncode == 0:
            found.append(text)
    return found


def random_texts(draw):
    return [bytes(draw.choice(LINE_BYTES) for _ in range(size)) for size in (20, 120, 400, 400)]


def source_of(folder, prefixes):
    """Returns a program that lists its input by the scanner with the number of its first word, in parts of its second."""
    includes = "".join(f'#define P(name) {prefix}_##name\n#define {prefix}__API static inline\n#ifdef NO_LINES\n#define {prefix}__NO_LINES\n#endif\n'
                       f'#include "{folder}/{prefix}.c"\n#include "less.h"\n#undef P\n' for prefix in prefixes)  # fmt: skip
    choice = "".join(f"    case {number}: {prefix}_list_less(text, size, part); break;\n" for number, prefix in enumerate(prefixes))
    return f"""{includes}
int main(int argc, char **argv)
{{
    static char text[100000];
    const size_t size = fread(text, 1, sizeof text, stdin), part = argc > 2 ? strtoul(argv[2], NULL, 10) : 0;
    switch (argc > 1 ? atoi(argv[1]) : -1) {{
{choice}    default: return 2;
    }}
    return 0;
}}
"""


class LessCalls(Case):
    def setUp(self):
        self.compiler, self.top, draw = support.tool("gcc", "clang"), self.make_folder(), random.Random(OPTIONS.seed)
        self.specifications = chosen_specifications(OPTIONS.specifications, draw)
        self.tried = [(Tables(output_of("gen", "-", input=text)), random_texts(draw)) for text in self.specifications]

    def compile_form(self, form):
        """Compiles the program over the scanners of a form, with lines and without."""
        folder = self.top / form
        folder.mkdir()
        prefixes = [f"s{number}" for number in range(len(self.specifications))]
        for prefix, specification in zip(prefixes, self.specifications):
            (folder / f"{prefix}.c").write_bytes(output_of("gen", "--c", *FORMS[form], "--prefix", prefix, "-", input=specification))
        (folder / "main.c").write_text(source_of(folder, prefixes))
        for name, words in LINES.items():
            compile_by(self.compiler, *FLAGS, *words, f"-I{C_FILES}", "-o", folder / name, folder / "main.c", seconds=LIMIT_SECONDS)
        return folder

    def try_text(self, folder, number, text):
        tables, specification = self.tried[number][0], self.specifications[number].decode()
        for name in LINES:
            wanted = wanted_listing(tables, text, name == "lines")
            for part in PARTS:
                ended = run(folder / name, number, part, input=text, seconds=LIMIT_SECONDS)
                found = ended.stdout.decode() + (f"status {ended.returncode}: {support.said_by(ended)}" if ended.returncode else "")
                self.expect(f"{folder.name}, {name}, parts of {part}, {text!r} by {specification!r}", found, wanted)

    def test_forms(self):
        shortened = sum(b"\n" in line[4] and line[5] is not None for tables, texts in self.tried for text in texts for line in wanted_lines(tables, text))
        self.assertTrue(shortened, "no token with a newline is shortened")
        for form in FORMS:
            folder = self.compile_form(form)
            for number, (_, texts) in enumerate(self.tried):
                for text in texts:
                    self.try_text(folder, number, text)
        print(f"{len(self.specifications)} specifications, {shortened} tokens with newlines shortened in each listing of them")


if __name__ == "__main__":
    support.main(PARSER, OPTIONS)
