"""Has the drivers in C and Rust read damaged tables, under sanitizers and overflow checks.

The texts are drawn from tables that `lx gen` prints: bytes are changed, added and left out, lines are dropped, duplicated and swapped, and numbers are
replaced. Each driver reads all of them in one process, and lists a text by those that it accepts. It may refuse tables, or accept them if `lx up` accepts
them too. A crash, a step that a sanitizer stops, more time than the limit, and tables that `lx` refuses are failures.
"""
import random
import re
import shutil
import subprocess

from tests import support
from tests.drivers import cases
from tests.support import EXAMPLES, SANITIZERS, TESTS, Case, compile_by, run

PARSER = support.parser("Has the drivers in C and Rust read damaged tables.")
PARSER.add_argument("--count", default=2_000, type=int, metavar="N", help="how many texts are drawn (default: 2,000)")
PARSER.add_argument("--seed", default=1, type=int, metavar="N", help="the seed of the texts (default: 1)")
OPTIONS = PARSER.parse_args([])
LIMIT_SECONDS = 300
C_FILES = TESTS / "drivers"
SPECIFICATIONS = [C_FILES / "all_steps.l", *(EXAMPLES / f"{name}.l" for name in ("words", "ini", "json", "log", "shell", "c"))]
TEXT = b'ab 12\n"x y"\n\n#if 0\nab 07 /* c\n*/ {"k": -1.5e3, "\\"": [true]}\n'
NUMBER = re.compile(rb"\d+")
NUMBERS = [b"0", b"1", b"2", b"63", b"64", b"65", b"255", b"256", b"4096", b"4097", b"16511", b"16512", b"16513", b"65535", b"65536", b"2147483647", b"2147483648", b"4294967295",
           b"4294967296", b"18446744073709551615", b"18446744073709551616", b"00", b"01", b"-1", b""]  # fmt: skip
# The compiler and its words; the name of the program follows.
DRIVERS = {
    "lx.h by gcc": ["gcc", "-std=c99", "-Wall", "-Wextra", *SANITIZERS, C_FILES / "damage_by_header.c", "-o"],
    "lx.h by clang++": ["clang++", "-std=c++98", "-Wall", "-Wextra", *SANITIZERS, "-x", "c++", C_FILES / "damage_by_header.c", "-o"],
    "lx.rs": ["rustc", "--edition", "2021", "-O", "-C", "debug-assertions", "-C", "overflow-checks", C_FILES / "list_by_rust.rs", "-o"],
}


def with_number(draw, text):
    """Returns the text with one of its numbers replaced, by one at a limit or by a neighbour."""
    found = draw.choice(list(NUMBER.finditer(text)) or [None])
    if not found:
        return text
    near = max(0, int(found[0]) + draw.choice([-1, 1]))
    return text[: found.start()] + (draw.choice(NUMBERS) if draw.random() < 0.5 else b"%d" % near) + text[found.end() :]


def with_lines(draw, text):
    """Returns the text with a line dropped, duplicated, swapped with another, or moved."""
    lines = text.split(b"\n")
    one, other = draw.randrange(len(lines)), draw.randrange(len(lines))
    match draw.randrange(4):
        case 0:
            del lines[one]
        case 1:
            lines.insert(one, lines[one])
        case 2:
            lines[one], lines[other] = lines[other], lines[one]
        case 3:
            lines.insert(other, lines.pop(one))
    return b"\n".join(lines)


def with_byte(draw, text):
    return cases.mutated(draw, text, 1)


def damaged(draw, tables):
    """Returns a damaged text; one that is as it was is drawn anew."""
    text = tables
    while text == tables:
        for _ in range(draw.choice([1, 1, 1, 2, 3])):
            text = draw.choice([with_number, with_number, with_lines, with_byte])(draw, text)
    return text


def with_name_twice(tables):
    """Returns tables in which the second kind has the name of the first."""
    first, second = re.findall(rb"\nkind \w+", tables)[:2]
    return tables.replace(second + b"\n", first + b"\n", 1)


def answers_of(ended, count):
    """Returns what a driver says of each text; after its last answer, why it stopped."""
    answers = (b"\n" + ended.stdout.removesuffix(b"\n")).split(b"\n= ")[1:]
    if ended.returncode == 0 and len(answers) == count:
        return answers
    return answers[: count - 1] + [b"it ends with %d: " % ended.returncode + ended.stderr[:1_500]]


class DamagedTables(Case):
    def setUp(self):
        self.folder, self.known, draw = self.make_folder(), {}, random.Random(OPTIONS.seed)
        bases = [support.output_of("gen", path) for path in SPECIFICATIONS]
        self.texts = [with_name_twice(base) for base in bases if base.count(b"\nkind ") > 1]
        self.texts += [damaged(draw, draw.choice(bases)) for _ in range(OPTIONS.count)]
        (self.folder / "cases").write_bytes(b"".join(len(text).to_bytes(4, "little") + text for text in self.texts))
        (self.folder / "text").write_bytes(TEXT)

    def is_accepted(self, text):
        """Tells that `lx up` accepts tables."""
        if text not in self.known:
            ended = support.lx("up", "-", input=text, seconds=LIMIT_SECONDS)
            self.assertIn(ended.returncode, (0, 1), f"the status of lx up: {support.said_by(ended)}")
            self.known[text] = ended.returncode == 0
        return self.known[text]

    def fault_of(self, answer, text):
        """Says what is wrong with an answer, or returns nothing."""
        if answer.startswith(b"refused at line "):
            return ""
        if not answer.startswith(b"taken"):
            return answer.decode(errors="replace")
        return "" if self.is_accepted(text) else f"it accepts tables that lx up refuses: {text[:600]!r}"

    def list_by(self, driver, name):
        words = ["--damage"] if name == "lx.rs" else []
        try:
            ended = run(driver, *words, self.folder / "cases", self.folder / "text", seconds=LIMIT_SECONDS)
            return answers_of(ended, len(self.texts))
        except subprocess.TimeoutExpired:
            return [b"it runs for more than %d seconds" % LIMIT_SECONDS]

    def try_driver(self, name, driver):
        answers = self.list_by(driver, name)
        for number, text in enumerate(self.texts):
            answer = answers[number] if number < len(answers) else b"it gives no answer"
            fault = self.fault_of(answer, text)
            self.check(f"{name}, text {number}", not fault, fault)
        accepted = sum(answer.startswith(b"taken") for answer in answers)
        print(f"{name}: {len(self.texts)} damaged texts, {accepted} of them accepted")

    def test_drivers(self):
        for number, (name, words) in enumerate(DRIVERS.items()):
            if not shutil.which(words[0]):
                self.leave_out(name, f"there is no {words[0]}")
                continue
            driver = self.folder / f"driver{number}"
            compile_by(*words, driver, seconds=LIMIT_SECONDS)
            self.try_driver(name, driver)


if __name__ == "__main__":
    support.main(PARSER, OPTIONS)
