"""Compares the scanners for other programs with `lx scan`: those of drivers/, which read tables, and those that `lx gen --c` prints.

Each lists texts by the specifications of examples/ and by random ones: whole, in parts of 1, 3 and 5 bytes, and by 1 and 7 tokens a call, as far as it can.
Items, lines and columns have to be those of `lx scan`. The test programs in C run under sanitizers. Then the other calls of the drivers are tried, and each
driver reads damaged tables: it has to refuse every text that is cut off, and of the others all drivers refuse the same at the same lines, and list the rest
alike, and as `lx` does if `lx` accepts them.
"""
import concurrent.futures
import pathlib
import random
import tempfile

from tests import scanners, support
from tests.drivers import cases
from tests.scanners import C_FILES, Wanted, tables_of, with_columns
from tests.support import EXAMPLES

PARSER = support.parser("Compares the drivers, and the scanners that `lx gen --c` prints, with `lx scan`.")
PARSER.add_argument("--specifications", default=40, type=int, metavar="N", help="how many random specifications are tried (default: 40)")
PARSER.add_argument("--seed", default=1, type=int, metavar="N", help="the seed of the random specifications (default: 1)")
PARSER.add_argument("--jobs", default=support.PROCESSORS, type=int, metavar="N", help="how many listings are made at a time")
PARSER.add_argument("scanners", nargs="*", metavar="SCANNER", help=f"these alone, of {', '.join(kind.name for kind in scanners.ALL)}")
OPTIONS = PARSER.parse_args([])
MOST_TAKEN = 300
DAMAGED_TEXT = b'ab 12\n"x y"\n\n#if 0\nab 07 /* c\n*/ {"k": -1.5e3, "\\"": [true]}\n'


def all_cases(count, draw):
    """Returns the cases of examples/, and this many random ones whose specification is accepted."""
    found = list(cases.example_cases(EXAMPLES, draw))
    for case in found:
        case.tables = tables_of(case.specification)
    while count:
        case = cases.random_case(draw, count)
        case.tables = tables_of(case.specification)
        if case.tables:
            count -= 1
            found.append(case)
    return found


def damaged_texts(draw):
    """Returns texts of tables that are cut off, and others with lines, fields or a byte changed."""
    paths = [C_FILES / "all_steps.l", EXAMPLES / "json.l", EXAMPLES / "c.l"]
    all_tables = [tables_of(path.read_bytes()) for path in paths]
    cut_off = [text for tables, most in zip(all_tables, (10_000, 400, 100)) for text in cases.truncated(tables, most, draw)]
    rearranged = [text for tables in all_tables for text in cases.rearranged(tables, 400, draw)]
    return cut_off, rearranged + [text for tables, most in zip(all_tables, (10_000, 4_000, 100)) for text in cases.changed(tables, most, draw)]


def answers_of(listing, count):
    """Returns what a driver says of each damaged text."""
    answers = (b"\n" + listing.removesuffix(b"\n")).split(b"\n= ")[1:]
    return answers + [b"nothing, since it ended before: " + listing[-1_000:]] * (count - len(answers))


def is_refused(answer):
    return answer.startswith(b"refused")


class CScanners(scanners.Listings):
    @classmethod
    def setUpClass(cls):
        cls.folder = pathlib.Path(cls.enterClassContext(tempfile.TemporaryDirectory(prefix="c-scanners-")))
        cls.pool = cls.enterClassContext(concurrent.futures.ThreadPoolExecutor(OPTIONS.jobs))
        cls.draw, cls.made = random.Random(OPTIONS.seed), {}
        cls.cases = all_cases(OPTIONS.specifications, cls.draw)

    def chosen(self):
        """Makes the scanners that are chosen and whose tools are there."""
        for kind in scanners.ALL:
            if kind not in self.made and (not OPTIONS.scanners or kind.name in OPTIONS.scanners):
                self.made[kind] = self.make_scanner(kind, self.folder)
        return [scanner for scanner in self.made.values() if scanner]

    def readers(self):
        readers = [scanner for scanner in self.chosen() if scanner.reads_tables]
        if not readers:
            self.skipTest("no driver is chosen")
        return readers

    def test_listings(self):
        make = lambda numbered: Wanted(numbered[1], self.folder / f"case{numbered[0]}")
        wanted = list(self.pool.map(make, enumerate(self.cases)))
        for scanner in self.chosen():
            if hasattr(scanner, "prepare"):
                scanner.prepare(self.cases, self.pool)
            self.try_listings(scanner, wanted, self.pool)

    def test_other_calls(self):
        tables = self.folder / "all-steps"
        tables.write_bytes(tables_of((C_FILES / "all_steps.l").read_bytes()))
        for driver in self.readers():
            self.expect(f"{driver.name}, other calls", driver.calls(tables), b"")

    def test_damaged_tables(self):
        readers = self.readers()
        cut_off, changed = damaged_texts(self.draw)
        texts = cut_off + changed
        (self.folder / "damaged").write_bytes(b"".join(len(text).to_bytes(4, "little") + text for text in texts))
        (self.folder / "text").write_bytes(DAMAGED_TEXT)
        first = None
        for driver in readers:
            answers = answers_of(driver.damage(self.folder / "damaged", self.folder / "text"), len(texts))
            taken = [number for number in range(len(cut_off)) if not answers[number].startswith(b"refused at line")]
            self.check(f"{driver.name}, texts that are cut off", not taken, f"{len(taken)} of {len(cut_off)} aren't refused, the first is number {taken[:1]}")
            first = first or answers
            self.expect(f"{driver.name}, damaged texts", b"\n= ".join(answers), b"\n= ".join(first))
            print(f"{driver.name}: {len(texts)} damaged texts, {sum(not is_refused(answer) for answer in answers)} of them accepted")
        self.try_accepted(first, texts)

    def try_accepted(self, answers, texts):
        """Compares the listings by damaged texts that the drivers accept with those of `lx`, if it accepts them too."""
        taken = [number for number, answer in enumerate(answers) if not is_refused(answer)]
        for number in sorted(self.draw.sample(taken, min(len(taken), MOST_TAKEN))):
            (self.folder / "tables").write_bytes(texts[number])
            ended = support.lx("scan", "-j", "1", self.folder / "tables", self.folder / "text", seconds=scanners.SECONDS)
            if ended.returncode == 0:
                self.expect(f"damaged text {number}", answers[number] + b"\n", b"taken\n" + with_columns(ended.stdout, [DAMAGED_TEXT]))


if __name__ == "__main__":
    support.main(PARSER, OPTIONS)
