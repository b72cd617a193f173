"""Compares the listings of many runs of `lx scan -j 8`, byte for byte, with that of `lx run`.

It makes 500 files of 0 to 70,000 bytes, most of them C and some of any bytes; about every tenth one is empty, and so are the first and the last. The
listing that is due is that of `lx run` by examples/c.l, and `lx scan -j 1` has to print the same for each batch size. Then `lx scan -j 8 -b K` runs 60
times, with 1, 7 and 256 for K in turn, and every second time on one processor alone. A run that takes more than 60 seconds hangs. With --delays threads
sleep at random before requests for memory and where they yield, by the library of delays.c.
"""
import collections
import os
import random
import subprocess
import time

from tests import support
from tests.support import EXAMPLES, LIMIT_SECONDS, Case, difference, output_of

import inputs  # of bench/

PARSER = support.parser("Compares the listings of many runs with 8 workers.")
PARSER.add_argument("--runs", default=60, type=int, metavar="N", help="how often lx scan runs (default: 60)")
PARSER.add_argument("--files", default=500, type=int, metavar="N", help="how many files it lists (default: 500)")
PARSER.add_argument("--seed", default=1, type=int, metavar="N", help="the seed of the files (default: 1)")
PARSER.add_argument("--delays", action="store_true", help="let threads sleep at random before requests for memory and where they yield")
OPTIONS = PARSER.parse_args([])
RULES = EXAMPLES / "c.l"
LARGEST = 70_000
WORKERS = 8
BATCHES = [1, 7, 256]

Kind = collections.namedtuple("Kind", "processors batch")


def drawn_size(draw):
    """Returns a size, of one digit as often as of two, and so on."""
    return 0 if draw.random() < 0.1 else min(LARGEST, int(10 ** draw.uniform(0, 4.9)))


def make_files(count, seed, folder):
    draw, functions = random.Random(seed), inputs.c_functions()
    sizes = [drawn_size(draw) for _ in range(count)]
    sizes[count // 2] = LARGEST
    sizes[0] = sizes[-1] = 0
    paths = [folder / f"{number}.c" for number in range(count)]
    for path, size in zip(paths, sizes):
        with open(path, "wb") as file:
            if draw.random() < 0.1:
                file.write(draw.randbytes(size))
            inputs.fill(file, size, functions)
            # The file may end within a token or a comment.
            file.truncate(size)
    return paths


def delayed_by(library, seed):
    """Returns the environment in which the threads of a program are delayed, if there is a library for it."""
    return {**os.environ, "LD_PRELOAD": str(library), "DELAYS_SEED": str(seed)} if library else None


def fault_of(due, *words, **how):
    """Says what is wrong with a run whose listing is due, or returns nothing."""
    try:
        ended = support.lx(*words, **how)
    except subprocess.TimeoutExpired:
        return f"it hangs: it was ended after {LIMIT_SECONDS} seconds"
    if ended.returncode:
        return f"it ends with {ended.returncode}: {support.said_by(ended)}"
    return "" if ended.stdout == due else difference(ended.stdout, due)


class Threads(Case):
    def setUp(self):
        self.folder = self.make_folder()
        self.files = make_files(OPTIONS.files, OPTIONS.seed, self.folder)
        self.tables = self.folder / "tables"
        self.tables.write_bytes(output_of("gen", RULES))
        self.due = output_of("run", RULES, *self.files)
        self.library = support.preloaded_library("delays.c", self.folder) if OPTIONS.delays else None
        self.seconds = collections.defaultdict(list)

    def scan(self, workers, batch, **how):
        return fault_of(self.due, "scan", "-j", workers, "-b", batch, self.tables, *self.files, **how)

    def run_on(self, kind, number):
        """Scans on the first processors alone, and notes the time."""
        own, begun = os.sched_getaffinity(0), time.perf_counter()
        os.sched_setaffinity(0, sorted(own)[: kind.processors])
        try:
            return self.scan(WORKERS, kind.batch, env=delayed_by(self.library, number))
        finally:
            os.sched_setaffinity(0, own)
            self.seconds[kind].append(time.perf_counter() - begun)

    def print_times(self):
        for kind, seconds in sorted(self.seconds.items()):
            print(f"-j {WORKERS} -b {kind.batch:<3} on {kind.processors} processors: {len(seconds)} runs, {min(seconds):.2f} to {max(seconds):.2f} seconds each")

    def test_runs(self):
        self.assertGreater(min(OPTIONS.runs, OPTIONS.files), 0, "there has to be a run and a file")
        for batch in BATCHES:
            self.assertEqual(self.scan(1, batch), "", f"lx scan -j 1 -b {batch}")
        size = sum(path.stat().st_size for path in self.files)
        print(f"{len(self.files)} files of {size / 1e6:.1f} MB, {self.due.count(10)} lines of listing, the same by lx run and lx scan -j 1")
        for number in range(OPTIONS.runs):
            kind = Kind(1 if number % 2 else support.PROCESSORS, BATCHES[number // 2 % len(BATCHES)])
            fault = self.run_on(kind, number)
            self.check(f"run {number + 1}, -b {kind.batch}, on {kind.processors} processors", not fault, fault)
        self.print_times()


if __name__ == "__main__":
    support.main(PARSER, OPTIONS)
