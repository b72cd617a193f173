"""Compares the listings of random texts by random specifications with those of the plain scanner, which has no automaton.

A specification has up to ten rules over a few bytes: repeats, groups, alternatives, definitions, `^`, `$`, start conditions, and actions with several
statements. A text has up to 2,000 such bytes; most of them occur in every rule, so that matches are long, fail late and end where others begin. `lx run`,
`lx run --stream` in blocks of one byte, and `lx scan` with one and with four workers in pieces of one token have to print what the plain scanner prints.
Specifications that are refused don't count.
"""
import concurrent.futures
import pathlib
import random
import tempfile

from tests import support
from tests.support import Case, difference, lx

PARSER = support.parser("Compares listings by random specifications with those of a scanner without an automaton.")
PARSER.add_argument("--count", default=200, type=int, metavar="N", help="how many specifications are tried (default: 200)")
PARSER.add_argument("--seed", default=1, type=int, metavar="N", help="the seed of the first one (default: 1)")
PARSER.add_argument("--jobs", default=support.PROCESSORS, type=int, metavar="N", help="how many are tried at a time")
OPTIONS = PARSER.parse_args([])
UNITS = ["a", "b", "c", "ab", "ba", "[ab]", "[^a]", "[^\\n]", "[a-c]", ".", "\\n", '" "', "[ \\n]", "{D}"]
REPEATS = ["", "", "", "*", "+", "+", "?", "{2}", "{1,2}"]
STATEMENTS = ["ECHO;", "ECHO; return K3;", "return K0;", "return K1;", "return 7;", "BEGIN(A);", "BEGIN B;", "BEGIN 0;"]
SCOPES = ["", "", "", "<A>", "<B>", "<A,B>", "<INITIAL,B>"]
BYTES = b"aaaabbbbcc \n\n\0\xff"


def drawn_pattern(draw, depth=2):
    def unit():
        return f"({drawn_pattern(draw, depth - 1)})" if depth and draw.random() < 0.2 else draw.choice(UNITS)

    sequence = lambda: "".join(unit() + draw.choice(REPEATS) for _ in range(draw.choice([1, 1, 2])))
    return "|".join(sequence() for _ in range(draw.choice([1, 1, 1, 2])))


def drawn_action(draw):
    statements = draw.sample(STATEMENTS, draw.choice([1, 1, 2, 3]))
    return draw.choice([";", "return K0;", "return K2;", "{ " + " ".join(statements) + " }"])


def drawn_rule(draw, is_last):
    action = "|" if not is_last and draw.random() < 0.1 else drawn_action(draw)
    return draw.choice(SCOPES) + draw.choice(["", "", "", "^"]) + drawn_pattern(draw) + draw.choice(["", "", "", "", "$"]) + " " + action


def drawn_specification(draw):
    count = draw.randint(1, 10)
    rules = [drawn_rule(draw, number == count - 1) for number in range(count)]
    return "\n".join([f"D {drawn_pattern(draw, 1).replace('{D}', 'a')}", "%s A", "%x B", "%%", *rules, ""]).encode()


def drawn_text(draw):
    pieces = [bytes(draw.choices(BYTES, k=draw.randint(1, 12))) for _ in range(4)]
    text = b"".join(draw.choice(pieces) if draw.random() < 0.7 else bytes([draw.choice(BYTES)]) for _ in range(draw.choice([0, 3, 30, 300])))
    return text[:2_000]


def listed_again(listing):
    """Returns the lines of the same file as the second one."""
    return b"".join(b"1" + line[1:] + b"\n" for line in listing.split(b"\n")[:-1])


def faults_of(seed):
    """Says what is wrong with the listings by one specification. Returns nothing if it is refused."""
    draw = random.Random(seed)
    with tempfile.TemporaryDirectory(prefix="lx-test-") as folder:
        path = lambda name: pathlib.Path(folder, name)
        path("S").write_bytes(drawn_specification(draw))
        path("F").write_bytes(drawn_text(draw))
        tables = lx("gen", "S", cwd=folder)
        if tables.returncode:
            return None
        path("T").write_bytes(tables.stdout)
        plain = support.run(support.built("lx_plain"), "S", "F", cwd=folder)
        if plain.returncode:
            return [f"lx_plain ends with {plain.returncode}: {support.said_by(plain)}"]
        once, twice = plain.stdout, plain.stdout + listed_again(plain.stdout)
        commands = {"run S F": once, "run --stream -b 1 S F": once, "scan -j 1 -b 1 T F": once, "scan -j 4 -b 1 T F F": twice}
        ends = {words: (lx(*words.split(), cwd=folder), wanted) for words, wanted in commands.items()}
        return [f"lx {words} ends with {ended.returncode}: {difference(ended.stdout, wanted)}" for words, (ended, wanted) in ends.items() if ended.returncode or ended.stdout != wanted]


class RandomRules(Case):
    def test_listings(self):
        support.built("lx"), support.built("lx_plain")
        tried, seed = 0, OPTIONS.seed
        with concurrent.futures.ThreadPoolExecutor(OPTIONS.jobs) as pool:
            while tried < OPTIONS.count:
                seeds = range(seed, seed + OPTIONS.count - tried)
                seed = seeds.stop
                for number, faults in zip(seeds, pool.map(faults_of, seeds)):
                    if faults is not None:
                        tried += 1
                        self.check(f"the specification of seed {number}", not faults, "\n".join(faults))


if __name__ == "__main__":
    support.main(PARSER, OPTIONS)
