"""Refuses memory to the program and to single calls of the libraries: each refusal is answered, and none ends in an abort.

The library of refuse.c is loaded before the C library, and refuses requests for memory. Each case runs for N from 1 on, once with the Nth request refused
and once with the Nth and all later ones, until a run passes without a refusal. The cases are the commands of `lx` over examples/ and over small
specifications, and the calls of crates/lx_calls, whose program is crates/lx_calls/out/lx_calls or LX_CALLS.

- A run of `lx` has to answer as with ample memory, but for the lines after the first of a refusal, or end with status 5, `lx: out of memory` and a prefix of
  the output.
- A call prints `refused` if it answers that memory was refused, is made once more, and prints its answer; or `not begun` if there was no memory to begin.
  crates/lx_calls/stdout has the answers with ample memory.
- A call that takes no memory asks for 1,234,567 bytes before it begins. From then on everything is refused, and it may ask for nothing.
- On one thread and with one worker, ten times the pieces of the same files take at most 1.1 times the requests for memory, in the best of 8 runs.

A line is printed for each case: how often memory was refused, and the seconds.
"""
import concurrent.futures
import os
import re
import shutil
import subprocess
import time
from typing import NamedTuple

from tests import support
from tests.support import EXAMPLES, TOP, Case

PARSER = support.parser("Refuses memory to the program and to single calls of the libraries.")
PARSER.add_argument("--jobs", type=int, default=support.PROCESSORS, metavar="N", help="how many runs there are at a time")
PARSER.add_argument("--only", default="", metavar="WORD", help="the cases whose names contain this word")
OPTIONS = PARSER.parse_args([])
LIMIT_SECONDS = 20
CHUNK = 64
OUT_OF_MEMORY = b"lx: out of memory\n"
# These of the specifications of examples/.
NAMES = ("c", "ini", "json", "log", "words")
MODES = ("REFUSE_ONCE", "REFUSE_FROM")
LAST_REQUEST = "1234567"
REQUEST_RUNS = 8

THREE_RULES = "%%\n[a-z]+ return ID;\n[0-9]+ return NUM;\n[ \\n]+ ;\n"
FLEX = """\
%option case-insensitive
D [0-9]
%x STR
%%
ab{2} { count++; return ID; }
<STR>{
{D}+ |
\\" BEGIN(INITIAL);
<<EOF>> yyterminate();
}
"""
SCANNER = """\
%option yylineno stack prefix="zz"
%{
int count;
%}
D [0-9]
%x STR
%%
    int here = 0;
^{D}+ { count += here; return 1; }
zx*/xy* yymore();
a{2}/b |
[a-z]+$ ECHO;
<STR>{
\\" BEGIN(INITIAL);
<<EOF>> yyterminate();
}
%%
int main(void) { return yylex(); }
"""
THREE_RULES_FIRST = """\
lx-tables 1
conditions 1
start 0 0
kinds 2
kind ID
kind NUM
rules 3
rule 0 k0
rule 0 k1
rule 0
states 4
state - 10-10:1 32-32:1 48-57:2 97-122:3
state 2 10-10:1 32-32:1
state 1 48-57:2
state 0 97-122:3
end
"""

# Specifications, each with a text.
ROWS = {
    "three-rules": (THREE_RULES, "ab 12\n"),
    "echo-unmatched": ("%%\n", "hi"),
    "keyword-or-identifier": ("%%\nif return IF;\n[a-z]+ return ID;\n", "if ifx"),
    "back-up": ("%%\nab return A;\nabcd return B;\nc return C;\n", "abcx"),
    "interval": ("D [0-9]\n%%\na({D}{1,2}) return Q;\nab{2} return P;\n", "a123ababb"),
    "intervals-in-turn": ("%%\nab{2}c{2} return P;\n", "ababcababc"),
    "interval-in-alternative": ("%%\na|bc{2} return P;\n", "bcbca"),
    "zero-interval": ("%%\na{0}b return P;\n", "ab"),
    "zero-times-large": ("%%\n((a{255}){255}){0}b return B;\n", "b"),
    "quoted-unit": ('%%\n"ab"* return P;\n', "ababa"),
    "dollar": ("%%\nfoo/\\n return E;\nfoo return F;\n", "foo\nfoo"),
    "caret": ("%%\n^# return H;\n# return S;\n", "##\n#"),
    "line-end": ("%%\nfoo return F;\nfoo$ return E;\n^# return H;\n", "foo\nfoo#\n#"),
    "conditions": ('%x C\n%s D\n%%\nb return B;\n"/*" BEGIN(C);\n<C>"*/" BEGIN(0);\n<C>.|\\n ;\n', "b/*b*/c"),
    "inclusive-condition": ("%s S\n%%\na BEGIN S;\n<S>b return B;\nb return N;\n", "bab"),
    "shared-action": ("%%\na |\nb { ECHO; return AB; }\n", "ab"),
    "empty-match": ("%%\nx* return X;\n", "axx"),
    "empty-line": ("%%\nx*$ return X;\n\\n return N;\n", "\n"),
    "negated-class": ("%%\n[^a] return O;\n. return D;\n", "a\n\0"),
    "range-to-minus": ("%%\n[!--] return P;\n", "!-."),
    "class-in-bracket": ("%%\n[[:digit:]x]+ return P;\n", "1x2y"),
    "brackets": ("D [0-9]\n%%\n\"{D}\" return Q;\n[{D}[:alpha:]] return B;\n[^a] return 65;\n", "{D}D1"),
    "escapes": ('%%\n"\\01""1" return S;\n\\x41* return \'A\';\n', "\0011AA"),
    "definitions": ("/* note\nmore */\n%option noyywrap\nN1 {N2}\nN2 [a-c]\n%{\ncode\n%}\n%%\n{N1}+ return A;\n%%\n}{\n", "abcd"),
    "name-depth": ("".join(f"N{i} {{N{i + 1}}}\n" for i in range(1, 32)) + "N32 a\n%%\n{N1} return A;\n", "a"),
    "deep-groups": ("%%\n" + "(" * 511 + "a" + ")" * 511 + " return A;\n", "a"),
    "crlf": (THREE_RULES.replace("\n", "\r\n"), "ab 12\n"),
    "line-numbers-kept": ("%%\n[a\\n]+ return T;\nb return B;\n", "a\nb"),
}
REFUSED = {
    "E01": "%%\n" + " " * 1_048_576,
    "E02": "a b\n",
    "E03": "%%\na {",
    "E04": "x-y 1\n%%\n",
    "E05": "D 1\nD 2\n%%\n",
    "E06": f"%x {' '.join(f'C{number}' for number in range(64))}\n%%\n",
    "E10": "%%\na return A;\na/b ;\n",
    "E11": "%%\n{N} ;\n",
    "E12": "A {A}\n%%\n{A} ;\n",
    "E13": "%%\na BEGIN Q;\n",
    "E20": "%%\na REJECT;\n",
    "E21": "%%\na |\n",
    "E30": "%%\n(a{128}){128}|b ;\n",
}
FILES = {"flex": FLEX, "scanner.l": SCANNER, "no-scanner.l": "%option what\n%%\n<A>a ;\nb(c ;\n", "warned.l": "%option nodefault\n%%\n[a-z]+ ;\nif ;\nx*/y ;\nab{2} ;\n", "rejecting.l": "%%\nab? REJECT;\na ;\n[ab]+ ;\n", "no-flex": "%%\na/b ;\nc REJECT;\n", "first.tables": THREE_RULES_FIRST, "a": "a", "empty": "", "lines": "1\n2", "names": "a\nlines\n"}

SCANS = [["scan", "-j", "1"], ["scan", "-j", "4"]]
HELP = [[], ["-h"], ["--help"], ["run", "-h"], ["gen", "-h"], ["scan", "-h"], ["up", "-h"]]
BATCHES = [
    [*command, "a", name, "lines"]
    for command in (["run", "-b", "1", "three-rules.l"], *([*scan, "-b", "1", "first.tables"] for scan in SCANS))
    for name in ("empty", "cut")
]
FORMS = [["run", *form, "three-rules.l", "a", "lines", "cut"] for form in (["--names"], ["--only=-,43", "--no-text"], ["--format", "json"], ["--only", "none"])]
STREAMS = [
    *(["run", "--stream", *form, "three-rules.l", "a", "lines", "cut", "a"] for form in ([], ["--format", "json", "--names"], ["--only=-,43", "--no-text"])),
    ["scan", "--stream", "-b", "1", "first.tables", "lines", "gone"], ["run", "--stream", "-j", "1", "three-rules.l", "a"],
]  # fmt: skip
LISTS = [["run", "--files-from", *words, "three-rules.l", "a"] for words in (["names"], ["names", "-0"], ["a"], ["gone"], ["cut"])]
OTHERS = [
    ["check", "E10.l"], ["check", "--json", "E11.l"], ["check", "words.l"],
    ["explain"], ["explain", "E10"], ["show", "words.l"], ["show", "first.tables"], ["show", "E10.l"],
    ["import", "flex"], ["import", "-o", "target", "-c", "actions", "flex"], ["import", "no-flex"], ["import", "--lossy", "no-flex"],
    ["flex", "-tv", "scanner.l"], ["lex", "-t", "scanner.l", "words.l"], ["flex", "-t", "no-scanner.l"], ["flex", "-o", "scanner.c", "--header-file=scanner.h", "scanner.l"],
    ["flex", "-t", "rejecting.l"], ["flex", "-t", "warned.l"], ["check", "--flex", "warned.l"], ["check", "--flex", "-q", "no-scanner.l"], ["check", "--flex", "-q", "cut"],
    ["flex", "--help"], ["flex", "--what"], ["flex", "gone"], ["flex", "cut"],
    ["none"], ["scan"], ["scan", "first.tables"], ["run", "-b", "0", "three-rules.l", "a"], ["gen", "a", "a"], ["scan", "-j", "9", "first.tables", "a"],
    ["run", "three-rules.l", "gone"], ["run", "gone", "a"], ["run", "cut", "a"], ["scan", "a", "a"], ["up", "three-rules.l"], ["up", "gone"],
]  # fmt: skip


class Answer(NamedTuple):
    status: int
    out: bytes
    err: bytes


class Trial(NamedTuple):
    """A program with its words; a call of a library has the lines that it answers with ample memory."""

    name: str
    words: tuple
    lines: tuple = None
    takes_memory: bool = True


class Tried(NamedTuple):
    """The end of the count of N, the number of runs that were refused memory and of those among them that answered in full, and the faults."""

    ended: bool
    refused: int
    full: int
    faults: list


def run(words, folder, **environment):
    """Returns what a run answers, or None if it was ended at the limit."""
    try:
        ended = support.run(*words, cwd=folder, env={**os.environ, **environment}, seconds=LIMIT_SECONDS)
    except subprocess.TimeoutExpired:
        return None
    return Answer(ended.returncode, ended.stdout, ended.stderr)


def fault_of_program(answer, ample):
    """Says what is wrong with an answer of `lx` that was refused memory, or returns nothing."""
    if answer == ample:
        return None
    if answer.status == 5 and answer.err == OUT_OF_MEMORY and ample.out.startswith(answer.out):
        return None
    first = ample.err.splitlines(keepends=True)[:1]
    if answer.status == ample.status in (1, 2) and answer.out == ample.out and first == [answer.err] and answer.err.startswith(b"lx: "):
        return None
    return "is neither the answer with ample memory nor `lx: out of memory`"


def is_prefix(lines, wanted):
    return lines == list(wanted[: len(lines)])


def wrote_only_prefixes(found, lines):
    """Tells that what a call wrote before each refusal is a prefix of its answer."""
    written = []
    for line in [*found, "refused"]:
        if line == "refused":
            if not is_prefix(written, lines):
                return False
            written = []
        elif line.startswith("refused "):
            written.append(line.removeprefix("refused "))
    return True


def fault_of_call(answer, lines, mode):
    """Says what is wrong with the lines of a call that was refused memory, or returns nothing. After `refused ` is a line that was written before."""
    if answer.status != 0 or answer.err:
        return "doesn't end with 0"
    found = answer.out.decode().splitlines()
    if found == ["not begun"]:
        return None
    if not wrote_only_prefixes(found, lines):
        return "wrote what is no prefix of its answer"
    given = [line for line in found if not line.startswith("refused")]
    if given == list(lines):
        return None
    is_cut = mode == "REFUSE_FROM" and "refused" in found
    if is_cut and given[-1:] == ["not begun"]:
        given.pop()
    return None if is_cut and is_prefix(given, lines) else "isn't the answer with ample memory"


def fault_of(trial, mode, answer, ample, was_refused):
    if answer is None:
        return f"takes more than {LIMIT_SECONDS} seconds"
    if answer.status < 0:
        return f"is ended by signal {-answer.status}"
    if not was_refused:
        return None if answer == ample else "differs though nothing was refused"
    return fault_of_program(answer, ample) if trial.lines is None else fault_of_call(answer, trial.lines, mode)


def try_some(trial, folder, library, ample, mode, first, count):
    """Tries `count` numbers from `first` on, and stops after the one at which nothing was refused."""
    mark = folder / f"mark.{os.getpid()}"
    refused, full, faults = 0, 0, []
    for number in range(first, first + count):
        mark.unlink(missing_ok=True)
        answer = run(trial.words, folder, LD_PRELOAD=str(library), REFUSE_MARK=str(mark), **{mode: str(number)})
        was_refused = mark.exists()
        fault = fault_of(trial, mode, answer, ample, was_refused)
        if fault:
            faults.append(f"{trial.name}: {mode}={number}: {fault}: {answer}")
        refused += was_refused
        full += was_refused and answer == ample
        if not was_refused and answer is not None:
            return Tried(True, refused, full, faults)
    return Tried(False, refused, full, faults)


def requests_of(words, folder, library):
    """Counts the requests of a run with ample memory."""
    told = folder / "told"
    told.unlink(missing_ok=True)
    run(words, folder, LD_PRELOAD=str(library), REFUSE_TOLD=str(told))
    return int(told.read_text().split()[0])


def try_all(pool, trial, folder, library, ample):
    """Tries each N in both modes."""
    requests, tried = requests_of(trial.words, folder, library), []
    for mode in MODES:
        starts = range(1, requests + 1, CHUNK)
        parts = [pool.submit(try_some, trial, folder, library, ample, mode, start, CHUNK) for start in starts]
        parts = [part.result() for part in parts]
        # Threads take turns, so a run may make more requests than the one that was counted.
        while not (parts and (parts[-1].ended or parts[-1].faults)):
            parts.append(try_some(trial, folder, library, ample, mode, 1 + CHUNK * len(parts), CHUNK))
        tried += parts
    return tried


def faults_without_memory(trial, folder, library, ample):
    """Says what is wrong with a call that takes no memory, if everything is refused once it is prepared."""
    told, mark = folder / "told", folder / "mark"
    mark.unlink(missing_ok=True)
    told.unlink(missing_ok=True)
    answer = run(trial.words, folder, LD_PRELOAD=str(library), REFUSE_SIZE=LAST_REQUEST, REFUSE_MARK=str(mark), REFUSE_TOLD=str(told))
    if answer != ample:
        return [f"{trial.name}: without memory: {answer}"]
    if not mark.exists() or not told.exists():
        return [f"{trial.name}: nothing was refused"]
    refused = int(told.read_text().split()[1])
    return [] if refused == 1 else [f"{trial.name}: {refused - 1} requests though it takes no memory"]


def make_files(folder):
    for path in EXAMPLES.glob("*.*"):
        shutil.copy(path, folder)
    texts = {f"{name}.{end}": text for name, pair in ROWS.items() for end, text in zip(("l", "txt"), pair)}
    for name, text in {**texts, **{f"{code}.l": rules for code, rules in REFUSED.items()}, **FILES}.items():
        (folder / name).write_text(text)
    # It can be opened and not be read.
    (folder / "cut").mkdir()


def commands(folder):
    """Returns the command lines of `lx` over the files of the folder."""
    listings = []
    for name in [*NAMES, *ROWS]:
        (folder / f"{name}.tables").write_bytes(support.output_of("gen", f"{name}.l", cwd=folder))
        listings += [["run", f"{name}.l", f"{name}.txt"], ["gen", f"{name}.l"], ["up", f"{name}.tables"]]
        listings += [[*scan, f"{name}.tables", f"{name}.txt"] for scan in SCANS]
    further = [["up", "first.tables"], ["gen", "-o", "target", "three-rules.l"], *FORMS, ["scan", "-j", "1", "--format", "json", "first.tables", "a", "lines"]]
    refused = [["run", f"{code}.l", "a"] for code in REFUSED]
    return [*HELP, *listings, *BATCHES, *further, *STREAMS, *LISTS, *refused, *OTHERS]


def calls(program):
    """Returns the calls of libraries, by what they print all together: `== NAME` begins the answer of a call, and `-- NAME` of one that takes no memory."""
    found = []
    for part in re.split(r"^(?=(?:==|--) )", (TOP / "crates/lx_calls/stdout").read_text(), flags=re.MULTILINE)[1:]:
        head, *lines = part.splitlines()
        sign, name = head.split(" ", 1)
        found.append(Trial(name, (program, name), tuple(lines), sign == "=="))
    return found


def fault_with_ample_memory(trial, answer):
    if answer is None or answer.status < 0:
        return [f"{trial.name}: with ample memory: {answer}"]
    if trial.lines is not None and answer != Answer(0, "".join(f"{line}\n" for line in trial.lines).encode(), b""):
        return [f"{trial.name}: with ample memory it answers {answer}"]
    return []


def try_trial(pool, trial, folder, library):
    """Returns how many runs were refused memory, the faults, and a note."""
    ample = run(trial.words, folder)
    faults = fault_with_ample_memory(trial, ample)
    if faults:
        return 0, faults, ""
    if not trial.takes_memory:
        return 1, faults_without_memory(trial, folder, library, ample), ", takes no memory"
    tried = try_all(pool, trial, folder, library, ample)
    count, full = sum(part.refused for part in tried), sum(part.full for part in tried)
    faults = [fault for part in tried for fault in part.faults]
    if trial.lines is not None and count == 0:
        faults.append(f"{trial.name}: it asks for no memory")
    return count, faults, f", {full} answered in full" if full else ""


class RefuseMemory(Case):
    def setUp(self):
        self.folder = self.make_folder()
        self.library = support.preloaded_library("refuse.c", self.folder)
        make_files(self.folder)

    def try_one(self, pool, trial):
        begun = time.monotonic()
        count, faults, note = try_trial(pool, trial, self.folder, self.library)
        print(f"{trial.name:<72} {count:>7} {time.monotonic() - begun:>7.1f} s{note}")
        self.check(trial.name, not faults, "\n".join([f"{len(faults)} wrong answers", *faults[:5]]))
        return count

    def test_trials(self):
        program = support.built()
        for code in REFUSED:
            ended = support.lx("run", f"{code}.l", "a", cwd=self.folder, text=True)
            self.assertTrue(ended.stderr.startswith(f"lx: {code}"), f"{code}.l is answered by {ended.stderr!r}")
        trials = [Trial(" ".join(["lx", *words]), (program, *words)) for words in commands(self.folder)] + calls(support.built("lx_calls"))
        chosen = [trial for trial in trials if OPTIONS.only in trial.name]
        self.assertTrue(chosen, "there is no such case")
        with concurrent.futures.ProcessPoolExecutor(OPTIONS.jobs) as pool:
            refused = sum(self.try_one(pool, trial) for trial in chosen)
        print(f"{refused} runs with memory refused")

    def test_scanners_are_whole(self):
        if OPTIONS.only:
            self.skipTest("--only names other cases")
        made = self.folder / "made.c"
        words = (support.built(), "flex", "-o", made.name, "scanner.l")
        requests = requests_of(words, self.folder, self.library)
        whole = made.read_bytes()
        for number in range(1, requests + 1, max(1, requests // 100)):
            made.unlink(missing_ok=True)
            ended = run(words, self.folder, LD_PRELOAD=str(self.library), REFUSE_FROM=str(number))
            found = made.read_bytes() if made.exists() else None
            self.check(f"the file at request {number}", ended and found == (whole if ended.status == 0 else None), f"{ended}")

    def test_memory_is_used_again(self):
        if OPTIONS.only:
            self.skipTest("--only names other cases")
        (self.folder / "pieces").write_text("ab 12\n" * 20_000)
        files = ["pieces"] * 8
        # With more workers pieces of later files wait, each in memory of its own. How far one worker runs ahead depends on the schedule, so the highest
        # count for few pieces is compared with the lowest for many.
        for words in (["run", "three-rules.l"], ["scan", "-j", "1", "first.tables"]):
            requests = lambda batch: [requests_of((support.built(), *words, "-b", batch, *files), self.folder, self.library) for _ in range(REQUEST_RUNS)]
            few, many = max(requests("100")), min(requests("10"))
            name = f"lx {' '.join(words)}, 3,200 pieces and 32,000"
            print(f"{name:<72} {few:>7} and {many} requests")
            self.check(name, many <= 1.1 * few, f"{few} requests for few pieces, and {many} for many")


if __name__ == "__main__":
    support.main(PARSER, OPTIONS)
