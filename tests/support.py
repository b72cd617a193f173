"""Runs programs for the tests, makes their folders, finds their tools, and counts each check.

A module of tests ends with `support.main(..)`, so that `python3 -m tests.test_NAME` runs it. Its last line is `N passed, M failed`, and its status is 1 if
a check failed. `python3 -m unittest` runs the same modules and counts whole tests.
"""
import argparse
import os
import pathlib
import shutil
import signal
import subprocess
import sys
import tempfile
import traceback
import unittest

TOP = pathlib.Path(__file__).resolve().parent.parent
TESTS = TOP / "tests"
EXAMPLES = TOP / "examples"
LIMIT_SECONDS = 60
PROCESSORS = len(os.sched_getaffinity(0))
SANITIZERS = ["-g", "-O1", "-fsanitize=address,undefined", "-fno-sanitize-recover=all"]
SHOWN_CHARACTERS = 300
SHOWN_FAILURES = 20

# drivers/ has the modules `lx` and `lx_c`, and bench/ has `inputs`.
sys.path[:0] = [str(TOP / "drivers"), str(TOP / "bench")]
# `make test` hands these on, and a make that a test starts would heed them.
for variable in ("MAKEFLAGS", "MFLAGS", "MAKELEVEL"):
    os.environ.pop(variable, None)


def built(crate="lx"):
    """Returns the path of a built program: the one that the environment names, as by LX_PLAIN for lx_plain, or the last build's."""
    path = pathlib.Path(os.environ.get(crate.upper()) or TOP / "crates" / crate / "out" / crate).resolve()
    if not os.access(path, os.X_OK):
        raise AssertionError(f"there is no program {path}; run ./test to build it, or name another one by {crate.upper()}=PATH")
    return path


def run(*words, seconds=LIMIT_SECONDS, **how):
    """Runs a command to its end and catches what it writes, as bytes unless `how` says otherwise."""
    how = {"stdout": subprocess.PIPE, "stderr": subprocess.PIPE, **how}
    if "input" not in how:
        how.setdefault("stdin", subprocess.DEVNULL)
    return subprocess.run([str(word) if isinstance(word, int) else word for word in words], timeout=seconds, **how)


def lx(*words, **how):
    """Runs `lx`."""
    return run(built(), *words, **how)


def output_of(*words, **how):
    """Returns the output of a run of `lx` that has to succeed."""
    ended = lx(*words, **how)
    if ended.returncode:
        raise AssertionError(f"lx {' '.join(map(str, words))} ends with {ended.returncode}: {said_by(ended)}")
    return ended.stdout


def said_by(ended):
    """Returns the first bytes of what a run wrote to its error stream."""
    return ended.stderr[:2_000].decode(errors="replace") if isinstance(ended.stderr, bytes) else ended.stderr[:2_000]


def tool(*names):
    """Returns the first of these tools that is on the path; skips the test if none is."""
    for name in names:
        if shutil.which(name):
            return name
    raise unittest.SkipTest(f"there is no {' and no '.join(names)}")


def compile_by(*words, seconds=LIMIT_SECONDS, **how):
    """Runs a compiler, whose refusal fails the test."""
    ended = run(*words, seconds=seconds, **how)
    if ended.returncode:
        raise AssertionError(f"{' '.join(map(str, words))} ends with {ended.returncode}:\n{said_by(ended)}")


def preloaded_library(name, folder):
    """Builds a library of tests/ that is loaded before the C library."""
    compiler = os.environ.get("CC", "").split() or [tool("gcc", "clang", "cc")]
    library = folder / name.replace(".c", ".so")
    compile_by(*compiler, "-O2", "-shared", "-fPIC", "-o", library, TESTS / name, "-ldl")
    return library


def crates_of(text):
    """Returns the crates of a crates.txt, in its order, each with the libraries that it uses."""
    lines = [line for line in text.splitlines() if line.strip() and not line.startswith("#")]
    return {name.strip(): used.split() for name, _, used in (line.partition(":") for line in lines)}


def shown(value):
    text = repr(value)
    return text if len(text) <= SHOWN_CHARACTERS else f"{text[:SHOWN_CHARACTERS]}.. and {len(text) - SHOWN_CHARACTERS} characters more"


def difference(found, wanted):
    """Says how a value differs from the one that is wanted: of texts the first line that does, by its number."""
    if type(found) is not type(wanted) or not isinstance(found, (str, bytes)):
        return f"it is {shown(found)}, and has to be {shown(wanted)}"
    newline = "\n" if isinstance(found, str) else b"\n"
    lines, due = found.split(newline), wanted.split(newline)
    number = next((at for at, pair in enumerate(zip(lines, due)) if pair[0] != pair[1]), min(len(lines), len(due)))
    line = lambda of: shown(of[number]) if number < len(of) else "missing"
    return f"line {number + 1} is {line(lines)}, and has to be {line(due)}"


class Case(unittest.TestCase):
    """A test with checks that are counted one by one: one that fails doesn't end the test."""

    def check(self, name, is_so, why=""):
        with self.subTest(name):
            if not is_so:
                self.fail(why)

    def expect(self, name, found, wanted):
        with self.subTest(name):
            if found != wanted:
                self.fail(difference(found, wanted))

    def leave_out(self, name, reason):
        with self.subTest(name):
            self.skipTest(reason)

    def make_folder(self):
        """Makes a temporary folder that is removed after the test."""
        return pathlib.Path(self.enterContext(tempfile.TemporaryDirectory(prefix="lx-test-")))


class Tally(unittest.TestResult):
    """Counts checks, and prints those that fail or are skipped. A test without checks counts as one."""

    def __init__(self):
        super().__init__()
        self.passed = self.failed = self.skips = self.counted_before = self.failed_before = 0

    def startTest(self, test):
        super().startTest(test)
        self.counted_before, self.failed_before = self.passed + self.failed, self.failed

    def stopTest(self, test):
        hidden = self.failed - self.failed_before - SHOWN_FAILURES
        if hidden > 0:
            print(f"FAILED: {name_of(test)}: {hidden} further checks")
        super().stopTest(test)

    def addSubTest(self, test, subtest, error):
        if error:
            self.fail(subtest, error)
        else:
            self.passed += 1

    def addSuccess(self, test):
        if self.passed + self.failed == self.counted_before:
            self.passed += 1

    def addFailure(self, test, error):
        self.fail(test, error)

    def addError(self, test, error):
        self.fail(test, error)

    def addSkip(self, test, reason):
        self.skips += 1
        print(f"left out: {name_of(test)}: {reason}")

    def fail(self, test, error):
        self.failed += 1
        if self.failed - self.failed_before <= SHOWN_FAILURES:
            kind, fault, _ = error
            why = fault if issubclass(kind, AssertionError) else "".join(traceback.format_exception(*error))
            print(f"FAILED: {name_of(test)}: {why}")

    def end(self):
        """Prints the counts, and returns the exit status."""
        print(f"{self.passed} passed, {self.failed} failed")
        return 1 if self.failed or not self.passed + self.skips else 0


def name_of(test):
    """Returns the name of a test without that of its module."""
    return test.id().removeprefix("__main__.")


def parser(description):
    """Returns a parser for the options of a module, which `main` reads."""
    return argparse.ArgumentParser(description=description)


def end_by_signal(*_):
    # For unittest each other exception is a failed test. The temporary folders are removed at the exit.
    raise KeyboardInterrupt


def main(options_parser=None, options=None):
    """Runs the tests of the module that was started, with the options of the command line, and exits."""
    (options_parser or parser("Runs the tests of this module.")).parse_args(namespace=options)
    signal.signal(signal.SIGTERM, end_by_signal)
    sys.stdout.reconfigure(line_buffering=True)
    tally = Tally()
    try:
        unittest.defaultTestLoader.loadTestsFromModule(sys.modules["__main__"]).run(tally)
    except KeyboardInterrupt:
        tally.failed += 1
        print("FAILED: ended by a signal before all tests had run")
    sys.exit(tally.end())
