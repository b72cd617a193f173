"""Runs the worked rows of tests/rows; row_files.py says how they are written.

A row that lists one file by `lx run` without options also runs the plain scanner, which has to print the same listing.
"""
import concurrent.futures
import pathlib
import shlex
import subprocess
import tempfile

from tests import support
from tests.row_files import Text, read_all
from tests.support import Case, difference, shown

PARSER = support.parser("Runs the worked rows of tests/rows.")
PARSER.add_argument("--jobs", default=support.PROCESSORS, type=int, metavar="N", help="how many rows run at a time")
PARSER.add_argument("names", nargs="*", metavar="TOPIC or ROW", help="these alone")
OPTIONS = PARSER.parse_args([])


def fault_of_text(stream, found, text):
    """Says how an output differs from the wanted one, or returns nothing."""
    if text.is_met_by(found):
        return []
    return [f"{stream}: {difference(found, text.wanted)}{', or more' if text.open_ended else ''}"]


def faults_of_run(run, ended):
    faults = [f"the status is {ended.returncode}, and has to be {run.status}"] if ended.returncode != run.status else []
    if run.out is not None or not run.output:
        faults += fault_of_text("the output", ended.stdout, run.out or Text())
    return faults + fault_of_text("the error stream", ended.stderr, run.err or Text())


def is_plain(run):
    return run.status == 0 and len(run.words) == 3 and run.words[0] == "run" and not run.input and not run.output


def faults_of_plain_scanner(run, listing, folder):
    other = support.run(support.built("lx_plain"), *run.words[1:], cwd=folder)
    if (other.returncode, other.stdout) == (0, listing):
        return []
    return [f"the plain scanner ends with {other.returncode}, and prints {shown(other.stdout + other.stderr)}"]


def try_run(run, folder):
    """Runs `lx` as a row says, and returns what is wrong."""
    given = pathlib.Path(folder, run.input).read_bytes() if run.input else b""
    ended = support.lx(*run.words, cwd=folder, input=given)
    faults = faults_of_run(run, ended)
    if is_plain(run):
        faults += faults_of_plain_scanner(run, ended.stdout, folder)
    if run.output:
        pathlib.Path(folder, run.output).write_bytes(ended.stdout)
    return faults


def try_row(row):
    """Returns what is wrong with a row, a line for each fault."""
    faults = []
    with tempfile.TemporaryDirectory(prefix="rows-") as folder:
        for name, content in row.files.items():
            path = pathlib.Path(folder, name)
            path.mkdir() if content is None else path.write_bytes(content)
        for run in row.runs:
            words = shlex.join(["lx", *run.words])[:100]
            try:
                faults += [f"{words}: {fault}" for fault in try_run(run, folder)]
            except subprocess.TimeoutExpired:
                return [*faults, f"{words}: it hadn't ended after {support.LIMIT_SECONDS} seconds"]
    return faults


class WorkedRows(Case):
    def test_rows(self):
        rows = read_all(OPTIONS.names)
        support.built("lx"), support.built("lx_plain")
        with concurrent.futures.ThreadPoolExecutor(OPTIONS.jobs) as pool:
            for row, faults in zip(rows, pool.map(try_row, rows)):
                self.check(f"{row.place}: {row.name}", not faults, "\n".join(faults))


if __name__ == "__main__":
    support.main(PARSER, OPTIONS)
