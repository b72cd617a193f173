# Runs a program once for the scripts of this folder, and tells what it took.
import collections
import math
import os
import pathlib
import resource
import time

TOP = pathlib.Path(__file__).resolve().parent.parent

# `seconds` are those on the clock, `processor_seconds` those of all its threads for the user and for the system.
Run = collections.namedtuple("Run", "seconds processor_seconds peak status message listing")


def add_options(parser):
    parser.add_argument("--program", default=TOP / "bin/lx", type=pathlib.Path, metavar="PATH", help="the built program (default: bin/lx)")
    parser.add_argument("--limit", default=600, type=int, metavar="SECONDS", help="processor time of a run (default: 600)")


def heed_options(parser, options):
    """Refuses a program that isn't there, and sets the limit."""
    if not (options.program.is_file() and os.access(options.program, os.X_OK)):
        parser.error(f"there is no program {options.program}")
    options.program = options.program.resolve()
    # The programs that are started inherit this limit, each for itself.
    resource.setrlimit(resource.RLIMIT_CPU, (options.limit, resource.getrlimit(resource.RLIMIT_CPU)[1]))


def run_once(command, listing, truncated=True):
    """Runs a program, with its output in that file and its errors in one beside it. A file that isn't truncated is written over."""
    errors = listing.with_suffix(".errors")
    kept = os.O_WRONLY | os.O_CREAT
    opened = [
        (os.POSIX_SPAWN_OPEN, 0, os.devnull, os.O_RDONLY, 0),
        (os.POSIX_SPAWN_OPEN, 1, listing, kept | (os.O_TRUNC if truncated else 0), 0o600),
        (os.POSIX_SPAWN_OPEN, 2, errors, kept | os.O_TRUNC, 0o600),
    ]
    begun = time.perf_counter()
    child = os.posix_spawn(command[0], command, os.environ, file_actions=opened)
    _, ended, usage = os.wait4(child, 0)
    seconds = time.perf_counter() - begun
    lines = errors.read_text("latin-1").splitlines()
    message = lines[0] if lines else ""
    return Run(seconds, usage.ru_utime + usage.ru_stime, usage.ru_maxrss * 1024, os.waitstatus_to_exitcode(ended), message, listing)


def line_count(path):
    with open(path, "rb") as file:
        return sum(piece.count(b"\n") for piece in iter(lambda: file.read(1 << 16), b""))


def megabytes(run):
    """A started program has this script's peak as its own, until it takes more."""
    own = math.ceil(resource.getrusage(resource.RUSAGE_SELF).ru_maxrss * 1024 / 1e6)
    return f"<{own}" if run.peak <= own * 1e6 else f"{run.peak / 1e6:.0f}"


def ending(run):
    status = f"signal {-run.status}" if run.status < 0 else str(run.status)
    return f"{status} {run.message}".rstrip()
