# Builds scanners by flex and re2c for the scripts that compare programs, compares their listings with those of lx, and counts instructions.
import filecmp
import itertools
import re
import shutil
import subprocess
import sys

import translation
from measuring import TOP, ending, run_once

TOOLS = ["flex", "re2c", "gcc"]
PEERS = {"flex -CF": translation.flex_text, "flex -Cf": translation.flex_text, "re2c": translation.re2c_text, "re2c -b": translation.re2c_text}
# Without line directives; and for the processors for which lx is built.
PLAIN_SOURCE = {"flex": ["-L"], "re2c": ["-i", "--no-debug-info"]}
COMPILER = ["gcc", "-O3", "-march=x86-64-v2"]


class Failed(Exception):
    """A fault, said in a line."""


def want_tools(script, tools):
    """Ends the script where one of those programs isn't on the path. Each is in the package of its name."""
    missing = [tool for tool in tools if not shutil.which(tool)]
    if missing:
        sys.exit(f"{script}: {' and '.join(missing)} missing on the path: apt-get update && apt-get install {' '.join(tools)}")


def build_peer(peer, specification, folder):
    """Has a scanner built, and gives its path."""
    tool, *tables = peer.split()
    program = folder / peer.replace(" ", "")
    rules, source = program.with_suffix(f".{tool}"), program.with_suffix(".c")
    rules.write_text(PEERS[peer](specification))
    subprocess.run([tool, *tables, *PLAIN_SOURCE[tool], "-o", source, rules], check=True)
    subprocess.run([*COMPILER, "-I", TOP / "bench", "-o", program, source], check=True)
    return program


def run_well(program, command, listing, truncated=True):
    run = run_once(command, listing, truncated)
    if run.status != 0:
        raise Failed(f"{program} ends with {ending(run)}")
    return run


def compare(program, listing, expected):
    if filecmp.cmp(listing, expected, shallow=False):
        return
    with open(listing, "rb") as other, open(expected, "rb") as wanted:
        for number, (line, due) in enumerate(itertools.zip_longest(other, wanted, fillvalue=b""), 1):
            if line != due:
                raise Failed(f"line {number} of {program} is {line[:200]!r}, and of lx run {due[:200]!r}")


def instructions(command, folder):
    """Those of a run, by valgrind's callgrind."""
    counts = folder / "counts"
    with open(folder / "listing", "wb") as listing:
        counting = ["valgrind", "--tool=callgrind", f"--callgrind-out-file={counts}", *command]
        run = subprocess.run(counting, stdout=listing, stderr=subprocess.PIPE, check=False)
    if run.returncode != 0:
        raise Failed(run.stderr.decode("latin-1"))
    return int(re.search(r"(?m)^(?:totals|summary): (\d+)", counts.read_text())[1])


def instructions_a_byte(commands, one, two, folder):
    """Counts the instructions of a command for two MB of text less those for one MB, so that what is done once isn't seen."""
    size = two.stat().st_size - one.stat().st_size
    counted = {name: [instructions([*command, text], folder) for text in (one, two)] for name, command in commands.items()}
    return {name: (more - less) / size for name, (less, more) in counted.items()}
