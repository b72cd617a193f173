"""Lists files while they are read, by `--stream`: the listing is that of `lx run` or `lx scan` without it, in whatever blocks the text arrives.

A block is a packet of a socket that is standard input, so that a read gives one at most.
"""
import errno
import os
import pathlib
import select
import socket
import subprocess
import tempfile
import threading
import time

from tests import support
from tests.row_files import read_all
from tests.support import EXAMPLES, LIMIT_SECONDS, Case

BLOCKS = (1, 2, 3, 7, 65_536)
# Longer texts aren't cut into blocks of a few bytes.
SHORT_BYTES = 20_000
WAIT_SECONDS = 10
MEMORY_KB = 8_192
RULES = b"%%\n[a-z]+ return ID;\n[0-9]+ return NUM;\n[ \\n]+ ;\n"
AB = b"0 T ID 1 0 2 ab\n0 T NUM 1 3 2 12\n"
FORMS = ([], ["--format", "json"], ["--names"], ["--format", "json", "--names"], ["--only", "ID"], ["--only=-"], ["--no-text"], ["--first", "7"], ["-b", "1"])
UNLIKE = ("-j", "--names", "--files-from", "--stream", "-h", "--help")


def named(words, how=""):
    """Returns the name of a check: a command line, and how it is run."""
    return f"lx {' '.join(words)}{how and ', '}{how}"


def send(end, text, size):
    """Sends a text in blocks of this size, and then its end."""
    with end:
        try:
            for at in range(0, len(text), size):
                end.send(text[at : at + size])
        except OSError:
            # The program has ended.
            return


def in_blocks(words, text, size, folder):
    """Runs `lx` with a text as standard input that arrives in blocks of this size. Returns its status, output and error stream."""
    ours, theirs = socket.socketpair(socket.AF_UNIX, socket.SOCK_SEQPACKET)
    with theirs:
        started = subprocess.Popen([support.built(), *words], cwd=folder, stdin=theirs, stdout=subprocess.PIPE, stderr=subprocess.PIPE)
    sender = threading.Thread(target=send, args=(ours, text, size))
    sender.start()
    with started:
        out, err = started.communicate(timeout=LIMIT_SECONDS)
    sender.join()
    return started.returncode, out, err


def streamed(words):
    """Returns the words of a listing with `--stream`."""
    return [words[0], "--stream", *words[1:]]


def sizes_for(text):
    return [size for size in BLOCKS if size >= 7 or len(text) <= SHORT_BYTES]


class Blocks(Case):
    """The listings of the worked rows and of the examples."""

    def compare(self, words, folder, text):
        """Compares the listing of the last file, which has this text, with those of its blocks."""
        whole = support.lx(*words, cwd=folder)
        wanted = (whole.returncode, whole.stdout, whole.stderr)
        self.expect(named(streamed(words)), self.answer(streamed(words), folder), wanted)
        words = streamed(words[:-1]) + ["-"]
        for size in sizes_for(text):
            self.expect(named(words, f"blocks of {size} bytes"), in_blocks(words, text, size, folder), wanted)

    def answer(self, words, folder):
        ended = support.lx(*words, cwd=folder)
        return ended.returncode, ended.stdout, ended.stderr

    def test_worked_rows(self):
        for row in read_all([]):
            runs = [run for run in row.runs if is_listing_of_one(run, row.files)]
            if not runs:
                continue
            with tempfile.TemporaryDirectory(prefix="streams-") as folder:
                for name, content in row.files.items():
                    path = pathlib.Path(folder, name)
                    path.mkdir() if content is None else path.write_bytes(content)
                for run in runs:
                    self.compare(run.words, folder, row.files[run.words[-1]])

    def test_examples(self):
        for path in sorted(EXAMPLES.glob("*.l")):
            text = path.with_suffix(".txt")
            if text.exists() and self.answer(["gen", path.name], EXAMPLES)[0] == 0:
                for form in FORMS[:2]:
                    self.compare(["run", *form, path.name, text.name], EXAMPLES, text.read_bytes())


def is_listing_of_one(run, files):
    """Returns true for a listing of one file of the row, whose specification is one too."""
    if run.status != 0 or len(run.words) < 3 or run.words[0] not in ("run", "scan") or run.input or run.output:
        return False
    return not any(word.startswith(UNLIKE) for word in run.words) and all(files.get(word) is not None for word in run.words[-2:])


class Ends(Case):
    """What is listed when, and how a listing ends."""

    def setUp(self):
        self.folder = self.make_folder()
        for name, text in {"S": RULES, "F": b"ab 12\n", "G": b"1x\n", "names": b"F\nG\n"}.items():
            (self.folder / name).write_bytes(text)
        (self.folder / "T").write_bytes(support.output_of("gen", "S", cwd=self.folder))

    def answer(self, *words, **how):
        ended = support.lx(*words, cwd=self.folder, **how)
        return ended.returncode, ended.stdout, ended.stderr

    def started(self, *words):
        return subprocess.Popen([support.built(), *words], cwd=self.folder, stdin=subprocess.PIPE, stdout=subprocess.PIPE, stderr=subprocess.PIPE, bufsize=0)

    def test_forms(self):
        """Several files, named by words, by a list, or both."""
        for form in FORMS:
            for words in (["run", *form, "S", "F", "G", "F"], ["scan", *form, "T", "G"], ["run", "--files-from", "names", *form, "S", "F"], ["scan", "--files-from", "names", *form, "T"]):
                self.expect(named(streamed(words)), self.answer(*streamed(words)), self.answer(*words))

    def test_threads_are_refused(self):
        for words in (["run", "--stream", "-j", "1", "S", "F"], ["scan", "-j", "4", "--stream", "T", "F"]):
            self.expect(named(words), self.answer(*words), (2, b"", b"lx: --stream works on one thread; leave out -j\n"))

    def test_missing_file(self):
        said = f"lx: cannot read gone\nlx: {os.strerror(errno.ENOENT)} (os error {errno.ENOENT})\n".encode()
        for words in (["run", "--stream", "S", "F", "gone", "F"], ["scan", "--stream", "T", "F", "gone"]):
            self.expect(named(words), self.answer(*words), (3, AB, said))

    def test_directory(self):
        (self.folder / "directory").mkdir()
        words = ["run", "--stream", "S", "F", "directory", "F"]
        self.expect(named(words), self.answer(*words), (3, AB + b"1 ! cut\n" + AB.replace(b"0 T", b"2 T"), b"lx: cut short directory: Is a directory\n"))

    def test_broken_reads(self):
        """A socket whose other end is closed with unread bytes gives what it holds, and then an error: at each place of a text in turn."""
        text, words = b"ab 12\ncd", ["run", "--stream", "S", "-", "F"]
        for size in range(len(text) + 1):
            (self.folder / "front").write_bytes(text[:size])
            front = support.output_of("run", "S", "front", cwd=self.folder)
            ours, theirs = socket.socketpair()
            with theirs:
                theirs.send(b"never read")
                ours.send(text[:size])
                ours.close()
                found = self.answer(*words, stdin=theirs)
            wanted = (3, front + b"0 ! cut\n" + AB.replace(b"0 T", b"1 T"), b"lx: cut short -: Connection reset by peer\n")
            self.expect(named(words, f"a read that fails after {size} bytes"), found, wanted)

    def test_lines_at_once(self):
        """A line is there as soon as no further byte can change its item, and no sooner."""
        with self.started("run", "--stream", "S", "-") as started:
            for given, wanted in ((b"ab 12\n", AB), (b"x", b""), (b"y", b""), (b"1", b"0 T ID 2 6 2 xy\n"), (b" ", b"0 T NUM 2 8 1 1\n"), (b"?", b"0 E - 2 10 1 ?\n")):
                started.stdin.write(given)
                self.expect(f"the lines after {given}", read_now(started, len(wanted)), wanted)
            out, err = started.communicate(timeout=LIMIT_SECONDS)
        self.expect("the end", (started.returncode, out, err), (0, b"", b""))

    def test_reader_that_leaves(self):
        """The program ends at its next write, and doesn't wait for the end of its input."""
        for form in ([], ["--format", "json"]):
            words = ["run", "--stream", *form, "S", "-"]
            with self.started(*words) as started:
                started.stdin.write(b"ab 12\n")
                self.check(named(words, "the first line"), started.stdout.readline().endswith(b"\n"))
                started.stdout.close()
                started.stdin.write(b"cd ")
                self.expect(named(words, "one line read"), (started.wait(WAIT_SECONDS), started.stderr.read()), (4, b""))

    def test_memory(self):
        """Memory doesn't grow with the text."""
        with self.started("run", "--stream", "--only", "NUM", "S", "-") as started:
            for _ in range(1_000):
                started.stdin.write(b"some words and no number\n" * 2_000)
            status = pathlib.Path(f"/proc/{started.pid}/status").read_text()
            out, err = started.communicate(timeout=LIMIT_SECONDS)
        most = next(int(line.split()[1]) for line in status.splitlines() if line.startswith("VmHWM"))
        self.expect("50 MB are listed", (started.returncode, out, err), (0, b"", b""))
        self.check("memory for 50 MB", most < MEMORY_KB, f"it takes {most} KB")


def read_now(started, size):
    """Returns this many bytes of the output, or those that come in time; and without any, what comes in a moment."""
    found, end = b"", time.monotonic() + (WAIT_SECONDS if size else 0.2)
    while len(found) < max(size, 1) and select.select([started.stdout], [], [], max(end - time.monotonic(), 0))[0]:
        more = os.read(started.stdout.fileno(), 65_536)
        found += more
        if not more:
            break
    return found


if __name__ == "__main__":
    support.main()
