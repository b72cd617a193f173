"""Shows how `lx` ends if a stream or a file fails it.

It runs on a full device and on a pipe that nobody reads, over directories, files that it may not open, a file that grows, a slow pipe and an endless list,
and where few threads can start; and the threads of a listing are counted. Only root can become a user who may not open a file.
"""
import errno
import os
import pathlib
import resource
import shutil
import signal
import subprocess
import threading
import time
import unittest

from tests import support
from tests.support import LIMIT_SECONDS, Case

FULL = "/dev/full"
NOT_WRITTEN = b"lx: cannot write\n"
RULES = b"%%\n[a-z]+ return ID;\n[0-9]+ return NUM;\n[ \\n]+ ;\n"
FILES = {"S": RULES, "none": b"%%\n", "F": b"ab 12\n", "long": b"x" * 100_000, "grows": b"y" * 300_000}
NOBODY = {"user": 65_534, "group": 65_534, "extra_groups": []}
SCANS = [["scan", "-j", workers, "T", "F", "F"] for workers in ("1", "4")]
COMMANDS = [[], ["-h"], ["run", "S", "F", "F"], ["gen", "S"], ["up", "T"], *SCANS]

needs_full_device = unittest.skipUnless(os.path.exists(FULL), f"there is no {FULL}")
needs_root = unittest.skipUnless(os.geteuid() == 0, "only root can become a user with fewer rights")


def named(words, how=""):
    """Returns the name of a check: a command line, and how it is run."""
    return f"lx {' '.join(map(str, words))}{how and ', '}{how}".replace("lx ,", "lx,")


def reason_of(number):
    """Returns what the system says of an error."""
    return f"{os.strerror(number)} (os error {number})"


def unread(name, number):
    """Returns the answer of a run whose file of this name can't be read."""
    return 3, b"", f"lx: cannot read {name}\nlx: {reason_of(number)}\n".encode()


def with_size_limit():
    """Lets no byte of a file be written."""
    signal.signal(signal.SIGXFSZ, signal.SIG_IGN)
    resource.setrlimit(resource.RLIMIT_FSIZE, (0, 0))


class Ends(Case):
    """Runs of a copy of the program, in a folder that everyone can read."""

    def setUp(self):
        self.folder = self.make_folder()
        self.folder.chmod(0o755)
        self.program = self.folder / "lx"
        shutil.copy(support.built(), self.program)
        for name, text in FILES.items():
            self.write(name, text)
        self.write("T", self.run_lx("gen", "S")[1])

    def write(self, name, text):
        path = self.folder / os.fsdecode(name)
        path.write_bytes(text)
        return path

    def run_lx(self, *words, **how):
        """Returns status, output and error stream of a run; None for a stream that `how` sends elsewhere."""
        try:
            ended = support.run(self.program, *words, cwd=self.folder, **how)
        except subprocess.TimeoutExpired:
            return f"it takes more than {LIMIT_SECONDS} seconds", None, None
        return ended.returncode, ended.stdout, ended.stderr

    def run_into_full_device(self, *words, **how):
        with open(FULL, "wb") as full:
            return self.run_lx(*words, stdout=full, **how)

    def run_into_closed_pipe(self, *words, **how):
        reads, writes = os.pipe()
        os.close(reads)
        try:
            return self.run_lx(*words, stdout=writes, **how)
        finally:
            os.close(writes)


class Streams(Ends):
    @needs_full_device
    def test_full_device(self):
        for words in COMMANDS:
            self.expect(named(words, "full device"), self.run_into_full_device(*words), (4, None, NOT_WRITTEN))
        with open(FULL, "wb") as full:
            self.expect("lx run S gone, full error stream", self.run_lx("run", "S", "gone", stderr=full), (3, b"", None))

    def test_closed_pipe(self):
        for words in COMMANDS:
            self.expect(named(words, "closed pipe"), self.run_into_closed_pipe(*words), (4, None, b""))

    def test_reader_that_leaves(self):
        # The reader leaves after the first line of a listing that no pipe holds.
        with subprocess.Popen([self.program, "run", "none", "long"], cwd=self.folder, stdout=subprocess.PIPE, stderr=subprocess.PIPE) as started:
            first = started.stdout.readline()
            started.stdout.close()
            errors = started.stderr.read()
        self.expect("lx run none long, one line read", (started.returncode, first, errors), (4, b"0 E - 1 0 1 x\n", b""))

    def test_slow_pipe(self):
        with subprocess.Popen(["sh", "-c", "printf ab; sleep 0.5; printf cd"], stdout=subprocess.PIPE) as slow:
            self.expect("lx run S -, slow pipe", self.run_lx("run", "S", "-", stdin=slow.stdout), (0, b"0 T ID 1 0 4 abcd\n", b""))

    def test_endless_list(self):
        """A list is read no further than one name more than fits."""
        for names, words in (("yes F", ["run", "--files-from", "-", "S"]), ("yes F | tr '\\n' '\\0'", ["scan", "-0", "--files-from", "-", "T"])):
            with subprocess.Popen(["sh", "-c", names], stdout=subprocess.PIPE, stderr=subprocess.DEVNULL) as endless:
                status, out, err = self.run_lx(*words, stdin=endless.stdout)
                endless.stdout.close()
            self.expect(named(words, "endless"), (status, out, err.partition(b"\n")[0]), (2, b"", b"lx: too many files"))

    def test_given_place(self):
        """Standard input is read on from its place, and not from its beginning."""
        with open(self.folder / "F", "rb") as file:
            os.lseek(file.fileno(), 1, os.SEEK_SET)
            self.expect("lx run S -, from the second byte on", self.run_lx("run", "S", "-", stdin=file), (0, b"0 T ID 1 0 1 b\n0 T NUM 1 2 2 12\n", b""))


class Files(Ends):
    def try_file(self, name, how, number, listed=None, **user):
        """Names what can't be opened or read as a specification, as tables, and as a file."""
        for words in (["run", name, "F"], ["gen", name], ["scan", name, "F"], ["up", name]):
            self.expect(named(words, how), self.run_lx(*words, **user), unread(name, number))
        for words in (["run", "S", name], ["scan", "-j", "4", "T", name]):
            self.expect(named(words, how), self.run_lx(*words, **user), listed or unread(name, number))

    def test_missing_file(self):
        self.try_file("gone", "not there", errno.ENOENT)

    def test_directory(self):
        (self.folder / "directory").mkdir()
        self.try_file("directory", "a directory", errno.EISDIR, (3, b"0 ! cut\n", b"lx: cut short directory: Is a directory\n"))

    @needs_root
    def test_closed_file(self):
        self.write("closed", RULES).chmod(0)
        self.try_file("closed", "may not be opened", errno.EACCES, **NOBODY)

    def test_growing_file(self):
        path, ended = self.folder / "grows", threading.Event()
        size = path.stat().st_size
        writer = threading.Thread(target=grow, args=(path, ended))
        writer.start()
        status, out, err = self.run_lx("run", "none", "grows")
        ended.set()
        writer.join()
        # Each byte gives a line: the listing is that of the bytes which were there at some time.
        count = out.count(b"\n")
        self.write("prefix", path.read_bytes()[:count])
        self.expect("lx run none grows", (status, count >= size, out, err), (0, True, self.run_lx("run", "none", "prefix")[1], b""))


def grow(path, ended):
    """Appends to a file until `ended` is set, for half a second at most."""
    with open(path, "ab", buffering=0) as file:
        for _ in range(500):
            file.write(b"y" * 1_000)
            if ended.wait(0.001):
                return


class OddNames(Ends):
    """A file whose name isn't UTF-8 is cut short before its first byte, and the message says what to do. The others are listed."""

    NAME = b"odd\xff\xc3"
    REASON = b"its name isn't UTF-8; name a link to it, or read it as -\n"
    CUT_REASON = b"lx: cut short odd\\xFF\\xC3: " + REASON
    CUT = (3, b"0 T ID 1 0 2 ab\n0 T NUM 1 3 2 12\n1 ! cut\n", CUT_REASON)

    def setUp(self):
        super().setUp()
        self.write(self.NAME, b"ab")

    def test_listed_file(self):
        for words in (["run", "S"], ["scan", "T"], ["scan", "-j", "2", "T"]):
            self.expect(named(words, "a name that isn't UTF-8"), self.run_lx(*words, "F", self.NAME), self.CUT)
        words = ["run", "--format", "json", "--names", "S"]
        self.expect(named(words, "a name that isn't UTF-8"), self.run_lx(*words, self.NAME),
                    (3, b'{"file":0,"name_hex":"6f6464ffc3","cut":true}\n', self.CUT_REASON))

    def test_specification(self):
        self.expect("lx gen, a name that isn't UTF-8", self.run_lx("gen", self.NAME), (3, b"", b"lx: cannot read odd\\xFF\\xC3\nlx: " + self.REASON))

    def test_list_of_files(self):
        for separator, words in ((b"\n", []), (b"\0", ["-0"])):
            self.write("list", b"F" + separator + self.NAME + separator)
            words = ["run", *words, "--files-from", "list", "S"]
            self.expect(named(words, "a name that isn't UTF-8"), self.run_lx(*words), self.CUT)

    def test_link(self):
        (self.folder / "link").symlink_to(os.fsdecode(self.NAME))
        self.expect("lx run S, a link to a name that isn't UTF-8", self.run_lx("run", "S", "link"), (0, b"0 T ID 1 0 2 ab\n", b""))

    def test_output(self):
        wanted = NOT_WRITTEN + f"lx: gone\\xE9: {reason_of(errno.EILSEQ)}\n".encode()
        self.expect("lx gen -o, a name that isn't UTF-8", self.run_lx("gen", "-o", b"gone\xe9", "S"), (4, b"", wanted))

    def test_character_for_private_use(self):
        """A character that stands for a byte inside the program is itself in a name."""
        name = "p\U0010FEFF"
        self.write(name, b"cd")
        self.expect("lx run --names S, a character for private use", self.run_lx("run", "--names", "S", name)[:2], (0, b"p\\xF4\\x8F\\xBB\\xBF T ID 1 0 2 cd\n"))

    def test_all_files_of_a_folder(self):
        paths = sorted(os.listdir(os.fsencode(self.folder)))
        files = [name for name in paths if os.path.isfile(os.fsencode(self.folder) + b"/" + name) and name != b"lx"]
        self.expect("lx run S, all files of a folder", self.run_lx("run", "S", *files)[0::2], (3, self.CUT_REASON))


class Outputs(Ends):
    """`-o` replaces a file once the text is whole, and leaves nothing beside it."""

    def setUp(self):
        super().setUp()
        self.targets = self.folder / "targets"
        self.targets.mkdir()
        self.text = self.run_lx("gen", "S")[1]
        self.kept = self.targets / "kept"
        self.kept.write_bytes(b"before")
        self.kept.chmod(0o640)

    def test_no_byte_fits(self):
        for path in (self.kept, self.targets / "new"):
            wanted = NOT_WRITTEN + f"lx: {path}: {reason_of(errno.EFBIG)}\n".encode()
            self.expect(f"lx gen -o {path.name} S, no byte fits", self.run_lx("gen", "-o", path, "S", preexec_fn=with_size_limit), (4, b"", wanted))
        self.expect("the file is as it was, and alone", (self.kept.read_bytes(), os.listdir(self.targets)), (b"before", ["kept"]))

    def test_link(self):
        link = self.targets / "link"
        link.symlink_to("kept")
        self.expect("lx gen -o link S", self.run_lx("gen", "-o", link, "S"), (0, b"", b""))
        found = (link.is_symlink(), self.kept.read_bytes(), self.kept.stat().st_mode & 0o777, sorted(os.listdir(self.targets)))
        self.expect("the file that the link names is replaced, with its mode", found, (True, self.text, 0o640, ["kept", "link"]))

    def test_pipe(self):
        pipe, read = self.targets / "pipe", []
        os.mkfifo(pipe)
        reader = threading.Thread(target=lambda: read.append(pipe.read_bytes()), daemon=True)
        reader.start()
        self.expect("lx gen -o pipe S", self.run_lx("gen", "-o", pipe, "S"), (0, b"", b""))
        reader.join(LIMIT_SECONDS)
        self.expect("the pipe got the text, and is a pipe", (read, pipe.is_fifo()), ([self.text], True))

    def test_dangling_link(self):
        dangling, made = self.targets / "dangling", self.targets / "made"
        dangling.symlink_to("made")
        self.expect("lx gen -o dangling S, no byte fits", self.run_lx("gen", "-o", dangling, "S", preexec_fn=with_size_limit)[0], 4)
        self.expect("nothing was made for the link", (made.exists(), dangling.is_symlink()), (False, True))
        self.expect("lx gen -o dangling S", self.run_lx("gen", "-o", dangling, "S"), (0, b"", b""))
        self.expect("the file that the link names was made", (dangling.is_symlink(), made.read_bytes()), (True, self.text))

    @needs_root
    def test_closed_target(self):
        """A file that can't be written isn't replaced, though its folder can be written."""
        self.targets.chmod(0o777)
        self.kept.chmod(0o444)
        wanted = NOT_WRITTEN + f"lx: {self.kept}: {reason_of(errno.EACCES)}\n".encode()
        self.expect("lx gen -o kept S, which may not be written", self.run_lx("gen", "-o", self.kept, "S", **NOBODY), (4, b"", wanted))
        self.expect("it is as it was", (self.kept.read_bytes(), os.listdir(self.targets)), (b"before", ["kept"]))


class OutputsThatAreInputs(Ends):
    """Links and other paths to the input are refused, and nothing is made."""

    def refuse(self, *words, **how):
        self.expect(named(words).replace(f"{self.folder}/", ""), self.run_lx(*words, **how)[:2], (2, b""))

    def test_paths_to_the_input(self):
        inputs = self.folder / "inputs"
        inputs.mkdir()
        spec, soft, hard, loop, dangling = (inputs / name for name in ("spec", "soft", "hard", "loop", "dangling"))
        spec.write_bytes(RULES)
        soft.symlink_to("spec")
        hard.hardlink_to(spec)
        loop.symlink_to(inputs)
        dangling.symlink_to("made")
        for output in (soft, hard, loop / "spec", spec):
            for words in (["gen", "-o", output, spec], ["gen", "-o", spec, output], ["import", "-o", output, spec], ["import", "-c", output, spec]):
                self.refuse(*words)
        with open(spec, "rb") as file:
            self.refuse("gen", "-o", soft, "-", stdin=file)
        self.refuse("import", "-o", dangling, "-c", inputs / "made", spec)
        self.expect("all is as it was", (spec.read_bytes(), sorted(os.listdir(inputs))), (RULES, ["dangling", "hard", "loop", "soft", "spec"]))


class Threads(Ends):
    def write_letters(self):
        """Makes files with hundreds of thousands of pieces, and tables for them."""
        self.write("letter", b"%%\na return A;\n")
        self.write("L", self.run_lx("gen", "letter")[1])
        self.write("much", b"a" * 2_000_000)

    @needs_root
    def test_few_threads(self):
        """The listing is the same however few threads can start."""
        due = self.run_lx("run", "none", "long", "F", "long", **NOBODY)
        self.write("N", self.run_lx("gen", "none")[1])
        for threads in (1, 2, 4):
            limit = lambda: resource.setrlimit(resource.RLIMIT_NPROC, (threads, threads))
            for words in (["run", "-j", "8", "none"], ["scan", "-j", "8", "N"], ["scan", "-j", "1", "N"]):
                words += ["long", "F", "long"]
                self.expect(named(words, f"{threads} threads"), self.run_lx(*words, preexec_fn=limit, **NOBODY), due)

    def test_thread_count(self):
        """While nobody reads the listing there are the first thread and the workers."""
        self.write("N", self.run_lx("gen", "none")[1])
        for workers in (1, 4, 8):
            words = [self.program, "scan", "-j", str(workers), "N", *["long"] * 64]
            with subprocess.Popen(words, cwd=self.folder, stdout=subprocess.PIPE, stderr=subprocess.DEVNULL) as started:
                most, end = 0, time.monotonic() + 5
                while most <= workers and time.monotonic() < end:
                    most = max(most, thread_count(started.pid))
                # A thread that starts later is seen too.
                time.sleep(0.2)
                most = max(most, thread_count(started.pid))
                started.kill()
            self.expect(f"lx scan -j {workers}, threads", most, workers + 1)

    def test_long_waits(self):
        """Workers may not run ahead so far that all is held: nobody waits for ever, nor after a fault."""
        self.write_letters()
        words = ["scan", "-j", "2", "-b", "5", "L", "much", "much"]
        due, own = self.run_lx("run", "letter", "much", "much"), sorted(os.sched_getaffinity(0))
        for processors in (1, len(own)):
            only = lambda: os.sched_setaffinity(0, own[:processors])
            little = lambda: (only(), resource.setrlimit(resource.RLIMIT_AS, (40_000_000, 40_000_000)))
            where = f"on {processors} of the processors"
            self.expect(named(words, where), self.run_lx(*words, preexec_fn=only), due)
            if os.path.exists(FULL):
                self.expect(f"the same, full device, {where}", self.run_into_full_device(*words, preexec_fn=only), (4, None, NOT_WRITTEN))
            self.expect(f"the same, closed pipe, {where}", self.run_into_closed_pipe(*words, preexec_fn=only), (4, None, b""))
            status, _, err = self.run_lx(*words, preexec_fn=little)
            self.expect(f"the same, little memory, {where}", (status in (0, 5), err in (b"", b"lx: out of memory\n")), (True, True))

    def test_late_starts(self):
        """Threads start late, and the later ones can't start: no worker fills the queue before all ends are sent."""
        library = support.preloaded_library("delays.c", self.folder)
        self.write_letters()
        due = self.run_lx("run", "letter", "much")
        for threads in (1, 2):
            environment = {**os.environ, "LD_PRELOAD": str(library), "DELAYS_THREADS": str(threads)}
            words = ["scan", "-j", "4", "-b", "50", "L", "much"]
            self.expect(named(words, f"{threads} threads start, and late"), self.run_lx(*words, env=environment), due)


def thread_count(process):
    return len(os.listdir(pathlib.Path("/proc", str(process), "task")))


if __name__ == "__main__":
    support.main()
