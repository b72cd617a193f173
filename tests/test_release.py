"""Compares the released program of dist/ with the one that was built, and starts ./lx in copies of the sources as a newcomer would.

Where the sources are those of the release, the program in its archive has to be the built one, byte for byte. In a copy whose sources have the release's
checksum, ./lx has to start the released program with neither the toolchain nor a compiler on the path. With other sources it has to say why it builds; that
is tried with an rt that proves nothing.
"""
import hashlib
import os
import re
import shutil
import tarfile

from tests import support
from tests.support import TOP, Case

DIST = TOP / "dist"
# What ./lx and dist/sources need, beside the shell's own words.
TOOLS = "awk cat chmod cut dirname find grep gzip head ls mkdir mv readlink rm sha256sum sh sort tac tar uname xargs".split()
# A toolchain that says of each crate below lx that it is proved, or of one that it isn't, and builds a program that prints its words.
# FAILS names the crate that fails: lx_ere, which is proved by itself, or lx_rules, which is proved beside others.
RT = """#!/bin/sh
fail() {
    echo "src/lib.rt:1:1: error: a goal is open"
    [ "$1" != all ] || printf '== summary\\nlx_rules: failed (1)\\nlx_automaton: not run, since lx_rules failed\\n'
    exit 1
}
case "$1" in
lib) [ "$FAILS" != "${PWD##*/}" ] || fail lib ;;
all)
    echo "== lx_rules"
    [ "$FAILS" != lx_rules ] || fail all
    printf '== summary\\nlx_rules: ok\\n'
    ;;
run) mkdir -p out && printf '#!/bin/sh\\necho "built: $*"\\n' >out/lx && chmod +x out/lx ;;
esac
"""
LISTING = "0 T ID 1 0 2 ab\n0 T NUM 1 3 2 12\n"


def sum_of(path):
    return hashlib.sha256(path.read_bytes()).hexdigest()


def sources_sum(top):
    ended = support.run(top / "dist/sources", text=True)
    if ended.returncode or ended.stderr:
        raise AssertionError(f"dist/sources: {ended.stderr}")
    return ended.stdout


class Release(Case):
    def setUp(self):
        self.archive, = DIST.glob("lx-*.tar.gz")

    def test_checksums(self):
        self.expect("SHA256SUMS", (DIST / "SHA256SUMS").read_text(), f"{sum_of(self.archive)}  {self.archive.name}\n")
        self.check("sources.sha256 is a checksum", re.fullmatch(r"[0-9a-f]{64}\n", (DIST / "sources.sha256").read_text()))

    def test_program(self):
        if sources_sum(TOP) != (DIST / "sources.sha256").read_text():
            self.skipTest("the sources aren't those of the release")
        with tarfile.open(self.archive) as opened:
            name, = (it for it in opened.getnames() if it.endswith("/bin/lx"))
            released = opened.extractfile(name).read()
        self.check("the released program is the built one", released == support.built().read_bytes(), "they differ")


class FirstMinute(Case):
    """A copy of the sources, and a path with a few small tools alone."""

    def setUp(self):
        folder = self.make_folder()
        self.top, self.tools = folder / "lx", folder / "tools"
        shutil.copytree(TOP, self.top, ignore=shutil.ignore_patterns("out", ".git", "__pycache__"), symlinks=True)
        shutil.rmtree(self.top / "bin", ignore_errors=True)
        self.tools.mkdir()
        for name in TOOLS:
            (self.tools / name).symlink_to(shutil.which(name))
        (folder / "first.txt").write_text("ab 12\n")
        self.text = folder / "first.txt"

    def start(self, *words, path=None, **environment):
        ended = support.run(self.top / "lx", *words, env={"PATH": path or str(self.tools), **environment}, text=True)
        return ended.returncode, ended.stdout, ended.stderr

    def path_with_toolchain(self):
        """Returns a path that has the toolchain that proves nothing, and all else that this path has."""
        (self.tools / "rt").write_text(RT)
        (self.tools / "rt").chmod(0o755)
        return f"{self.tools}:{os.environ['PATH']}"

    def change_source(self):
        with open(self.top / "crates/lx_ere/src/lib.rt", "a") as source:
            source.write("// another word\n")

    def release_as_it_stands(self):
        """Makes the copy's sources those of the release."""
        (self.top / "dist/sources.sha256").write_text(sources_sum(self.top))

    def test_released_program_starts(self):
        self.release_as_it_stands()
        self.expect("the first start", self.start("run", self.top / "examples/words.l", self.text), (0, LISTING, ""))
        self.check("the program stays", os.access(self.top / "bin/lx", os.X_OK))
        (self.top / "dist/sources.sha256").write_text("none\n")
        self.expect("the second start", self.start("run", self.top / "examples/words.l", self.text), (0, LISTING, ""))

    def test_changed_source(self):
        self.release_as_it_stands()
        self.change_source()
        why = "lx: not built yet, and the released one was made of other sources; building it takes the toolchain's rt, which isn't on the path\n"
        self.expect("a source that isn't the release's", self.start("--version"), (70, "", why))

    def test_build(self):
        self.release_as_it_stands()
        self.change_source()
        path = self.path_with_toolchain()
        status, printed, said = self.start("run", "a", path=path)
        self.expect("the program that was built starts", (status, printed), (0, "built: run a\n"))
        self.check("why it is built", said.startswith("lx: not built yet, and the released one was made of other sources: proving and building it\n"), said)
        self.check("how far it is", re.search(r"^build: 2 of \d+ crates after 0\.0 minutes; now \w+", said, re.M), said)
        self.expect("the second start", self.start("run", "b", path=path), (0, "built: run b\n", ""))
        status, printed, said = self.start("--build", path=path)
        self.expect("a build in any case starts nothing", (status, printed), (0, ""))
        self.change_source()
        status, printed, said = self.start("--version", path=path)
        self.check("what changed since", "crates/lx_ere/src/lib.rt has changed since the program was built" in said, said)

    def test_failed_build(self):
        self.release_as_it_stands()
        self.change_source()
        for name in ("lx_ere", "lx_rules"):
            status, printed, said = self.start("--version", path=self.path_with_toolchain(), FAILS=name)
            self.expect(f"a build in which {name} fails", (status, printed), (70, ""))
            self.check("what is wrong", f"build: {name}:" in said and "a goal is open" in said and "build: the proofs failed" in said, said)

    def test_changed_crate_of_tests(self):
        self.release_as_it_stands()
        with open(self.top / "crates/lx_fixtures/src/lib.rt", "a") as source:
            source.write("// another word\n")
        self.expect("a crate that isn't below lx", self.start("--version")[0], 0)

    def test_damaged_archive(self):
        self.release_as_it_stands()
        archive, = (self.top / "dist").glob("lx-*.tar.gz")
        archive.write_bytes(archive.read_bytes()[:-1])
        status, _, why = self.start("--version")
        self.expect("an archive that isn't whole", (status, "the released one can't be unpacked" in why), (70, True))


if __name__ == "__main__":
    support.main()
