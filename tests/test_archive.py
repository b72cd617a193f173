"""Makes the archive of ./pack and the package for Debian twice, and tries what they have.

Both of each have to be the same bytes, each link of the unpacked documents has to lead to a file, and the program has to run in a root that has nothing
but what was unpacked and the C library.
"""
import os
import pathlib
import re
import shutil
import tarfile
import unittest

from tests import support
from tests.markdown import dead_links
from tests.support import TOP, Case

LIMIT_SECONDS = 120
only_root = unittest.skipUnless(os.geteuid() == 0 and shutil.which("chroot"), "only root can have a root of its own")
LISTING = "0 T ID 1 0 2 ab\n0 T NUM 1 3 2 12\n"


def libraries_of(program):
    """Returns the paths of what a program is linked with, the loader included."""
    linked = support.run("ldd", program, text=True).stdout
    return [pathlib.Path(path) for path in re.findall(r"(/\S+)", linked)]


class Archive(Case):
    def setUp(self):
        self.folder = self.make_folder()

    def pack(self, name, *words):
        to = self.folder / name
        to.mkdir()
        ended = support.run(TOP / "pack", *words, "--program", support.built(), "--to", to, seconds=LIMIT_SECONDS, text=True)
        self.assertEqual(ended.returncode, 0, ended.stderr)
        return pathlib.Path(ended.stdout.strip())

    def unpack(self, archive):
        with tarfile.open(archive) as opened:
            opened.extractall(self.folder)
        return next(self.folder.glob("lx-*"))

    def test_same_bytes(self):
        first, second = self.pack("first"), self.pack("second")
        self.check("packed", True)
        self.check("the same bytes", first.read_bytes() == second.read_bytes(), f"{first} and {second} differ")

    def test_links(self):
        self.assertEqual(dead_links(self.unpack(self.pack("archive"))), [])

    def try_alone(self, root, program, examples):
        """Runs the program with no file but those of the root and the libraries that it is linked with, as a user without rights."""
        for library in libraries_of(root / program):
            to = root / str(library).lstrip("/")
            to.parent.mkdir(parents=True, exist_ok=True)
            shutil.copy(library, to)
        (root / "first.txt").write_text("ab 12\n")
        self.folder.chmod(0o755)
        ended = support.run("chroot", "--userspec=65534:65534", root, f"/{program}", "run", f"/{examples}/words.l", "/first.txt", text=True)
        self.assertEqual((ended.stdout, ended.stderr), (LISTING, ""))

    @only_root
    def test_runs_alone(self):
        self.try_alone(self.unpack(self.pack("archive")), "bin/lx", "examples")

    @only_root
    @unittest.skipUnless(shutil.which("dpkg-deb"), "there is no dpkg-deb")
    def test_package(self):
        first, second = self.pack("deb", "--deb"), self.pack("again", "--deb")
        self.check("the same bytes", first.read_bytes() == second.read_bytes(), f"{first} and {second} differ")
        root = self.folder / "root"
        support.run("dpkg-deb", "--extract", first, root)
        for name in ("man/man1/lx.1", "bash-completion/completions/lx", "zsh/vendor-completions/_lx", "fish/vendor_completions.d/lx.fish", "lx/lx.h"):
            self.check(f"the package has {name}", (root / "usr/share" / name).exists())
        self.try_alone(root, "usr/bin/lx", "usr/share/doc/lx/examples")


if __name__ == "__main__":
    support.main()
