"""Sources of Debian's packages."""
import pathlib
import re
import shutil
import subprocess
import sys
import tarfile

OPTIONS = re.compile(r"^\[.*?\] *")


def addresses():
    """Returns the addresses, suites and components of apt's sources."""
    found = [*pathlib.Path("/etc/apt").glob("sources.list"), *pathlib.Path("/etc/apt/sources.list.d").glob("*")]
    lines = [line for path in found for line in path.read_text(errors="replace").splitlines()]
    listed = [line.split(None, 1)[1] for line in lines if line.startswith("deb ")]
    uris = [line.partition(":")[2].strip() for line in lines if line.startswith("URIs:")]
    suites = [line.partition(":")[2].split() for line in lines if line.startswith("Suites:")]
    listed += [f"{uri} {suite} main" for uri, names in zip(uris, suites) for suite in names]
    return [OPTIONS.sub("", address) for address in listed]


def lists_of_sources(folder):
    """Fetches the lists of sources into folder. Returns apt's options that name them, and the reason if there are none."""
    if not shutil.which("apt-get"):
        return [], "there is no apt-get"
    lists = folder / "lists"
    (lists / "partial").mkdir(parents=True, exist_ok=True)
    sources = folder / "sources.list"
    sources.write_text("".join(f"deb-src {address}\n" for address in addresses()))
    options = ["-o", f"Dir::Etc::sourcelist={sources}", "-o", "Dir::Etc::sourceparts=-", "-o", f"Dir::State::lists={lists}", "-o", "APT::Sandbox::User=root"]
    if subprocess.run(["apt-get", "-qq", *options, "update"], cwd=folder, stdout=sys.stderr).returncode:
        return options, "the lists of packages can't be fetched"
    return options, None


def archives_in(folder):
    """Returns the archives of sources in folder: those without Debian's changes where there are any."""
    found = [it for it in sorted(folder.glob("*.tar.*")) if it.suffix != ".asc" and ".debian." not in it.name]
    return [it for it in found if ".orig." in it.name] or found


def fetch_archives(package, folder, options):
    """Fetches the newest archives of a package that the mirror has into folder, and returns them."""
    words = ["apt-get", "-qq", *options, "source", "--download-only"]
    if subprocess.run([*words, package], cwd=folder, stdout=sys.stderr).returncode and not archives_in(folder):
        # A mirror may lack the version of a security update that its lists name.
        shown = subprocess.run(["apt-cache", *options, "showsrc", "--only-source", package], capture_output=True, text=True, errors="replace").stdout
        for version in re.findall(r"^Version: (\S+)", shown, re.M):
            if subprocess.run([*words, f"{package}={version}"], cwd=folder, stdout=sys.stderr).returncode == 0:
                break
    return archives_in(folder)


def fetch(packages, folder, wants):
    """Fetches the sources of packages, and unpacks the files whose names `wants` accepts into folder/unpacked. Returns the reason if there are no sources."""
    options, fault = lists_of_sources(folder)
    if fault:
        return fault
    for package in packages:
        if subprocess.run(["apt-get", "-qq", *options, "source", "--download-only", package], cwd=folder, stdout=sys.stderr).returncode:
            print(f"left out: {package}, which can't be fetched", flush=True)
    archives = [*folder.glob("*.orig.tar.*"), *(it for it in folder.glob("*.tar.*") if ".orig." not in it.name and ".debian." not in it.name)]
    for archive in archives:
        if archive.suffix != ".asc":
            with tarfile.open(archive) as opened:
                members = [it for it in opened.getmembers() if it.isfile() and wants(it.name) and ".." not in it.name and not it.name.startswith("/")]
                opened.extractall(folder / "unpacked", members)
    return None if archives else "no sources were fetched"
