"""Runs the examples of the pages in Markdown, and compares the pages with the program and the sources.

In an indented block a line that begins with `$ ` is run, and the lines after it are what it prints; another block after a line that ends with a name, as
`main.c`:, is the file of this name. Besides, the codes of docs/ERRORS.md, the test vectors of docs/TABLES.md, the options of docs/lx.1, the names in
docs/POSIX.md and docs/CONTRACTS.md and the map in docs/ARCHITECTURE.md are compared with what they are about.
"""
import ast
import os
import re
import shutil
import subprocess

from tests import markdown, row_files, support
from tests.support import TESTS, TOP, Case, crates_of, lx, output_of

DOCS = TOP / "docs"
PAGES = [TOP / "README.md", TOP / "CONTRIBUTING.md", *sorted(DOCS.glob("*.md"))]
LIMIT_SECONDS = 120
NAMED_FILE = re.compile(r"`([\w.]+)`:$")
TOOLS = ["cc", "make", "cmake", "bison", "rustc"]


def missing_tools(command):
    return [tool for tool in TOOLS if re.search(rf"\b{tool} ", command) and not shutil.which(tool)]


class Commands(Case):
    def setUp(self):
        self.tools = self.make_folder()
        (self.tools / "lx").symlink_to(support.built())
        self.environment = {**os.environ, "PATH": f"{self.tools}:{os.environ['PATH']}", "PYTHONPATH": str(TOP / "drivers")}

    def folder_of(self, page):
        """Makes the folder in which the commands of a page run. Those of the README run in a clone."""
        folder = self.make_folder()
        if page.name == "README.md":
            (folder / "lx").symlink_to(support.built())
            for name in ("drivers", "examples"):
                (folder / name).symlink_to(TOP / name)
        return folder

    def run_command(self, command, folder):
        how = {"cwd": folder, "env": self.environment, "stderr": subprocess.STDOUT, "text": True, "seconds": LIMIT_SECONDS}
        return support.run("sh", "-c", command, **how).stdout

    def try_section(self, page, section, folder):
        for before, block in markdown.indented_blocks(section):
            name = NAMED_FILE.search(before)
            if name and not block.startswith("$ "):
                (folder / name[1]).write_text(block)
            for command, wanted in markdown.commands(block):
                missing = missing_tools(command)
                if missing:
                    return self.leave_out(f"{page.name}: {command}, and the rest of its section", f"there is no {missing[0]}")
                self.expect(f"{page.name}: {command}", self.run_command(command, folder), wanted)

    def test_pages(self):
        with_commands = [page for page in PAGES if re.search(r"^    \$ ", page.read_text(), re.M)]
        self.assertLessEqual({"README.md", "GUIDE.md", "FLEX.md", "PROGRAMS.md"}, {page.name for page in with_commands}, "pages with commands")
        for page in with_commands:
            folder = self.folder_of(page)
            for section in markdown.sections(page.read_text()):
                self.try_section(page, section, folder)


class Errors(Case):
    """explanations.txt has the causes of each code: `lx explain` says the same of each, and each example is refused with its code, or gives the warning.
    docs/ERRORS.md has the codes."""

    HEAD = re.compile(r"(\S+) \((\w+)\)$")

    def setUp(self):
        blocks = [block.rstrip("\n") + "\n" for block in (TESTS / "explanations.txt").read_text().split("\n\n")]
        heads = [self.HEAD.match(block.partition("\n")[0]) for block in blocks]
        self.causes = [(head[2], head[1], block) for head, block in zip(heads, blocks)]

    def lines_of_explain(self, begin):
        return [line for line in lx("explain", text=True).stdout.splitlines() if re.match(begin, line)]

    def test_codes(self):
        codes = [line[:3] for line in self.lines_of_explain("[A-Z]")]
        page = (DOCS / "ERRORS.md").read_text()
        self.assertTrue(codes)
        for code in codes:
            self.check(code, re.search(rf"^\| (`lx: )?{code}\b", page, re.M), "ERRORS.md has no row for it")

    def test_explanations(self):
        self.expect("the causes of lx explain", self.lines_of_explain(r"[a-z-]+ \("), [
            f"{cause} ({code}): {block.splitlines()[1].strip()}" for code, cause, block in self.causes])
        for _, cause, wanted in self.causes:
            self.expect(f"lx explain {cause}", lx("explain", cause, text=True).stdout, wanted)

    def test_examples(self):
        for code, cause, block in self.causes:
            _, begin, example = block.rstrip("\n").partition("\n    As in: ")
            if not begin:
                continue
            if code == "warning":
                ended = lx("check", "-q", "-W", "all", "-", input=text_of(code, cause, example), text=True)
                self.check(f"{cause}: {example}", ended.returncode == 0 and f" [{cause}]\n" in ended.stdout, f"lx check prints {ended.stdout!r}")
            else:
                ended = lx("up" if code == "B01" else "gen", "-", input=text_of(code, cause, example), text=True)
                is_refused = ended.returncode == 1 and re.match(rf"lx: {code}\b", ended.stderr) is not None
                self.check(f"{cause}: {example}", is_refused, f"it ends with {ended.returncode}: {ended.stderr!r}")


def text_of(code, cause, example):
    """Returns the text that an example is short for: a specification, or tables."""
    before, then, after = example.partition(", then ")
    lines = before + "\n"
    if then:
        return lines + "%%\n" + after + "\n"
    if code in ("B01", "E02"):
        return lines
    if code in ("E04", "E05") or code == "E03" and "action" not in cause and "brace" not in cause:
        return lines + "%%\na ;\n"
    return "%%\n" + lines


class Tables(Case):
    """docs/TABLES.md: its function in Python and `lx` give the test vectors."""

    LINES_OF_THE_FUNCTION = 20

    def setUp(self):
        page = (DOCS / "TABLES.md").read_text(encoding="utf-8")
        (self.function,) = markdown.fenced_blocks(page, "python")
        kinds = ("lex", "tables", "input", "listing")
        vectors = list(zip(*(markdown.fenced_blocks(page, kind) for kind in kinds), strict=True))
        self.assertGreaterEqual(len(vectors), 3, "test vectors")
        self.vectors = [(specification, tables, ast.literal_eval(text).encode(), listing) for specification, tables, text, listing in vectors]

    def test_function(self):
        names = {"re": re}
        exec(self.function, names)
        self.expect("the lines of the function", len(self.function.splitlines()) - 1, self.LINES_OF_THE_FUNCTION)
        for number, (_, tables, text, wanted) in enumerate(self.vectors, 1):
            self.expect(f"vector {number}, by the function", listing_of(names["scan"](tables, text)), wanted)

    def test_program(self):
        folder = self.make_folder()
        for number, (specification, tables, text, wanted) in enumerate(self.vectors, 1):
            (folder / "text").write_bytes(text)
            printed = output_of("gen", "-", input=specification.encode())
            (folder / "tables").write_bytes(printed)
            listing = output_of("scan", "tables", "text", cwd=folder)
            self.expect(f"vector {number}, by lx", (printed.decode(), listing.decode()), (tables, wanted))


def escaped(text):
    return "".join("\\\\" if byte == 92 else chr(byte) if 32 <= byte < 127 else f"\\x{byte:02X}" for byte in text)


def listing_of(items):
    return "".join(f"0 {'E' if kind == '-' else 'T'} {kind} {line} {start} {len(text)} {escaped(text)}\n" for kind, line, start, text in items)


class ManualPage(Case):
    """docs/lx.1 and the help of `lx` have the same commands, and for each of them the same options. mandoc has nothing to say of the page."""

    PAGE = DOCS / "lx.1"
    # The page has these on lines of their own, since each command has them.
    COMMON = {"-h", "--help", "-V", "--version"}
    # The commands with the options of another program, which have a help of their own.
    OTHERS = {"flex"}

    def options_of_page(self):
        """Returns the options of each command in SYNOPSIS."""
        synopsis = self.PAGE.read_text().partition(".Sh SYNOPSIS\n")[2].partition("\n.Sh ")[0]
        parts = [part for part in synopsis.split(".Nm\n") if part.startswith(".Cm ")]
        return {part.split()[1]: {f"-{word}" for word in re.findall(r"^\.Op Fl (\S+)", part, re.M)} for part in parts}

    def described_options(self):
        """Returns the options that have an entry of their own."""
        entries = re.findall(r"^\.It Fl (.*)", self.PAGE.read_text(), re.M)
        return {f"-{word}" for line in entries for word in re.findall(r"(?:^|, Fl )(\S+)", line)}

    def options_of_help(self, command):
        """Returns the options that begin a line of the help, or follow another one that does."""
        heads = re.findall(r"^ +(-.*?)(?:  |$)", output_of(command, "--help", text=True), re.M)
        return {option for head in heads for option in re.findall(r"(?<![\w-])--?[A-Za-z0-9][A-Za-z0-9-]*", head)} - self.COMMON

    def commands_of_help(self):
        section = re.search(r"^Commands:\n((?: +.*\n)*)", output_of("--help", text=True), re.M)
        return set(re.findall(r"^  (\w+)", section[1], re.M)) if section else set()

    def test_options(self):
        page, commands = self.options_of_page(), self.commands_of_help()
        self.expect("the same commands", set(page), commands | self.OTHERS)
        for name in sorted(set(page) & commands):
            self.expect(f"the same options of {name}", page[name], self.options_of_help(name))
        self.expect("each option is described", self.described_options(), set.union(self.COMMON, *page.values()))

    def test_layout(self):
        support.tool("mandoc")
        said = support.run("mandoc", "-T", "lint", "-W", "style", self.PAGE, text=True).stdout
        self.assertEqual([line for line in said.splitlines() if "mandoc.db" not in line], [])


class Posix(Case):
    """docs/POSIX.md names what is there: each definition in its file, each call in its crate, each row or test."""

    PAGE = DOCS / "POSIX.md"
    HEADS = {"Rule", "In the standard"}
    DEFINITION = re.compile(r"\[(\w+)\]\((\.\./crates/\w+/specs/\w+\.antt)\)")

    def is_defined(self, name, path):
        """Tells that a file of specs/ has a definition of this name, with or without fields of its own."""
        file = self.PAGE.parent / path
        return file.exists() and bool(re.search(rf"^\s*(?:\w+ )*{name}\b(?= :| \(| \{{|$)", file.read_text(), re.M))

    def missing_in(self, cells, shown):
        """Returns what a row of a table names that isn't there."""
        missing = [name for name, path in self.DEFINITION.findall(cells[1]) if not self.is_defined(name, path)]
        if len(cells) == 4:
            missing += [name for name in markdown.code_spans(cells[2]) if not is_call(name)]
        return missing + [name for name in markdown.code_spans(cells[-1]) if name not in shown]

    def test_names(self):
        rows = [cells for cells in markdown.table_rows(self.PAGE.read_text()) if cells[0] not in self.HEADS]
        shown = {row.name for row in row_files.read_all()} | names_of_tests()
        self.assertTrue(rows)
        for cells in rows:
            self.expect(cells[0], self.missing_in(cells, shown), [])

    def test_calls_of_sections(self):
        """Each table without contracts of its own has a line before it, with the calls that promise its rules."""
        for section in markdown.sections(self.PAGE.read_text())[1:]:
            calls = [name for line in re.findall(r"^Promised by .*", section, re.M) for name in markdown.code_spans(line)]
            self.check(section.partition("\n")[0], calls or "| Contract |" in section or "| In the standard |" in section, "it names no call")
            self.expect("calls that aren't there", [name for name in calls if not is_call(name)], [])


def is_call(name):
    """Tells that a crate has a function that is called so."""
    crate, *_, function = name.split("::")
    return any(re.search(rf"\bpub fn {function}\b", path.read_text()) for path in (TOP / "crates" / crate / "src").rglob("*.rt"))


def names_of_tests():
    """Returns the names of all tests of the crates of tests."""
    return {name for path in TOP.glob("crates/*_tests/src/*.rt") for name in re.findall(r"#\[test\]\s*fn (\w+)", path.read_text())}


def exports_of(text):
    """Returns the names that a source exports by `pub use`."""
    found = re.findall(r"pub use (?:crate::)?\w+(?:::\w+)*?(?:::\{([^}]*)\}|::(\w+));", text)
    return {name.strip() for inner, alone in found for name in (inner or alone).split(",")}


class Proved(Case):
    """docs/CONTRACTS.md speaks of each public function and each trait of the libraries."""

    # These promise nothing but their types: they make a value of a kind, or give back what it was made of.
    PLAIN = {"new", "of"}
    FOR_TESTS = re.compile(r"\w+_tests|lx_fixtures|lx_calls|lx_plain")

    def names_of(self, crate):
        """Returns the functions and traits that the root of a crate exports, or that its public modules have."""
        source = TOP / "crates" / crate / "src"
        root = (source / "lib.rt").read_text()
        exported = exports_of(root)
        for module in re.findall(r"^pub mod (\w+);", root, re.M):
            exported |= set(re.findall(r"^pub (?:fn|trait) (\w+)", (source / f"{module}.rt").read_text(), re.M))
        declared = {name for path in source.rglob("*.rt") for name in re.findall(r"^pub (?:fn|trait) (\w+)", path.read_text(), re.M)}
        return exported & declared - self.PLAIN

    def test_names(self):
        page = (DOCS / "CONTRACTS.md").read_text()
        libraries = [name for name in crates_of((TOP / "crates.txt").read_text()) if (TOP / "crates" / name / "src/lib.rt").exists()]
        for crate in [name for name in libraries if not self.FOR_TESTS.fullmatch(name)]:
            for name in sorted(self.names_of(crate)):
                self.check(f"{crate}::{name}", re.search(rf"\b{name}\b", page), "the page doesn't speak of it")


class Architecture(Case):
    def test_map(self):
        ended = support.run(DOCS / "map", "--check", text=True)
        self.assertEqual((ended.returncode, ended.stdout + ended.stderr), (0, ""))


class Speed(Case):
    def test_chart(self):
        ended = support.run(DOCS / "chart", "--check", text=True)
        self.assertEqual((ended.returncode, ended.stdout + ended.stderr), (0, ""))


class CrateNames(Case):
    """The pages name crates, and calls of crates, that are there."""

    DECLARED = re.compile(r"\b(?:fn|struct|enum|trait|mod|const|type|static) (\w+)")

    def names_in(self, crate):
        """Returns what the sources of a crate declare or export."""
        sources = list((TOP / "crates" / crate / "src").rglob("*.rt"))
        text = "\n".join(path.read_text() for path in sources)
        return {path.stem for path in sources} | set(self.DECLARED.findall(text)) | exports_of(text)

    def test_names(self):
        crates = {name: self.names_in(name) for name in crates_of((TOP / "crates.txt").read_text())}
        specs = {word for path in TOP.glob("crates/*/specs/**/*.antt") for word in re.findall(r"\blx_\w+", path.read_text())}
        for page in PAGES:
            for path in sorted(set(re.findall(r"\blx_[a-z_]+(?:::\w+)*", page.read_text()))):
                crate, *names = path.split("::")
                missing = [name for name in names if name not in crates.get(crate, ())]
                self.check(f"{page.name}: {path}", (crate in crates or not names and crate in specs) and not missing, f"there is no {', '.join(missing) or crate}")


class Indexes(Case):
    """tests/README.md and bench/README.md have a line for each file."""

    def files_of(self, folder):
        return {path.name for path in folder.iterdir() if not path.name.startswith((".", "__")) and path.name != "README.md"}

    def test_files(self):
        for folder in (TESTS, TOP / "bench"):
            rows = markdown.table_rows((folder / "README.md").read_text())
            named = [name.rstrip("/") for cells in rows for name in markdown.code_spans(cells[0])]
            self.expect(f"the files of {folder.name}/", sorted(named), sorted(self.files_of(folder)))


if __name__ == "__main__":
    support.main()
