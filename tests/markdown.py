"""Reads examples from pages in Markdown: indented and fenced blocks, command lines, rows of tables, spans of code and links."""
import re

CODE = re.compile(r"`` (.*?) ``|`([^`]*)`")
LINK = re.compile(r"\]\(([^)#\s]+)")


def sections(text):
    """Returns the parts of a page that begin with a heading of the second level, and what is before them."""
    return re.split(r"^## ", text, flags=re.M)


def indented_blocks(text):
    """Yields each indented block after the last line before it that isn't empty."""
    before, block = "", []
    for line in [*text.splitlines(), "end"]:
        if line.startswith("    ") or (not line and block):
            block.append(line[4:])
            continue
        if block:
            yield before, "\n".join(block).rstrip("\n") + "\n"
            block = []
        if line:
            before = line


def fenced_blocks(text, kind):
    """Returns the fenced blocks of a kind, as `python`."""
    return re.findall(rf"^```{kind}\n(.*?)^```$", text, re.M | re.S)


def commands(block):
    """Returns the commands of a block, each with what it has to print."""
    parts = [part.partition("\n") for part in re.split(r"^\$ ", block, flags=re.M)[1:]]
    return [(command, wanted) for command, _, wanted in parts]


def table_rows(text):
    """Returns the cells of each row of a table; `\\|` is read as `|`."""
    rows = [line.replace("\\|", "\0").split("|")[1:-1] for line in text.splitlines() if line.startswith("| ")]
    return [[cell.strip().replace("\0", "|") for cell in row] for row in rows]


def code_spans(text):
    return [double or single for double, single in CODE.findall(text)]


def links(text):
    """Returns the targets of links that are files."""
    return [target for target in LINK.findall(text) if "://" not in target]


def dead_links(top):
    """Returns the links of the pages below a folder that lead to no file."""
    pages = {page: links(page.read_text()) for page in sorted(top.rglob("*.md"))}
    return [f"{page.relative_to(top)}: {link}" for page, targets in pages.items() for link in targets if not (page.parent / link).exists()]
