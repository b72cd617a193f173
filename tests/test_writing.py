"""Keeps pages short and plain: their length, the length of sentences, words for order, and how comments begin."""
import re

from tests import markdown, support
from tests.support import TOP, Case

DOCS = TOP / "docs"
# Lines of a page at most. A page that isn't here is a reference page for users.
LIMITS = {"README.md": 110, "GUIDE.md": 200, "ARCHITECTURE.md": 200, "CONTRACTS.md": 200, "DECISIONS.md": 200, "INTERNALS.md": 200, "PROOFS.md": 200, "PROVING.md": 200}
REFERENCE_LINES = 150
# These need more: a row for each construct beside a whole program, and test vectors.
LONGER = {"FLEX.md": 175, "TABLES.md": 250}
WORDS_OF_A_SENTENCE = 40
COMMENT = re.compile(r"//|--")
QUESTION = r"(//[/!]?|--+) +(Whether|What|How|Where|Who|Of)\b"


def prose_of(text):
    """Returns the paragraphs and list items of a page: no headings, tables, code or pictures."""
    lines = [line for line in text.splitlines() if not re.match(r"    |#|\||!\[|```|>", line)]
    parts = re.split(r"\n\s*\n|\n(?=- |\d+\. )", "\n".join(lines))
    return [re.sub(r"\[([^]]*)\]\([^)]*\)", r"\1", " ".join(part.split())) for part in parts if part.strip()]


def sentences_of(text):
    return [sentence for part in prose_of(text) for sentence in re.split(r"(?<=[.:;?!])\s+(?=[A-Z`\"])", part)]


class Pages(Case):
    def pages(self):
        return [TOP / "README.md", *sorted(DOCS.glob("*.md"))]

    def test_lengths(self):
        for page in self.pages():
            most = {**LIMITS, **LONGER}.get(page.name, REFERENCE_LINES)
            lines = len(page.read_text().splitlines())
            self.check(f"{page.name} has at most {most} lines", lines <= most, f"it has {lines}")

    def test_sentences(self):
        for page in (TOP / "README.md", DOCS / "GUIDE.md", TOP / "CONTRIBUTING.md"):
            for sentence in sentences_of(page.read_text()):
                words = len(sentence.split())
                self.check(f"{page.name}: {sentence[:60]}", words <= WORDS_OF_A_SENTENCE, f"it has {words} words")

    def test_words_for_order(self):
        for page in self.pages():
            text = markdown.CODE.sub("", page.read_text())
            found = re.findall(r".{0,40}(?<![-\w])behind(?![-\w]).{0,20}", text)
            self.check(f"{page.name} says after", not found, f"it says {found[:1]}")

    def test_links(self):
        for page in [*self.pages(), TOP / "CONTRIBUTING.md", TOP / "tests/README.md", TOP / "bench/README.md"]:
            dead = [link for link in markdown.links(page.read_text()) if not (page.parent / link).exists()]
            self.check(f"links of {page.name}", not dead, f"these lead nowhere: {', '.join(dead)}")


class Comments(Case):
    def questions(self, text):
        """Returns the lines of comments that begin with a question: in small letters too, if the comment begins there."""
        lines = [line.strip() for line in text.splitlines()]
        return [line for before, line in zip(["", *lines], lines) if re.match(QUESTION, line, 0 if COMMENT.match(before) else re.I)]

    def test_beginnings(self):
        for path in sorted([*TOP.glob("crates/*/src/**/*.rt"), *TOP.glob("crates/*/specs/**/*.antt"), *TOP.glob("crates/*/proofs/**/*.antt")]):
            found = self.questions(path.read_text())
            self.check(str(path.relative_to(TOP)), not found, f"a comment begins with a question: {found[:1]}")


if __name__ == "__main__":
    support.main()
