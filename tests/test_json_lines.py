"""Reads listings of random bytes in JSON back, and compares them with the listings in lines of fields.

Python's json has to read each line as one object, which says what the line of fields says; a text is a string exactly if it is UTF-8. The same holds with
names, some of which are long or have bytes that are escaped. The listings of parts of the files, joined, have to be the listing of all, in each form.
"""
import json
import random
import re

from tests import support
from tests.support import Case, output_of

PARSER = support.parser("Reads listings in JSON back.")
PARSER.add_argument("--seed", type=int, default=1, metavar="N", help="the seed of the random bytes (default: 1)")
OPTIONS = PARSER.parse_args([])
RULES = rb"""%%
[a-z]+ return ID;
[0-9]+ return NUM;
"+" return '+';
[\x80-\xff]+ return HIGH;
#[^#]*# return WHAT_STANDS_BETWEEN;
@[^@]*@ return 2147483647;
[ \n]+ ;
"""
FILES = 40
FORMS = [[], ["--names"], ["--only=-,NUM,43"], ["--no-text"], ["--format", "json"], ["--format", "json", "--names", "--no-text", "--only=HIGH"]]
ESCAPE = re.compile(rb"\\(\\|x[0-9A-F]{2})")


def random_bytes(draw, number):
    """Returns bytes of all kinds; for each fifth file characters of one to four bytes, and for each fifth texts of all lengths up to 200 bytes."""
    if number % 5 == 3:
        return b"".join(random_text(draw) for _ in range(60))
    if number % 5 == 0:
        return "".join(draw.choice("A\u00e4\u20ac\U0001f600\n") for _ in range(600)).encode()
    return bytes(draw.choice([draw.randrange(256), draw.choice(b'ab12 +\n"\\')]) for _ in range(2_000))


def random_text(draw):
    """Returns a text between two marks, and some space: mostly ASCII, or characters of all lengths, or bytes."""
    mark, length = draw.choice(["#", "@"]), draw.choice([draw.randrange(20), draw.randrange(200)])
    letters = draw.choice(["abc", 'ab"\\', "a\0\x1f\x7f\n", "ab\u00e4", "\u20ac\U0001f600\ud7ff", None])
    if letters is None:
        return b"#" + bytes(draw.choice(b"ab\x80\xc3\xa4\xff") for _ in range(length)) + b"# "
    return (mark + "".join(draw.choice(letters) for _ in range(length)) + mark + draw.choice([" ", "\n" * draw.randrange(40)])).encode()


def file_names():
    """Returns names, of which some are long, and some have bytes that are escaped in one of the forms."""
    odd = ["d" * 40 + "/" + "f" * 40, "d" * 200 + "/" + "f" * 200, 'a "b"\\', "\u00e4 \u20ac", "\x01\x7f", "'"]
    return odd + [f"F{number}" for number in range(len(odd), FILES)]


def unescaped(text):
    return ESCAPE.sub(lambda found: b"\\" if found[1] == b"\\" else bytes([int(found[1][1:], 16)]), text)


def is_utf8(data):
    try:
        data.decode()
        return True
    except UnicodeDecodeError:
        return False


def members_of(line, names):
    """Returns the members of the object for a line of fields, which has names for the files if there are any."""
    file, letter, kind, number, start, length, text = line.split(b" ", 6)
    data = unescaped(text)
    name = unescaped(file).decode()
    members = {"file": names.index(name), "name": name} if names else {"file": int(file)}
    members |= {"echo": True} if letter == b"E" else {"kind": int(kind) if kind.isdigit() else kind.decode()}
    members |= {"line": int(number), "start": int(start), "len": int(length)}
    return list((members | ({"text": data.decode()} if is_utf8(data) else {"hex": data.hex()})).items())


class JsonLines(Case):
    def setUp(self):
        self.folder, self.names, draw = self.make_folder(), file_names(), random.Random(OPTIONS.seed)
        (self.folder / "S").write_bytes(RULES)
        for number, name in enumerate(self.names):
            path = self.folder / name
            path.parent.mkdir(exist_ok=True)
            path.write_bytes(random_bytes(draw, number))

    def listing(self, *words):
        return output_of("run", *words, cwd=self.folder)

    def test_objects(self):
        for options in [], ["--names"]:
            lines = self.listing(*options, "S", *self.names).split(b"\n")[:-1]
            objects = self.listing("--format", "json", *options, "S", *self.names).split(b"\n")[:-1]
            self.assertEqual(len(objects), len(lines), "lines of the listing in JSON")
            self.assertTrue(lines)
            for number, (line, document) in enumerate(zip(lines, objects), 1):
                with self.subTest(f"{options}, line {number}"):
                    self.assertEqual(list(json.loads(document).items()), members_of(line, self.names if options else None))

    def test_parts(self):
        for form in FORMS:
            whole = self.listing(*form, "S", *self.names)
            parts = b"".join(self.listing(*form, "--first", str(first), "S", *self.names[first : first + 7]) for first in range(0, FILES, 7))
            self.expect(f"the listings of parts, {' '.join(form) or 'plain'}", parts, whole)


if __name__ == "__main__":
    support.main(PARSER, OPTIONS)
