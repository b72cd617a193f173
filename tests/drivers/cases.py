"""Makes what the drivers are tried on: specifications with texts, those of examples/ and random ones, and damaged texts of tables."""
import dataclasses
import random

# Kinds whose names come near to words of the scanners that are printed in C.
KINDS = ["ID", "NUM", "H", "API", "NO_LINES", "CUT", "BEGIN", "END", "ECHO", "MORE", "next", "_x", "int", "x9"]
LETTERS = "abcd"
BYTES = b"aaabbbcccdd01 \n\n"
SETS = [".", "[ab]", "[^a]", "[^ab\\n]", "[[:digit:]]", "[b-d]", '"ab"', '"a b"', "\\n", "\\x61", "[ \\n]", "(a|bc)", "{D}"]
# Each byte of small tables is changed into these: what the format knows, and bytes that it doesn't.
CHANGES = b"0129-: \n\rabeknsx\0\x7f\xff"
# And these take the place of a field.
FIELDS = b"0 1 255 256 16511 16512 2147483647 2147483648 99999999999999999999 -1 - k0 k1 n0 n2147483648 e b0 b1 0:0 0-255:0 end state".split() + [b""]


@dataclasses.dataclass
class Case:
    """A specification, and texts that are scanned by it."""

    name: str
    specification: bytes
    texts: list
    tables: bytes = b""


def mutated(draw, text, changes):
    """The text with so many bytes changed, left away or put in."""
    text = bytearray(text)
    for _ in range(changes):
        at = draw.randrange(len(text) + 1)
        byte = draw.choice(list(BYTES) + [draw.randrange(256)])
        match draw.randrange(3):
            case 0:
                text[at : at + 1] = bytes([byte])
            case 1:
                del text[at : at + draw.randrange(1, 4)]
            case 2:
                text[at:at] = bytes([byte])
    return bytes(text)


def example_cases(folder, draw):
    for path in sorted(folder.glob("*.l")):
        text = path.with_suffix(".txt").read_bytes()
        texts = [text, b"", text[: len(text) // 2], text + text] + [mutated(draw, text, changes) for changes in (1, 3, 10, 30)]
        yield Case(path.stem, path.read_bytes(), texts)


def pattern(draw, depth=0):
    def unit():
        atom = draw.choice(SETS) if draw.random() < 0.4 else f"({pattern(draw, depth + 1)})" if depth < 2 and draw.random() < 0.2 else draw.choice(LETTERS)
        return atom + draw.choice(["", "", "", "*", "+", "?"])

    branches = ["".join(unit() for _ in range(draw.randint(1, 3))) + draw.choice([""] * 8 + ["{1,2}", "{2}"]) for _ in range(draw.choice([1, 1, 1, 2]))]
    return "|".join(branches)


def action(draw, conditions):
    kind = lambda: draw.choice([draw.choice(KINDS), draw.choice(KINDS), str(draw.randrange(1_000)), "'+'"])
    begin = f"BEGIN {draw.choice(conditions)};"
    return draw.choice([f"return {kind()};", f"return {kind()};", f"return {kind()};", ";", begin, "ECHO;", f"{{ {begin} return {kind()}; }}",
                        f"{{ ECHO; {begin} ECHO; return {kind()}; }}", f"{{ ECHO; {begin} }}", "{ ECHO; ECHO; }"])  # fmt: skip


def specification(draw):
    names = ["INITIAL"] + [f"C{number}" for number in range(draw.choice([0, 0, 1, 2, 3]))]
    declared = [f"{draw.choice(['%s', '%x'])} {name}" for name in names[1:]]
    rules = []
    for number in range(draw.randint(1, 8)):
        prefix = f"<{','.join(draw.sample(names, draw.randint(1, len(names))))}>" if draw.random() < 0.4 else ""
        text = draw.choice([""] * 6 + ["^"]) + pattern(draw) + draw.choice([""] * 6 + ["$"])
        rules.append(f"{prefix}{text} {action(draw, names)}")
    return "\n".join([*declared, "D [0-9]", "%%", *rules, ""]).encode()


def random_case(draw, number):
    texts = [bytes(draw.choice(BYTES) for _ in range(draw.choice([0, 1, 7, 40, 150]))) for _ in range(3)]
    texts += [mutated(draw, texts[-1], 8), bytes(range(256)), bytes(draw.choice(b"ab\n") for _ in range(60))]
    return Case(f"random-{number}", specification(draw), texts)


def rearranged(tables, count, draw):
    """Texts in which lines are swapped, repeated or left away, and fields replaced."""
    for _ in range(count):
        lines = tables.split(b"\n")
        for _ in range(draw.randint(1, 4)):
            one, other = draw.randrange(len(lines)), draw.randrange(len(lines))
            fields = lines[one].split(b" ")
            fields[draw.randrange(len(fields))] = draw.choice(FIELDS)
            match draw.randrange(4):
                case 0:
                    lines[one], lines[other] = lines[other], lines[one]
                case 1:
                    lines.insert(one, lines[other])
                case 2:
                    del lines[one : one + draw.randrange(2)]
                case 3:
                    lines[one] = b" ".join(fields)
        yield b"\n".join(lines)


def truncated(tables, most, draw):
    places = range(len(tables)) if len(tables) <= most else sorted(draw.sample(range(len(tables)), most))
    return [tables[:place] for place in places]


def changed(tables, most, draw):
    """The text with one byte changed, at each place into each of CHANGES, or so many of these."""
    every = [(place, byte) for place in range(len(tables)) for byte in CHANGES if tables[place] != byte]
    chosen = every if len(every) <= most else sorted(draw.sample(every, most))
    return [tables[:place] + bytes([byte]) + tables[place + 1 :] for place, byte in chosen]
