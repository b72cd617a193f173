"""Lists by drivers/lx.py, as `lx scan` does, each line with the column before it; and says what lx.py makes of damaged texts of tables."""
import lx

SHOWN = ["\\\\" if byte == 92 else chr(byte) if 32 <= byte < 127 else f"\\x{byte:02X}" for byte in range(256)]


def listing(tables, texts):
    for number, text in enumerate(texts):
        for token in tables.scan(text):
            kind = "E -" if token.kind is None else f"T {token.kind}"
            shown = "".join(SHOWN[byte] for byte in token.text)
            yield f"{token.column} {number} {kind} {token.line} {token.start} {len(token.text)} {shown}\n"


def damage(texts, data):
    """Each text has its length as four bytes before it. It is refused at a line, or the data is listed by it."""
    at = 0
    while at < len(texts):
        size = int.from_bytes(texts[at : at + 4], "little")
        at += 4 + size
        try:
            tables = lx.Tables(texts[at - size : at])
        except lx.Damaged as refusal:
            yield f"= refused at line {refusal.line}\n"
        else:
            yield "= taken\n"
            yield from listing(tables, [data])


def calls(tables):
    """Tries next and begin by the tables of all_steps.l, and says what isn't so."""
    scanner = tables.scan(b"ab\ncd  e")
    scanner.begin(2)
    first = scanner.next()
    if first != ("ID", b"cd", 3, 2, 1):  # OUT skips the first line, and then IN is begun
        yield f"the first token is {first}\n"
    scanner.begin(0)
    if [scanner.next().kind for _ in range(3)] != [None, None, "ID"] or scanner.next() is not None or scanner.next() is not None:
        yield "behind begin it goes on otherwise\n"
    for condition in (-1, 3):
        try:
            scanner.begin(condition)
            yield f"there is a condition {condition}\n"
        except ValueError:
            pass
