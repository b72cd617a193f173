"""count_by_python TABLES FILE, or LIBRARY FILE: counts tokens, and sums their lengths and lines, by drivers/lx.py or drivers/lx_c.py."""
import pathlib
import sys

sys.path.insert(0, str(pathlib.Path(__file__).resolve().parent.parent / "drivers"))
import lx
import lx_c

scanner = lx_c.Library(sys.argv[1]) if sys.argv[1].endswith(".so") else lx.Tables(pathlib.Path(sys.argv[1]).read_bytes())
tokens = lengths = lines = 0
for token in scanner.scan(pathlib.Path(sys.argv[2]).read_bytes()):
    tokens += 1
    lengths += len(token.text)
    lines += token.line
print(tokens, lengths, lines)
