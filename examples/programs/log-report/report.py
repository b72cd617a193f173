"""How many messages a log has, by level and by who speaks: report.py TABLES LOG. The tables are those of examples/log.l."""
import collections
import sys

import lx


def main():
    with open(sys.argv[1], "rb") as tables, open(sys.argv[2], "rb") as log:
        tokens = lx.Tables(tables.read()).scan(log.read())
        counts, wrong = {"LEVEL": collections.Counter(), "WHO": collections.Counter()}, set()
        for token in tokens:
            if token.kind is None:
                wrong.add(token.line)
            elif token.kind in counts:
                counts[token.kind][token.text.decode()] += 1
    for counter in counts.values():
        for name, count in sorted(counter.items()):
            print(f"{count:6} {name}")
    print(f"{len(wrong):6} lines of no form")


if __name__ == "__main__":
    main()
