"""Prints an INI file as JSON: ini_to_json.py TABLES FILE. The tables are those of examples/ini.l."""
import json
import sys

import lx


def sections(tables, data):
    """The keys and values of each section; those before the first one stand in the section without a name."""
    found = {"": {}}
    section = key = ""
    for token in tables.scan(data):
        text = token.text.decode()
        if token.kind is None:
            sys.exit(f"line {token.line}, column {token.column}: {text!r} has no place here")
        if token.kind == "SECTION":
            section = text[1:-1]
            found.setdefault(section, {})
        elif token.kind == "KEY":
            key = text
            found[section][key] = ""
        elif token.kind == "VALUE":
            found[section][key] = text.strip()
    return {name: values for name, values in found.items() if name or values}


def main():
    with open(sys.argv[1], "rb") as tables, open(sys.argv[2], "rb") as data:
        print(json.dumps(sections(lx.Tables(tables.read()), data.read()), indent=2))


if __name__ == "__main__":
    main()
