"""Checks that what `lx check --json` prints is SARIF 2.1.0, and says the same as `lx check -q`.

Each object has to have the members that the standard's schema requires, no member that the schema doesn't name, and values of its types. Each line of the
findings has to have a result, in their order, with the same code, name, words, line and column. The specifications are those of examples/ and some with
faults, also under odd names.
"""
import json
import re
import urllib.parse

from tests import support
from tests.support import EXAMPLES, Case, lx

FINDING = re.compile(rb"(.*?)(?::(\d+)(?::(\d+))?)?: (error|warning): (.*)", re.S)
FAULTY = {
    "range.l": b"%%\n[z-a] return A;\n(b return B;\na return A\n",
    "names.l": b"D {E}\nE [0-9\n%%\n{D} return D;\n{F} return F;\n<Q>a ;\n",
    "none.l": b"a return A;\n",
    "positions.l": b"%%\n((a{200}){200}) ;\n",
    "never.l": b"%x S\n%%\n[a-z]+ return ID;\nif return IF;\n",
    "bytes.l": b"%%\n[\x01\xff-\x02\"\\] return A;\n\xc3\xa9/x ;\n",
    "a b%.l": b"%%\na/b ;\n",
    "\u00e4\".l": b"%%\na/b ;\n",
}
# The members of each kind of object: if they are required, and their type or kind.
SCHEMA = {
    "log": {"$schema": (False, "uri"), "version": (True, "version"), "runs": (True, ["run"])},
    "run": {"tool": (True, "tool"), "results": (False, ["result"])},
    "tool": {"driver": (True, "driver")},
    "driver": {"name": (True, str), "version": (False, str)},
    "result": {"ruleId": (False, str), "level": (False, "level"), "message": (True, "message"), "locations": (False, ["location"])},
    "message": {"text": (True, str)},
    "location": {"physicalLocation": (False, "physicalLocation")},
    "physicalLocation": {"artifactLocation": (False, "artifactLocation"), "region": (False, "region")},
    "artifactLocation": {"uri": (False, "uri")},
    "region": {"startLine": (False, "place"), "startColumn": (False, "place"), "endColumn": (False, "place")},
}
VALUES = {
    "version": lambda value: value == "2.1.0",
    "level": lambda value: value in ("none", "note", "warning", "error"),
    "place": lambda value: type(value) is int and value >= 1,
    "uri": lambda value: type(value) is str and re.fullmatch(r"[A-Za-z0-9\-._~:/?#\[\]@!$&'()*+,;=%]+", value) and not re.search(r"%(?![0-9A-F]{2})", value),
}


def faults_of_object(kind, value, place):
    members = SCHEMA[kind]
    faults = [f"{place} has no {name}" for name, (required, _) in members.items() if required and name not in value]
    faults += [f"{place} has a {name}" for name in value if name not in members]
    return faults + [fault for name, (_, of) in members.items() if name in value for fault in faults_of(of, value[name], f"{place}.{name}")]


def faults_of(kind, value, place):
    """Returns what the schema has against a value, by places."""
    if isinstance(kind, list):
        if type(value) is not list:
            return [f"{place} is no list"]
        return [fault for number, each in enumerate(value) for fault in faults_of(kind[0], each, f"{place}[{number}]")]
    if isinstance(kind, type):
        return [] if type(value) is kind else [f"{place} is no {kind.__name__}"]
    if kind in VALUES:
        return [] if VALUES[kind](value) else [f"{place} is {value!r}"]
    return faults_of_object(kind, value, place) if type(value) is dict else [f"{place} is no object"]


def finding_of(result):
    """Returns the place, the level and the words that the line of a result has."""
    location = result["locations"][0]["physicalLocation"]
    region = location.get("region", {})
    level, text = result["level"], result["message"]["text"]
    words = f"{result['ruleId'].partition('/')[0]}: {text}" if level == "error" else f"{text} [{result['ruleId']}]"
    return location["artifactLocation"]["uri"], region.get("startLine", 0), region.get("startColumn", 0), level, words


def finding_in(line, name):
    found = FINDING.fullmatch(line)
    return urllib.parse.quote(name), int(found[2] or 0), int(found[3] or 0), found[4].decode(), found[5].decode()


class Sarif(Case):
    def setUp(self):
        self.folder = self.make_folder()
        for name, text in FAULTY.items():
            (self.folder / name).write_bytes(text)
        for path in EXAMPLES.glob("*.l"):
            (self.folder / path.name).write_bytes(path.read_bytes())

    def try_specification(self, name):
        lines, document = lx("check", "-q", name, cwd=self.folder), lx("check", "--json", name, cwd=self.folder)
        self.assertEqual((document.returncode, document.stderr), (lines.returncode, lines.stderr), "status and error stream")
        log = json.loads(document.stdout)
        self.assertEqual(faults_of("log", log, "log"), [])
        found = [finding_of(result) for result in log["runs"][0]["results"]]
        self.assertEqual(found, [finding_in(line, name) for line in lines.stdout.splitlines()])

    def test_specifications(self):
        for name in sorted(path.name for path in self.folder.iterdir()):
            with self.subTest(name):
                self.try_specification(name)


if __name__ == "__main__":
    support.main()
