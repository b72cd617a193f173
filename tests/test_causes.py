"""Refuses the specifications of causes.txt, each for its cause, at its place.

Each example begins with a line `== CAUSE LINE COLUMN`. The cause is `-` if it has no name, and the numbers are 0 if they aren't known; a sentence may
follow after `: `. The lines after it are the specification. The first result of `lx check --json` has to have that cause, place and sentence, and
`lx explain` has to know the cause.
"""
import json

from tests import support
from tests.support import TESTS, Case, lx

MARK = "== "


def first_result(log):
    """Returns the cause, the place and the sentence of the first result, the place as an example begins."""
    result = json.loads(log)["runs"][0]["results"][0]
    region = result["locations"][0]["physicalLocation"].get("region", {})
    cause = result["ruleId"].partition("/")[2] or "-"
    return cause, f"{cause} {region.get('startLine', 0)} {region.get('startColumn', 0)}", result["message"]["text"]


class Causes(Case):
    def try_example(self, head, text, path):
        wanted, _, sentence = head.partition(": ")
        path.write_text(text)
        ended = lx("check", "--json", "--most", "1", path)
        self.assertEqual(ended.returncode, 1, "the status")
        cause, place, words = first_result(ended.stdout)
        self.assertEqual(place, wanted, words)
        if sentence:
            self.assertEqual(words, sentence)
        if cause != "-":
            self.assertEqual(lx("explain", cause).returncode, 0, f"the status of lx explain {cause}")

    def test_examples(self):
        path, examples = self.make_folder() / "spec.l", ("\n" + (TESTS / "causes.txt").read_text()).split("\n" + MARK)[1:]
        self.assertTrue(examples)
        for example in examples:
            head, _, text = example.partition("\n")
            with self.subTest(head):
                self.try_example(head, text.rstrip("\n") + "\n", path)


if __name__ == "__main__":
    support.main()
