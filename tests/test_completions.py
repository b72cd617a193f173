"""Compares the completions with what the program's help says, and asks the shells that are installed what they complete."""
import re
import shutil
import sys

from tests import support
from tests.support import TOP, Case

FOLDER = TOP / "completions"
NAMES = ["lx.bash", "_lx", "lx.fish"]
COMMANDS = ["gen", "up", "scan", "run", "check", "explain", "show", "import", "flex", "lex"]
# What bash asks of the function: the words of the command line, of which the last one is completed.
BASH = 'source "$0"; COMP_WORDS=("$@"); COMP_CWORD=$(($# - 1)); _lx lx "${@: -1}" "${@: -2:1}" 2>/dev/null; printf "%s\\n" "${COMPREPLY[@]}"'
# zsh's own functions of completion write what they are handed.
ZSH = """
_arguments() { print -l -- "$@" }
_describe() { print -l -- "${(@P)2}" }
words=("$@"); CURRENT=$#
source "$0"
"""


def options_of(text):
    """The options that a text names, short and long."""
    return set(re.findall(r"(?<![\w-])--?[a-zA-Z0-9][\w-]*", text))


class Completions(Case):
    def test_up_to_date(self):
        ended = support.run(sys.executable, FOLDER / "make", "--program", support.built(), "--check", text=True)
        self.assertEqual((ended.returncode, ended.stdout), (0, ""), ended.stderr)

    def test_options_are_those_of_the_help(self):
        helped = {command: options_of(support.output_of(*command.split(), "--help").decode()) for command in ["", *COMMANDS]}
        for line in (FOLDER / "lx.fish").read_text().splitlines():
            commands = re.search(r"from ([\w ]+)'", line)
            for kind, name in re.findall(r" -([sl]) (\S+)", line):
                option = f"-{name}" if kind == "s" else f"--{name}"
                for command in commands[1].split() if commands else [""]:
                    self.check(f"{option} of lx {command}", option in helped[command], "the help hasn't it")
        for name in NAMES[:2]:
            words = re.findall(r"(?<=[\s\"'(])--?[a-zA-Z0-9][\w-]*(?=[\s\"')\[])", (FOLDER / name).read_text())
            known = set().union(*helped.values())
            own = {"-eq", "-n", "-z", "-F", "-o", "-t", "-C", "-W", "-a"}
            self.expect(f"options of completions/{name} that no help has", sorted(set(words) - known - own), [])

    def bash(self, *words):
        return support.run(support.tool("bash"), "--norc", "-c", BASH, FOLDER / "lx.bash", "lx", *words, text=True).stdout.split()

    def test_bash(self):
        self.expect("commands", self.bash("")[:len(COMMANDS)], COMMANDS)
        self.expect("one command", self.bash("ex"), ["explain"])
        self.expect("options of gen", "--direct" in self.bash("gen", "--"), True)
        self.expect("no options of gen in check", "--direct" in self.bash("check", "--"), False)
        self.expect("formats", self.bash("run", "--format", ""), ["text", "json"])
        self.expect("files", self.bash("gen", "-o", ""), [])
        self.expect("warnings", self.bash("check", "-W", "no-never-c"), ["no-never-chosen"])
        self.expect("topics", self.bash("explain", "E10"), ["E10"])
        self.expect("forms", self.bash("flex", "--form"), ["--form=states", "--form=rows"])

    def test_zsh(self):
        def zsh(*words):
            return support.run(support.tool("zsh"), "-f", "-c", ZSH, FOLDER / "_lx", "lx", *words, text=True).stdout

        for command in COMMANDS:
            self.check(f"{command} is described", f"\n{command}:" in f"\n{zsh('')}", zsh(""))
        self.check("options of gen", "--direct[" in zsh("gen", ""), zsh("gen", ""))
        self.check("no options of gen in check", "--direct[" not in zsh("check", ""))
        self.check("forms", "--form=rows[" in zsh("flex", ""), zsh("flex", ""))
        self.check("formats", "--format[" in zsh("run", "") and ":FORMAT:(text json)" in zsh("run", ""))

    def test_fish(self):
        def fish(line):
            said = support.run(support.tool("fish"), "--no-config", "-c", f"source {FOLDER}/lx.fish; complete -C '{line}'", text=True).stdout
            return [it.split("\t")[0] for it in said.splitlines()]

        self.expect("one command", fish("lx expl"), ["explain"])
        self.check("options of gen", "--direct" in fish("lx gen --"), fish("lx gen --"))
        self.check("no options of gen in check", "--direct" not in fish("lx check --"))
        self.expect("formats", sorted(fish("lx run --format ")), ["json", "text"])
        self.expect("warnings", fish("lx check -W no-never-c"), ["no-never-chosen"])
        self.expect("topics", fish("lx explain group-ope"), ["group-open"])
        self.expect("forms", sorted(fish("lx flex --form=")), ["--form=rows", "--form=states"])


if __name__ == "__main__":
    support.main()
