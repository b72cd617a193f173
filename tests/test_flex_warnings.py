"""Warnings of `lx flex` and `lx lex`, the source lines and notes under their messages, and `lx check --flex`.

Where flex is installed, its warnings are compared: on random files, and on the examples.
"""
import itertools
import random
import re
import shutil
import tempfile

from tests import support
from tests.support import EXAMPLES, Case

OPTION = "%option noyywrap\n"
HEAD = OPTION + "%%\n"
# Rules, and all lines on stderr. The first rule is on line 3.
WARNED = [
    ("an earlier rule takes all", "[a-z]+ ;\nif return 1;\n", """\
x.l:4:1: warning: rule cannot be matched: an earlier rule takes all its texts
    4 | if return 1;
      | ^~
x.l:4:1: note: put it before what takes its texts, or delete it
x.l:3:1: note: this rule takes them
"""),
    ("two earlier rules take all", "a|b ;\n[cd] ;\n<*>[abc] ;\n", """\
x.l:5:4: warning: rule cannot be matched: earlier rules take all its texts
    5 | <*>[abc] ;
      |    ^~~~~
x.l:5:4: note: put it before what takes its texts, or delete it
x.l:3:1: note: this rule takes some of them
"""),
    ("no text but the empty one", "\"\" ;\n", """\
x.l:3:1: warning: rule cannot be matched: it matches no text of a byte or more
    3 | "" ;
      | ^~
x.l:3:1: note: put it before what takes its texts, or delete it
"""),
    ("a rule with the same texts at the start of a line", "a ;\n^a ;\n", """\
x.l:4:1: warning: rule cannot be matched: an earlier rule takes all its texts
    4 | ^a ;
      | ^~
x.l:4:1: note: put it before what takes its texts, or delete it
x.l:3:1: note: this rule takes them
"""),
    ("the reach counts, not the token", "ab ;\na/b ;\n", """\
x.l:4:1: warning: rule cannot be matched: an earlier rule takes all its texts
    4 | a/b ;
      | ^~~
x.l:4:1: note: put it before what takes its texts, or delete it
x.l:3:1: note: this rule takes them
"""),
    ("the next rule's action", "a |\na ;\n", """\
x.l:4:1: warning: rule cannot be matched: an earlier rule takes all its texts
    4 | a ;
      | ^
x.l:4:1: note: put it before what takes its texts, or delete it
x.l:3:1: note: this rule takes them
"""),
    ("dangerous trailing context", "zx*/xy* ;\n", """\
x.l:3:1: warning: dangerous trailing context: the token is the longest text of r such that s matches the rest, and flex may take a longer one
    3 | zx*/xy* ;
      | ^~~~~~~
x.l:3:1: note: flex takes the same text if r or s has no |, *, +, ? or interval, and the rule before has no action |
"""),
    ("context of one length that flex doesn't find", "zx*/(x|y) ;\n", """\
x.l:3:1: warning: dangerous trailing context: the token is the longest text of r such that s matches the rest, and flex may take a longer one
    3 | zx*/(x|y) ;
      | ^~~~~~~~~
x.l:3:1: note: flex takes the same text if r or s has no |, *, +, ? or interval, and the rule before has no action |
"""),
    ("context after an action of the next rule", "y |\nzx*/x ;\n", """\
x.l:4:1: warning: dangerous trailing context: the token is the longest text of r such that s matches the rest, and flex may take a longer one
    4 | zx*/x ;
      | ^~~~~
x.l:4:1: note: flex takes the same text if r or s has no |, *, +, ? or interval, and the rule before has no action |
"""),
    ("an empty token before a byte", "x*/y ;\n", """\
x.l:3:1: warning: the token before its context can be empty: the scanner loops if the action neither changes the condition nor reads on
    3 | x*/y ;
      | ^~~~
x.l:3:1: note: write + for * before the context
"""),
    ("an empty token before a line's end", "[ \\t]*$ ;\n", """\
x.l:3:1: warning: the token before its context can be empty: the scanner loops if the action neither changes the condition nor reads on
    3 | [ \\t]*$ ;
      | ^~~~~~~
x.l:3:1: note: write + for * before the context
"""),
    ("an interval, once a file", "ab{3} ;\ncd{2} ;\n", """\
x.l:3:1: warning: an interval repeats the unit before it in flex, and all before it in its branch in POSIX
    3 | ab{3} ;
      | ^~~~~
x.l:3:1: note: here ab{2} means a(b{2}); write that, or (ab){2}: flex and POSIX read both alike
"""),
    ("two of one rule, in the order of the file", "ab ;\n<INITIAL>ab{1,1} ;\na ;\na ;\n", """\
x.l:4:10: warning: an interval repeats the unit before it in flex, and all before it in its branch in POSIX
    4 | <INITIAL>ab{1,1} ;
      |          ^~~~~~~
x.l:4:10: note: here ab{2} means a(b{2}); write that, or (ab){2}: flex and POSIX read both alike
x.l:4:10: warning: rule cannot be matched: an earlier rule takes all its texts
    4 | <INITIAL>ab{1,1} ;
      |          ^~~~~~~
x.l:4:10: note: put it before what takes its texts, or delete it
x.l:3:1: note: this rule takes them
x.l:6:1: warning: rule cannot be matched: an earlier rule takes all its texts
    6 | a ;
      | ^
x.l:6:1: note: put it before what takes its texts, or delete it
x.l:5:1: note: this rule takes them
"""),
    ("two rules for the end of the input", "a ;\n<INITIAL><<EOF>> yyterminate();\n<INITIAL><<EOF>> return 1;\n<<EOF>> return 2;\n", """\
x.l:5:10: warning: multiple <<EOF>> rules for a start condition: the first one is taken
    5 | <INITIAL><<EOF>> return 1;
      |          ^~~~~~~
x.l:6:1: warning: all start conditions already have <<EOF>> rules
    6 | <<EOF>> return 2;
      | ^~~~~~~
"""),
]
# Rules of which none is warned.
SILENT = [
    ("a rule for each condition at the end of the input", "%x A B\n%%\na ;\n<A><<EOF>> return 1;\n<<EOF>> return 2;\n"),
    ("a longer text", "[a-z]+ ;\nif! ;\n"), ("another condition", "%x A\n%%\n[a-z]+ ;\n<A>if BEGIN 0;\n"), ("one of two conditions", "%x A\n%%\n[a-z]+ ;\n<INITIAL,A>if BEGIN 0;\n"),
    ("the start of a line first", "^a ;\na ;\n"), ("the end of a file", "a ;\n<<EOF>> return 0;\n"), ("a rule for the end beside another condition", "%x A\n%%\na ;\n<A><<EOF>> return 0;\n"),
    ("context that the earlier rule lacks", "a ;\na/b ;\n"), ("the end of a line", "a ;\na$ ;\n"), ("an interval in parentheses", "a(b{3}) ;\n(cd){2} ;\n"), ("an interval of a whole branch", "b{3} ;\n(c{2}|d{3})+ ;\n[ef]{2} ;\n\"g\"{2} ;\n"),
    ("a name in braces", "%%\n"), ("context of one length", "zx*/x ;\n"), ("a token of one length", "zx/xy* ;\n"), ("parts that share no byte", "zx*/yz* ;\n"),
    ("a part that flex also takes whole", "zx*/x?y ;\n"), ("context that can be empty", "z+/(\\n[a-y]+)* ;\n"), ("the empty text without context", "x* ;\n"), ("a name", "D [0-9]\n%%\n{D}+\\.{D}+ ;\n"),
]
NODEFAULT = [("no rule at all", "", True), ("some bytes", "[a-z] ;\n", True), ("the first byte of a longer text", "ab ;\n[^a] ;\n", True), ("a period", ". ;\n", True), ("all", ".|\\n ;\n", False),
             ("a condition without it", "%x A\n%%\n.|\\n ;\n<A>. ;\n", True), ("all conditions", "%x A\n%%\n<*>.|\\n ;\n", False), ("at the start of a line alone", "^.|\\n ;\n", True)]
# A scanner that reads each line as a text of its own, and the texts of at most five letters.
SCANNER = """%%option noyywrap nounput noinput
%%{
#include <string.h>
%%}
%%%%
%s printf("[%%s]", yytext);
.|\\n printf("(%%s)", yytext);
%%%%
int main(void) {
    char line[16];
    while (fgets(line, sizeof line, stdin)) {
        line[strlen(line) - 1] = 0;
        YY_BUFFER_STATE buffer = yy_scan_string(line);
        while (yylex()) { }
        yy_delete_buffer(buffer);
        puts("");
    }
    return 0;
}
"""
TEXTS = "".join("".join(letters) + "\n" for length in range(1, 6) for letters in itertools.product("abc", repeat=length)).encode()
LOOSE = re.compile(r"x\.l:(\d+): warning, (.*)")
OURS = re.compile(r"x\.l:(\d+):\d+: warning: (.*)")
CANNOT, DANGEROUS = "rule cannot be matched", "dangerous trailing context"


def with_head(text):
    return OPTION + text if "%%" in text else HEAD + text


def draw_pattern(drawn, depth=2):
    """A pattern that matches no empty text."""
    kind = drawn.randrange(7) if depth else 0
    inner = lambda: draw_pattern(drawn, depth - 1)
    if kind < 2:
        return drawn.choice(["a", "b", "c", "[ab]", "[bc]", "[^ab]"])
    if kind == 2:
        return f"({inner()}|{inner()})"
    if kind == 3:
        return f"({inner()})+"
    if kind == 4:
        return f"{inner()}({inner()})*"
    if kind == 5:
        return f"({inner()}){{1,2}}"
    return inner() + inner()


def draw_rules(drawn, with_context):
    rules = []
    for _ in range(drawn.randrange(2, 7)):
        before = drawn.choice(["", "", "", "^", "<A>", "<*>", "<A,INITIAL>"])
        after = drawn.choice(["", "", "$", f"/{draw_pattern(drawn)}"]) if with_context else drawn.choice(["", "", "", "$", "/a"])
        rules.append(f"{before}{draw_pattern(drawn)}{after} BEGIN(A);\n")
    return "%x A\n%%\n" + "".join(rules)


class FlexWarnings(Case):
    def setUp(self):
        self.room = self.make_folder()

    def lx(self, *words, **how):
        return support.lx(*words, cwd=self.room, text=True, **how)

    def write(self, text, name="x.l"):
        (self.room / name).write_text(text)

    def warnings_of_flex(self):
        ended = support.run("flex", "-o", "y.c", "x.l", cwd=self.room, text=True)
        return ended.returncode, {(int(line), words) for line, words in LOOSE.findall(ended.stderr)}

    def warnings_of_lx(self, command="flex"):
        ended = self.lx(command, "-t", "x.l")
        return ended.returncode, {(int(line), words) for line, words in OURS.findall(ended.stderr)}

    def test_warned(self):
        for name, text, wanted in WARNED:
            self.write(with_head(text))
            ended = self.lx("flex", "-t", "x.l")
            self.expect(name, (ended.returncode, ended.stderr), (0, wanted))
            for how in (["-w"], ["--nowarn"]):
                silent = self.lx("flex", "-t", *how, "x.l")
                self.expect(f"{name}: {how[0]}", (silent.returncode, silent.stderr), (0, ""))
                self.check(f"{name}: the scanner is the same with {how[0]}", silent.stdout == ended.stdout)
            self.write(with_head(text).replace("noyywrap", "noyywrap nowarn"))
            self.expect(f"{name}: %option nowarn", self.lx("flex", "-t", "x.l").stderr, "")

    def test_silent(self):
        for name, text in SILENT:
            self.write(with_head(text))
            ended = self.lx("flex", "-t", "x.l")
            self.expect(name, (ended.returncode, ended.stderr), (0, ""))

    def test_reading_of_interval(self):
        for command, reading, other in [(["flex"], "a(b{2})", "(ab){2}"), (["flex", "-X"], "(ab){2}", "a(b{2})"), (["lex"], "(ab){2}", "a(b{2})")]:
            name = " ".join(command)
            self.write(with_head("ab{2} ;\n"))
            ended = self.lx(*command, "-t", "x.l")
            self.expect(name, ended.stderr.splitlines()[3:], [f"x.l:3:1: note: here ab{{2}} means {reading}; write that, or {other}: flex and POSIX read both alike"])
            for pattern in (reading, other):
                self.write(with_head(f"{pattern} ;\n"))
                alike = self.lx(*command, "-t", "x.l")
                self.expect(f"{name}: {pattern}", (alike.returncode, alike.stderr), (0, ""))

    def test_default(self):
        for name, text, is_warned in NODEFAULT:
            self.write(with_head(text).replace("noyywrap", "noyywrap nodefault"))
            wanted = "x.l:1:18: warning: -s option given but default rule can be matched: no rule takes some of the bytes\n" if is_warned else ""
            ended = self.lx("flex", "-t", "x.l")
            self.expect(name, (ended.returncode, "".join(ended.stderr.splitlines(True)[:1])), (0, wanted))
            self.write(with_head(text))
            self.expect(f"{name}: without nodefault", self.lx("flex", "-t", "x.l").stderr, "")
            self.expect(f"{name}: -s", "default rule can be matched" in self.lx("flex", "-t", "-s", "x.l").stderr, is_warned)

    def test_faults(self):
        self.write("%%\n<A>a ;\nx*/y ;\n")
        ended = self.lx("flex", "x.l")
        self.expect("faults and warnings, with marks", (ended.returncode, ended.stdout, ended.stderr), (1, "", """\
x.l:2:2: error: the start condition isn't declared; declare it with %s or %x
    2 | <A>a ;
      |  ^
x.l:3:1: warning: the token before its context can be empty: the scanner loops if the action neither changes the condition nor reads on
    3 | x*/y ;
      | ^~~~
x.l:3:1: note: write + for * before the context
lx: no scanner is made
"""))
        self.write("%%\na ;\n", "one.l")
        self.write("\nb ;\na ;\n", "two.l")
        self.expect("two files", self.lx("flex", "-t", "one.l", "two.l").stderr, """\
two.l:3:1: warning: rule cannot be matched: an earlier rule takes all its texts
    3 | a ;
      | ^
two.l:3:1: note: put it before what takes its texts, or delete it
one.l:2:1: note: this rule takes them
""")

    def test_lex(self):
        self.write(HEAD + "ab{2} ;\nabb ;\n")
        self.expect("lex reads the interval as POSIX does, and warns too", [words[:12] for _, words in sorted(self.warnings_of_lx("lex")[1])], ["an interval "])
        self.expect("so the second rule is never matched in flex alone", {line for line, words in self.warnings_of_lx()[1] if words.startswith(CANNOT)}, {4})

    def test_check(self):
        self.write(HEAD + "a ;\na ;\n")
        line = "x.l:4:1: warning: rule cannot be matched: an earlier rule takes all its texts\n"
        ended = self.lx("check", "--flex", "x.l")
        self.expect("warnings", (ended.returncode, ended.stderr, ended.stdout), (0, "", line + """\
    4 | a ;
      | ^
x.l:4:1: note: put it before what takes its texts, or delete it
x.l:3:1: note: this rule takes them
x.l: accepted: 2 rules, 1 start condition, 2 states, 2 classes, 1 warning
"""))
        self.expect("no file is made", sorted(path.name for path in self.room.iterdir()), ["x.l"])
        for words, status, wanted in [(["-q", "x.l"], 0, line), (["-q", "-W", "error", "x.l"], 1, line), (["-Werror", "-q", "x.l"], 1, line), (["-q", "-w", "x.l"], 0, ""), (["-q", "-W", "error", "-w", "x.l"], 0, "")]:
            ended = self.lx("check", "--flex", *words)
            self.expect(f"{words}", (ended.returncode, ended.stderr, ended.stdout), (status, "", wanted))
        ended = self.lx("check", "--flex", "-q", input=HEAD + "a ;\na ;\n")
        self.expect("standard input", (ended.returncode, ended.stdout), (0, line.replace("x.l", "<stdin>")))
        self.write("%%\n<A>a ;\na BEGIN(A);\n")
        ended = self.lx("check", "--flex", "x.l")
        self.expect("a fault", (ended.returncode, ended.stderr, ended.stdout), (1, "", """\
x.l:2:2: error: the start condition isn't declared; declare it with %s or %x
    2 | <A>a ;
      |  ^
x.l: 1 error, 0 warnings
"""))
        self.write(HEAD + "ab{2} ;\nabab ;\n")
        self.expect("--posix", "x.l:4:1: warning: rule cannot be matched" in self.lx("check", "--flex", "--posix", "x.l").stdout, True)
        self.expect("without it", "x.l:4:1: warning: rule cannot be matched" in self.lx("check", "--flex", "x.l").stdout, False)

    def test_check_refuses(self):
        self.write(HEAD + "a ;\n")
        for words, status, said in [
                (["--flex", "--json", "x.l"], 2, "lx: check --flex has no option --json; lx check --help says more"), (["--flex", "-W", "never-chosen", "x.l"], 2, "lx: check --flex has no option -W; lx check --help says more"),
                (["--flex", "--most", "3", "x.l"], 2, "lx: check --flex has no option --most; lx check --help says more"), (["--flex", "x.l", "-q"], 2, "lx: check --flex has no option -q; lx check --help says more"),
                (["-q", "--flex", "x.l"], 2, "lx: --flex comes first: lx check --flex [-q] [-W error] [OPTIONS] [FILE..]"), (["--flex", "-o"], 2, "lx: the option -o needs a value"), (["--flex", "y.l"], 3, "lx: cannot read y.l")]:
            ended = self.lx("check", *words)
            self.expect(f"{words}", (ended.returncode, ended.stdout, ended.stderr.splitlines()[0]), (status, "", said))
        with open("/dev/full", "wb") as full:
            ended = self.lx("check", "--flex", "x.l", stdout=full)
            self.expect("a full device", (ended.returncode, ended.stderr), (4, "lx: cannot write\n"))

    def test_flex_agrees(self):
        if not shutil.which("flex"):
            self.skipTest("there is no flex")
        drawn = random.Random(7)
        told = {CANNOT: 0, DANGEROUS: 0}
        for number in range(120):
            self.write(draw_rules(drawn, with_context=number % 2 == 1))
            (status, theirs), (mine, ours) = self.warnings_of_flex(), self.warnings_of_lx()
            text = (self.room / "x.l").read_text()
            self.check(f"{number}: both take the file", status == mine == 0, text)
            lines = {line for line, words in theirs if words == CANNOT}, {line for line, words in ours if words.startswith(CANNOT)}
            told[CANNOT] += len(lines[1])
            if number % 2 == 0:
                self.expect(f"{number}: rules that cannot be matched in {text}", sorted(lines[1]), sorted(lines[0]))
            # flex names one rule of those that may be dangerous together
            dangerous = any(words == DANGEROUS for _, words in theirs), any(words.startswith(DANGEROUS) for _, words in ours)
            told[DANGEROUS] += dangerous[1]
            self.check(f"{number}: flex warns of dangerous trailing context too in {text}", dangerous[0] or not dangerous[1])
        self.check("the files have warnings of both kinds", min(told.values()) > 5, str(told))

    def scans_of(self, words, compiler):
        """What the scanner that a command makes of x.l prints of each short text."""
        ended = support.run(*words, "-o", "scanner.c", "x.l", cwd=self.room, text=True)
        support.compile_by(compiler, "-w", "-o", self.room / "scanner", self.room / "scanner.c")
        return ended.stderr, support.run(self.room / "scanner", input=TEXTS).stdout.split(b"\n")

    def test_dangerous_is_exact(self):
        compiler = support.tool("gcc", "clang", "cc")
        if not shutil.which("flex"):
            self.skipTest("there is no flex")
        drawn, count = random.Random(11), {True: 0, False: 0}
        for number in range(24):
            before = "abacb |\n" if number % 4 == 0 else ""
            rule = f"{draw_pattern(drawn)}/{draw_pattern(drawn)}"
            self.write(SCANNER % (before + rule))
            (warnings, theirs), (said, ours) = self.scans_of(["flex"], compiler), self.scans_of([support.built(), "flex"], compiler)
            count[DANGEROUS in said] += 1
            self.expect(f"lx flex warns where flex takes another text: {before}{rule}", DANGEROUS in said, theirs != ours)
            self.check(f"and flex warns of it too: {before}{rule}", DANGEROUS in warnings or DANGEROUS not in said)
        self.check("rules of both kinds", min(count.values()) > 3, str(count))

    def test_examples(self):
        for path in sorted(EXAMPLES.rglob("*.l")):
            if b"%%" in path.read_bytes() and "programs" in path.parts:
                with tempfile.TemporaryDirectory() as folder:
                    ended = support.lx("flex", "-o", f"{folder}/x.c", path, text=True)
                self.expect(f"{path.relative_to(EXAMPLES)}", (ended.returncode, ended.stderr), (0, ""))


if __name__ == "__main__":
    support.main()
