"""Makes scanners in C by `lx flex` and `lx lex`: options, outputs, faults and statuses, and what the scanners print.

Each scanner compiles without a warning as C99 and as C++, by gcc and by clang. tests/flex-suite and tests/flex-fuzz compare more of them with flex.
"""
import os
import re
import shutil
import time

from tests import support
from tests.support import Case

WARNINGS = ["-Wall", "-Wextra", "-pedantic", "-Werror"]
COMPILERS = [("gcc", "-std=c99"), ("clang", "-std=c99"), ("g++", "-std=c++98"), ("clang++", "-std=c++98")]
MAIN = "%%\nint main(void) { while (yylex() != 0) { } return 0; }\n"
WORDS = "%option noyywrap\n%%\n[a-z]+ printf(\"<%s>\", yytext);\n[0-9]+ return 1;\n" + MAIN
# Options, and words that a scanner with them is tried with.
VARIANTS = [("", []), ("yylineno stack", []), ("array yylineno", []), ("reject", []), ("reject array", []), ("debug", []), ("case-insensitive", []), ("prefix=\"foo\"", []),
            ("nounput noinput nodefault nowarn", []), ("read", []), ("always-interactive", []), ("never-interactive", []), ("", ["-L"]), ("", ["-Cf"]), ("", ["-D", "A=1"]),
            ("yymore", []), ("yymore array yylineno", []), ("debug yylineno", []), ("lex-compat", [])]
FORMS = ["rows", "states"]
# A line of code for states, and one of rows.
LINES_OF_FORMS = {"rows": "yy_rows[] = {", "states": "yy__s0:"}
# Files, their texts and what their scanners print.
SCANNERS = [
    ("a word", WORDS, b"ab 12 c\n", b"<ab>  <c>\n"),
    ("trailing context of a fixed length", "%option noyywrap\n%%\n[a-z]+/\"=\" printf(\"[%s]\", yytext);\n" + MAIN, b"ab=ab", b"[ab]=ab"),
    ("a token of a fixed length", "%option noyywrap\n%%\nab/c* printf(\"[%s]\", yytext);\n" + MAIN, b"abcc", b"[ab]cc"),
    ("two lengths that vary", "%option noyywrap nowarn\n%%\nzx*/xy* printf(\"[%s]\", yytext);\n" + MAIN, b"zxx", b"[zx]x"),
    ("the end of a line", "%option noyywrap\n%%\na$ printf(\"[%s]\", yytext);\n" + MAIN, b"aa\na", b"a[a]\na"),
    ("the start of a line", "%option noyywrap\n%%\n^a printf(\"[%s]\", yytext);\n" + MAIN, b"aa\na", b"[a]a\n[a]"),
    ("conditions", "%option noyywrap\n%x QUOTED\n%%\n\\\" BEGIN(QUOTED);\n<QUOTED>{\n\\\" BEGIN 0;\n[a-z]+ printf(\"(%s)\", yytext);\n}\n<<EOF>> { printf(\"end\"); yyterminate(); }\n" + MAIN,
     b"a\"b\"c", b"a(b)cend"),
    # Names of conditions are macros, which no name of the scanner's own functions may be.
    ("names of conditions", "%option noyywrap stack\n%s in out size file text bytes length b c i n buffer count base value scanner row place from to\n%%\na { BEGIN(in); }\n<in>b printf(\"[%d]\", in);\n" + MAIN,
     b"ab", b"[1]"),
    ("an action of the next rule", "%option noyywrap\n%%\na |\nb printf(\"[%s]\", yytext);\n" + MAIN, b"abc", b"[a][b]c"),
    ("yymore and yyless", "%option noyywrap\n%%\na yymore();\nbcd { yyless(yyleng - 1); printf(\"[%s]\", yytext); }\n" + MAIN, b"abcd", b"[abc]d"),
    ("unput and input", "%option noyywrap\n%%\na { int c = input(); unput('z'); printf(\"[%c]\", c); }\n" + MAIN, b"abz", b"[b]zz"),
    ("bytes 0 and 255", "%option noyywrap\n%%\n[\\0\\xff]+ printf(\"[%d]\", (int)yyleng);\n" + MAIN, b"a\0\xff\0b", b"a[3]b"),
    ("code at all places", "%top{\n#include <stddef.h>\n}\n%{\nstatic int made;\n%}\n    /* a comment */\n%option noyywrap\n%%\n    int here = 1;\n%{\n    made += here;\n%}\na {\n    printf(\"%d\", made);\n}\n"
     "%{\n    /* between rules */\n%}\nb printf(\"b\");\n" + MAIN, b"ab", b"1b"),
    ("an interval of 512", "%option noyywrap\n%%\nx{512} printf(\"[%d]\", (int)yyleng);\n" + MAIN, b"x" * 600, b"[512]" + b"x" * 88),
    ("an interval from 300 to 700", "%option noyywrap\n%%\nx{300,700} printf(\"[%d]\", (int)yyleng);\n" + MAIN, b"x" * 299 + b"y" + b"x" * 1000, b"x" * 299 + b"y[700][300]"),
    ("an interval from 200 to 260", "%option noyywrap\n%%\nx{200,260} printf(\"[%d]\", (int)yyleng);\n" + MAIN, b"x" * 261 + b"y" + b"x" * 461, b"[260]xy[260][201]"),
    ("an interval of 1000 and more", "%option noyywrap\n%%\nx{1000,} printf(\"[%d]\", (int)yyleng);\n" + MAIN, b"x" * 999 + b"y" + b"x" * 1500, b"x" * 999 + b"y[1500]"),
    ("an interval up to 600", "%option noyywrap\n%%\n(ab){0,600}c printf(\"[%d]\", (int)yyleng);\n" + MAIN, b"c" + b"ab" * 600 + b"c" + b"ab" * 601 + b"c", b"[1][1201]ab[1201]"),
    ("an interval of a definition", "%option noyywrap\nD [0-9]{256}\n%%\n{D}{2} printf(\"[%d]\", (int)yyleng);\n" + MAIN, b"7" * 513, b"[512]7"),
    ("a large interval before trailing context", "%option noyywrap\n%%\nx{512}/y* printf(\"[%d]\", (int)yyleng);\n" + MAIN, b"x" * 512 + b"yy", b"[512]yy"),
    ("NULs in and between tokens", "%option noyywrap\n%%\na[\\0-b]*c printf(\"[%d]\", (int)yyleng);\n\\0 printf(\"0\");\n" + MAIN, b"\0a\0\0bc\0a\0\0d\0", b"0[5]0a00d0"),
    ("a place to go back to", "%option noyywrap\n%%\nab(cde)* printf(\"[%s]\", yytext);\nc printf(\".\");\n" + MAIN, b"abcdecdabcd", b"[abcde].d[ab].d"),
    ("a place before a NUL to go back to", "%option noyywrap\n%%\na printf(\"[a]\");\na\\0b printf(\"[a0b]\");\n\\0 printf(\"0\");\n" + MAIN, b"a\0ba\0c", b"[a0b][a]0c"),
    ("rules without an action", "%option noyywrap yylineno\n%%\n[ \\n]+ ;\n#.* |\n\\/ { /* nothing */ }\n^a printf(\"^%d\", yylineno);\na printf(\"a%d\", yylineno);\n" + MAIN,
     b"a a\n a # x\na/a", b"^1a1a2^3a3"),
    ("rules without an action, and a hook", "%{\n#define YY_USER_ACTION printf(\"%d\", (int)yyleng);\n%}\n%option noyywrap\n%%\n[ \\n]+ ;\na printf(\"a\");\n" + MAIN, b"a  a\n", b"1a21a1"),
    ("code after a rule with the action of one that does nothing", "%option noyywrap\n%%\na |\n%{\n    printf(\"between\");\n%}\nb ;\nc printf(\"C\");\n" + MAIN, b"abc", b"betweenC"),
    ("a hook that is defined among the rules", "%option noyywrap\n%%\n%{\n#undef YY_USER_ACTION\n#define YY_USER_ACTION printf(\"[%s]\", yytext);\n%}\na ;\nb printf(\"B\");\n" + MAIN,
     b"abab", b"[a][b]B[a][b]B"),
    ("code between rules", "%option noyywrap\n%%\na |\n  /* a comment */\nb printf(\"b\");\n<<EOF>> { printf(\"e\"); yyterminate(); }\n" + MAIN, b"ab", b"bbe"),
    ("rules that the preprocessor leaves out", "%option noyywrap\n%%\na printf(\"A\");\n%{\n#ifdef LEFT_OUT\n%}\nb printf(\"B\");\n%{\n#else\n%}\nd printf(\"D\");\n%{\n#endif\n%}\nc printf(\"C\");\n" + MAIN,
     b"acd\n", b"ACD\n"),
    ("the first rule for the end of the input", "%option noyywrap nowarn\n%x A\n%%\na BEGIN(A);\n<A>b ;\n<<EOF>> { printf(\"all\"); yyterminate(); }\n<A><<EOF>> { printf(\"A\"); yyterminate(); }\n" + MAIN, b"ab", b"all"),
    ("a condition's own rule for the end of the input", "%option noyywrap\n%x A\n%%\na BEGIN(A);\n<A>b ;\n<A><<EOF>> { printf(\"A\"); yyterminate(); }\n<<EOF>> { printf(\"all\"); yyterminate(); }\n" + MAIN, b"ab", b"A"),
    ("rules for the end of the input, and a directive between them", "%option noyywrap\n%x A\n%%\n<A><<EOF>> printf(\"A\"); yyterminate();\n%{\n#ifndef LEFT_OUT\n%}\n<<EOF>> printf(\"all\"); yyterminate();\n%{\n#endif\n%}\n" + MAIN, b"ab", b"aball"),
    ("a YY_INPUT that stores nothing", "%option noyywrap\n%{\n#define YY_INPUT(buf, result, size) result = 0\n%}\n%%\na printf(\"a\");\n" + MAIN, b"a", b""),
    ("BEGIN in YY_INPUT, within the match of a rule without an action", "%option noyywrap\n%x B\n%{\nstatic int calls;\n#define YY_INPUT(buf, result, size) { result = calls < 2; if (result) buf[0] = \" a\"[calls]; if (++calls == 2) BEGIN(B); }\n%}\n%%\n[ ]+ ;\na printf(\"initial\");\n<B>a printf(\"B\");\n" + MAIN, b"", b"B"),
    ("a pattern of 7,900 parts", "%option noyywrap\nW (abcdefgh|12345678){2}\n%%\n" + "|".join(["{W}"] * 330) + " printf(\"[%s]\", yytext);\n" + MAIN, b"abcdefgh12345678a", b"[abcdefgh12345678]a"),
    ("a pattern of 4,000 bytes", "%option noyywrap\n%%\n" + "|".join(f"word{number}" for number in range(490)) + " printf(\"[%s]\", yytext);\n" + MAIN, b"word489word4", b"[word489][word4]"),
    ("sizes of lex's tables", "%p 3000\n%a3000  \n%n\n%O text\n%option noyywrap\n%%\na printf(\"A\");\n" + MAIN, b"a", b"A"),
    ("a large interval in trailing context", "%option noyywrap nowarn\n%%\nx+/x{300} printf(\"[%d]\", (int)yyleng);\n" + MAIN, b"x" * 305, b"[5]" + b"x" * 300),
]
# Rules whose actions use REJECT, their texts and what their scanners print; worked out by hand.
REJECTING = [
    ("words inside others", "she printf(\"(she)\"); REJECT;\nhe printf(\"(he)\"); REJECT\n.|\\n ECHO;\n", b"she he\n", b"(she)s(he)he (he)he\n"),
    ("all texts at the start of another", "a |\nab |\nabc |\nabcd ECHO; REJECT;\n.|\\n ;\n", b"abcd\n", b"abcdabcaba"),
    ("rules for one text", "[a-z]+ printf(\"1\"); REJECT;\n[a-z]+ printf(\"2\"); REJECT;\nab printf(\"3\");\n.|\\n ECHO;\n", b"abc", b"1212312c"),
    ("the default rule", "ab? printf(\"<%s>\", yytext); REJECT;\n", b"ab", b"<ab><a>ab"),
    ("trailing context of each rule", "ab/cd printf(\"<%s>\", yytext); REJECT;\nabc printf(\"(%s)\", yytext);\n", b"abcd", b"<ab>(abc)d"),
    ("trailing context of several lengths", "ab*/b*c printf(\"<%s>\", yytext); REJECT;\nabb printf(\"(%s)\", yytext);\n", b"abbc", b"<abb>(abb)c"),
    ("a condition that the action enters", "%x X\n%%\nab BEGIN(X); REJECT;\na printf(\"I\");\n<X>b printf(\"X\");\n", b"ab", b"IX"),
    ("the start of a line", "^a |\naa printf(\"<%s>\", yytext); REJECT;\na printf(\".\");\n\\n ECHO;\n", b"aa\na", b"<aa><a>..\n<a>."),
    ("lines", "%option yylineno\n%%\na\\nb REJECT;\na ;\n\\n printf(\"%d\", yylineno);\n", b"a\nb\na", b"2b3"),
    ("kept text", "a yymore();\nbc printf(\"<%s>\", yytext); REJECT;\nb printf(\"(%s)\", yytext);\n", b"abc", b"<abc>(ab)c"),
    ("bytes given back before", "abc yyless(1); REJECT;\nab printf(\"<%s>\", yytext);\n", b"abc", b"<ab>c"),
    ("bytes 0 and 255", "[\\0\\xff]+ printf(\"[%d]\", (int)yyleng); REJECT;\n\\0 printf(\"0\");\n\\xff printf(\"F\");\n", b"\0\xff", b"[2][1]0[1]F"),
]
# Options that REJECT is tried with.
REJECTING_WITH = ["", "array", "debug", "stack yylineno", "always-interactive"]
# Files that are refused, and the first line that says why.
REFUSED = [
    ("no rules", "%option noyywrap\n", "x.l:2:1: error: there is no line %%; write one before the rules"),
    ("an unknown option", "%option noyywrap  what\n%%\n", "x.l:1:19: error: flex has no such %option; delete the word"),
    ("a scanner in C++", "%option c++\n%%\n", "x.l:1:9: error: C++ scanners (%option c++, yyclass) are not supported; a C++ compiler takes the scanner in C, so delete the word"),
    ("an unknown condition", "%%\n<A>a ;\n", "x.l:2:2: error: the start condition isn't declared; declare it with %s or %x"),
    ("a directive that is none", "%option noyywrap\n%case-insensitive\n%%\n", "x.l:2:1: error: flex has no such line among definitions; delete it"),
    ("no name of a condition", "%stack\n%%\n", "x.l:1:7: error: flex has no such line among definitions; delete it"),
    ("an unknown class", "%%\n[[:alpha:][:foo:]] ;\n", "x.l:2:1: error: the pattern: brackets name a class that flex doesn't have; write another one"),
    ("a range from its end", "%%\n[^az-a] ;\n", "x.l:2:1: error: the pattern: a range in brackets ends before it begins; write another one"),
    ("a pattern of many parts", "W (abcdefgh|12345678){2}\n%%\n" + "|".join(["{W}"] * 400) + " ;\n", "x.l:3:1: error: the pattern: the pattern is too long or too deep; write another one"),
    ("patterns of many parts", "W (abcdefgh|12345678)\n%%\n" + ("|".join(["{W}"] * 350) + " ;\n") * 50, "x.l:36:1: error: the patterns before this one have more than 262,144 parts; split the file"),
    ("an open action", "%%\na {\n", "x.l:2:3: error: a comment, a code block, a scope or an action isn't closed; close it"),
    ("a bound that is too large", "%%\na{16384} ;\n", "x.l:2:1: error: the pattern: a bound of an interval is above 16383; write another one"),
    ("bounds in the wrong order", "%%\na{700,300} ;\n", "x.l:2:1: error: the pattern: the bounds of an interval are none that flex takes; write another one"),
    ("a large interval of a long expression", "%%\n(" + "ab" * 300 + "){256,} ;\n", "x.l:2:1: error: the pattern: the pattern is too long or too deep; write another one"),
    ("a pattern", "%%\na(b ;\n", "x.l:2:1: error: the pattern: a group, quotes or brackets aren't closed; write another one"),
]
HOSTILE = [("parentheses", b"%%\n" + b"(" * 1_000_000), ("braces", b"%%\na {" + b"{" * 1_000_000), ("an open action", b"%%\na { /* " + b"x\n" * 400_000),
           ("bytes 0", b"%%\n" + b"\0" * 1_000_000), ("carriage returns", b"%%\r\na ;\r\n" * 100_000), ("lists", b"%%\n<" * 200_000), ("names", b"a " * 400_000),
           ("quotes", b"%%\n\"" + b"a" * 1_000_000), ("brackets", b"%%\n" + b"[a" * 500_000),
           ("an interval of an interval", b"%%\n(x{4000}){4000} ;\n"), ("intervals of intervals", b"%%\nx" + b"{300}" * 800 + b" ;\n"), ("blocks of blocks", b"%%\nx" + b"{256}" * 800 + b" ;\n"),
           ("the largest interval", b"%%\nx{0,16383} ;\n"), ("large intervals", b"%%\n" + b"x{16383}" * 400 + b" ;\n")]


class FlexScanners(Case):
    def setUp(self):
        self.room = self.make_folder()

    def flex(self, *words, command="flex", **how):
        return support.lx(command, *words, cwd=self.room, text=True, **how)

    def write(self, text, name="x.l"):
        (self.room / name).write_bytes(text if isinstance(text, bytes) else text.encode())

    def names(self):
        return sorted(path.name for path in self.room.iterdir())

    def compiled(self, compiler, standard, name="lex.yy.c"):
        source = self.room / name
        language = ["-x", "c++"] if "++" in compiler else []
        support.compile_by(compiler, standard, *WARNINGS, "-o", self.room / "program", *language, source)
        return self.room / "program"

    def test_scanners(self):
        compiler = support.tool("gcc", "clang", "cc")
        for name, text, given, wanted in SCANNERS:
            self.write(text)
            for form in FORMS:
                ended = self.flex(f"--form={form}", "x.l")
                self.expect(f"{name}, {form}: lx flex", (ended.returncode, ended.stderr), (0, ""))
                program = self.compiled(compiler, "-std=c99")
                self.expect(f"{name}, {form}", support.run(program, input=given).stdout, wanted)

    def test_forms(self):
        many = "%option noyywrap\n%%\n" + "".join(f"x{{{number}}}y ;\n" for number in (999, 1001))
        for name, words, text, wanted in [
                ("no form", [], WORDS, "states"), ("--form rows", ["--form", "rows"], WORDS, "rows"), ("%option form", [], "%option form=\"rows\"\n" + WORDS, "rows"),
                ("small tables", ["-Cem"], WORDS, "rows"), ("large tables", ["-Cfe"], WORDS, "states"), ("a form before tables", ["-Cem", "--form=states"], WORDS, "states"),
                ("many states", [], many, "rows"), ("code for many states", ["--form=states"], many, "states"),
                ("REJECT", ["--form=states"], "%%\na REJECT;\n", "rows")]:
            self.write(text)
            printed = self.flex("-t", *words, "x.l").stdout
            self.expect(name, [form for form in FORMS if LINES_OF_FORMS[form] in printed], [wanted])
        self.write(WORDS)
        self.expect("an unknown form", self.flex("--form=tables", "x.l").returncode, 2)
        self.write("%option form=\"tables\"\n%%\n")
        self.expect("an unknown form in the file", self.flex("x.l").returncode, 1)

    def test_one_token(self):
        """A token of 16 MB is scanned once, however often more of it is read."""
        compiler = support.tool("gcc", "clang", "cc")
        given = b"<" + b"x\n" * 8_000_000 + b">"
        for form in FORMS:
            self.write("%option noyywrap\n%%\n\"<\"[^>]*> printf(\"[%d]\", (int)yyleng);\n" + MAIN)
            self.expect(f"{form}: lx flex", self.flex(f"--form={form}", "x.l").returncode, 0)
            begun = time.monotonic()
            self.expect(form, support.run(self.compiled(compiler, "-std=c99"), input=given).stdout, b"[16000002]")
            self.check(f"{form}: soon", time.monotonic() - begun < 20)

    def test_programs_macros(self):
        """Macros of the program may read what flex has at their place."""
        compiler = support.tool("gcc", "clang", "cc")
        reading = "%{\n#define YY_INPUT(buffer, result, most) { if (result < 0) exit(9); result = (int)fread(buffer, 1, 3, stdin); }\n%}\n%option noyywrap\n%%\n[a-z]+ printf(\"<%s>\", yytext);\n"
        ending = ("%{\n#define exit(status) exit(yyextra + status)\n%}\n%option noyywrap reentrant extra-type=\"int\"\n%%\na unput('a'), yy_fatal_error(\"end\", yyscanner);\n%%\n"
                  "int main(void) { yyscan_t it; yylex_init_extra(3, &it); return yylex(it); }\n")
        for name, text, given, wanted in [("the result of YY_INPUT", reading + MAIN, b"abcdefg h", (0, b"<abcdefg> <h>")), ("yyextra in exit", ending, b"a", (5, b""))]:
            self.write(text)
            for form in FORMS:
                self.expect(f"{name}, {form}: lx flex", self.flex(f"--form={form}", "x.l").returncode, 0)
                ended = support.run(self.compiled(compiler, "-std=c99"), input=given)
                self.expect(f"{name}, {form}", (ended.returncode, ended.stdout), wanted)

    def test_lex_compat(self):
        for words, text in [(["-l"], WORDS), ([], "%option lex-compat\n%option pointer noyylineno\n" + WORDS)]:
            self.write(text)
            printed = self.flex("-t", *words, "x.l").stdout
            self.check(f"{words}: yytext is an array, and lines are counted", "char yytext[YYLMAX];" in printed and "++yylineno" in printed and "#define YY_FLEX_LEX_COMPAT" in printed)

    def test_reject(self):
        for name, rules, given, wanted in REJECTING:
            head = "" if "%%" in rules else "%%\n"
            for options in REJECTING_WITH:
                self.write(f"%option noyywrap nounput noinput nowarn {options}\n{head}{rules}{MAIN}")
                ended = self.flex("x.l")
                self.expect(f"{name}, {options}: lx flex", (ended.returncode, ended.stderr), (0, ""))
                for compiler, standard in COMPILERS[:1] if options else COMPILERS:
                    if not shutil.which(compiler):
                        self.leave_out(f"{name}: {compiler}", f"there is no {compiler}")
                        continue
                    self.expect(f"{name}, {options}: {compiler}", support.run(self.compiled(compiler, standard), input=given).stdout, wanted)

    def test_reject_without_end(self):
        self.write("%option noyywrap\n%%\n<<EOF>> REJECT;\n" + MAIN)
        self.expect("REJECT at the end: lx flex", self.flex("x.l").returncode, 0)
        ended = support.run(self.compiled(support.tool("gcc", "clang", "cc"), "-std=c99"), input=b"a")
        self.expect("REJECT at the end", (ended.returncode, ended.stderr), (2, b"REJECT was used where no rule had matched\n"))
        self.write("%option noyywrap noreject\n%%\na REJECT;\n" + MAIN)
        text = self.flex("-t", "x.l").stdout
        self.check("noreject", "REJECT reject_used_but_not_detected" in text)

    def test_readers(self):
        """Only those options read by read(2) that do so in flex: the others take what the program's own reading left in the stream."""
        compiler = support.tool("gcc", "clang", "cc")
        self.write("%option noyywrap\n%%\n[a-z]+ printf(\"<%s>\", yytext);\n[ \\n]+ ;\n%%\n"
                   "int main(void) { char line[80]; if (fgets(line, sizeof line, stdin)) printf(\"%s\", line); while (yylex() != 0) { } return 0; }\n")
        for words, by_stream in [([], True), (["-Cf"], True), (["-CF"], True), (["-Cfe"], True), (["-CFa"], True), (["-Cem"], True),
                                 (["-f"], False), (["-F"], False), (["--full"], False), (["--fast"], False), (["-Cr"], False), (["-Cfr"], False)]:
            self.expect(f"{words}: lx flex", self.flex(*words, "x.l").returncode, 0)
            given = support.run(self.compiled(compiler, "-std=c99"), input=b"one\ntwo three\n").stdout
            self.expect(f"{words}", given, b"one\n<two><three>" if by_stream else b"one\n")

    def test_variants(self):
        for options, words in VARIANTS:
            for form in FORMS:
                self.try_variant(options, [*words, f"--form={form}"])

    def try_variant(self, options, words):
        name = "lex.foo.c" if "prefix" in options else "lex.yy.c"
        text = WORDS.replace("yylex()", "foolex()") if "prefix" in options else WORDS
        self.write(text.replace("noyywrap", f"noyywrap {options}"))
        ended = self.flex(*words, "x.l")
        self.expect(f"{options} {words}: lx flex", (ended.returncode, ended.stderr), (0, ""))
        for compiler, standard in COMPILERS:
            if not shutil.which(compiler):
                self.leave_out(f"{options} {words}: {compiler}", f"there is no {compiler}")
                continue
            program = self.compiled(compiler, standard, name)
            if "nodefault" not in options and "debug" not in options:
                self.expect(f"{options} {words}: {compiler}", support.run(program, input=b"ab\n1\n").stdout, b"<ab>\n\n")

    def test_outputs(self):
        self.write(WORDS)
        for words, made in [(["x.l"], "lex.yy.c"), (["-o", "a.c", "x.l"], "a.c"), (["-oa.c", "x.l"], "a.c"), (["--outfile=a.c", "x.l"], "a.c"), (["-Pp", "x.l"], "lex.p.c"),
                            (["x.l", "-o", "a.c"], "a.c")]:
            ended = self.flex(*words)
            self.expect(f"{words}", (ended.returncode, ended.stdout, ended.stderr, self.names()), (0, "", "", sorted(["x.l", made])))
            (self.room / made).unlink()
        printed = self.flex("-t", "x.l")
        self.check("-t", printed.returncode == 0 and "yylex" in printed.stdout)
        self.expect("-t makes no file", self.names(), ["x.l"])
        self.expect("standard input", self.flex("-t", input=WORDS).stdout, printed.stdout.replace('"x.l"', '"<stdin>"'))
        ended = self.flex("-o", "a.c", "--header-file=a.h", "x.l")
        self.expect("a header", (ended.returncode, self.names()), (0, ["a.c", "a.h", "x.l"]))

    def test_backup(self):
        """What -b writes: nothing is given back after one byte, since the default rule takes it."""
        report = "State #N is non-accepting -\n after the text: %s\n out-transitions: [ %s ]\n jam-transitions: EOF [ %s ]\n\n"
        numbers = report % ("0.", "0-9", r"\000-/ :-\377")
        word = report % ("fo", "o", r"\000-n p-\377")
        for name, rules, wanted in [
                ("none", "foo ;\nfo ;\n", "No backing up.\n"), ("a word", "foo ;\n", word + "1 backing up (non-accepting) states.\n"),
                ("a number", "[0-9]+(\\.[0-9]+)? ;\n", numbers + "1 backing up (non-accepting) states.\n")]:
            self.write("%option noyywrap\n%%\n" + rules)
            for words in (["-b", "x.l"], ["--backup", "-o", "lex.yy.c", "x.l"]):
                self.expect(f"{name}: {words}", self.flex(*words).returncode, 0)
                self.expect(f"{name}: files of {words}", self.names(), ["lex.backup", "lex.yy.c", "x.l"])
                self.expect(f"{name}: text of {words}", re.sub(r"#\d+", "#N", (self.room / "lex.backup").read_text()), wanted)
                (self.room / "lex.backup").unlink()
        (self.room / "lex.yy.c").unlink()
        self.write("%option backup\n%%\na ;\n", "lex.backup")
        ended = self.flex("lex.backup")
        self.expect("the input as the output", (ended.returncode, ended.stderr.splitlines()[0], self.names()), (2, "lx: an output would overwrite lex.backup; name another file", ["lex.backup", "x.l"]))

    def test_several_files(self):
        self.write("%option noyywrap\n%%\n", "one.l")
        self.write("a printf(\"a\");\n%%\nwrong\n", "two.l")
        text = self.flex("-t", "one.l", "two.l").stdout
        self.check("the lines of the second file", '#line 1 "two.l"\nprintf("a");' in text and '#line 3 "two.l"\nwrong' in text, text[-300:])
        self.write("<A>a ;\n", "two.l")
        self.expect("a fault in it", self.flex("one.l", "two.l").stderr.splitlines()[0], "two.l:1:2: error: the start condition isn't declared; declare it with %s or %x")

    def test_refused(self):
        for name, text, line in REFUSED:
            self.write(text)
            ended = self.flex("x.l")
            self.expect(name, (ended.returncode, ended.stdout, ended.stderr.splitlines()[0], self.names()), (1, "", line, ["x.l"]))
        self.write("%%\na(b ;\n<A>b ;\n[c ;\n")
        self.expect("all faults of a file", [line.split(":")[1] for line in self.flex("x.l").stderr.splitlines() if line.startswith("x.l")], ["2", "3", "4"])

    def test_statuses(self):
        self.write(WORDS)
        for name, words, status, said in [
                ("an unknown option", ["-Q", "x.l"], 2, "lx: no option -Q; --help lists all"), ("an unknown name", ["--what", "x.l"], 2, "lx: no option --what; --help lists all"),
                ("an option without its value", ["-o"], 2, "lx: the option -o needs a value"), ("a skeleton", ["-S", "f", "x.l"], 2, "lx: the option -S is not supported; --help lists those that are"),
                ("no file", ["y.l"], 3, "lx: cannot read y.l"), ("a folder", ["."], 3, "lx: cannot read ."), ("no folder", ["-o", "no/a.c", "x.l"], 4, "lx: cannot write"),
                ("the input as the output", ["-o", "x.l", "x.l"], 2, "lx: an output would overwrite x.l; name another file"),
                ("one file twice", ["-o", "a", "--header-file=a", "x.l"], 2, "lx: an output would overwrite the other one; name another file")]:
            ended = self.flex(*words)
            self.expect(name, (ended.returncode, ended.stdout, ended.stderr.splitlines()[0], self.names()), (status, "", said, ["x.l"]))
        self.expect("the input is as it was", (self.room / "x.l").read_text(), WORDS)

    def test_answers(self):
        for command in ("lex", "flex"):
            self.check(f"{command} --version", "flex 2.6.4 compatible, by lx " in self.flex("--version", command=command).stdout)
            self.check(f"{command} --help", f"Usage: lx {command} " in self.flex("--help", command=command).stdout)
        self.write(WORDS)
        os.symlink(support.built(), self.room / "flex")
        self.expect("called as flex", support.run(self.room / "flex", "-t", "x.l", cwd=self.room, text=True).stdout, self.flex("-t", "x.l").stdout)

    def test_intervals(self):
        compiler = support.tool("gcc", "clang", "cc")
        self.write("%option noyywrap\n%%\nab{2} printf(\"[%s]\", yytext);\n" + MAIN)
        for command, wanted in [("flex", b"[abb]a[abb]"), ("lex", b"[abab]b")]:
            self.expect(f"{command}: status", self.flex("x.l", command=command).returncode, 0)
            given = b"abbaabb"[:3] + b"aabb" if command == "flex" else b"ababb"
            self.expect(command, support.run(self.compiled(compiler, "-std=c99"), input=given).stdout, wanted)
        self.write("%option noyywrap\n%%\nab{300} printf(\"[%d]\", (int)yyleng);\n" + MAIN)
        for command, wanted in [("flex", b"[301]"), ("lex", b"[600]")]:
            self.expect(f"{command}, a large interval: status", self.flex("x.l", command=command).returncode, 0)
            given = b"a" + b"b" * 300 if command == "flex" else b"ab" * 300
            self.expect(f"{command}, a large interval", support.run(self.compiled(compiler, "-std=c99"), input=given).stdout, wanted)

    def test_hostile(self):
        for name, text in HOSTILE:
            self.write(text)
            begun = time.monotonic()
            ended = self.flex("-t", "x.l")
            self.check(f"{name}: an error with a place, soon", ended.returncode in (0, 1) and ended.stderr[-500:].isprintable() is not None and time.monotonic() - begun < 20, ended.stderr[:200])


if __name__ == "__main__":
    support.main()
