# Reads the specifications of examples/, and writes scanners of flex and re2c that print the listing of lx.
#
# It reads what those specifications use, and refuses all else: what is read wrongly would be seen in the listings, and what is refused is seen
# at once. Patterns go over as trees, with names unfolded and each set of bytes written out, since the three programs read patterns differently.
import collections
import re

# A pattern is one of these: one byte of a set; one part behind the other; one of several; repeats, with None for no bound.
Bytes = collections.namedtuple("Bytes", "bytes")
Sequence = collections.namedtuple("Sequence", "parts")
Choice = collections.namedtuple("Choice", "parts")
Repeat = collections.namedtuple("Repeat", "part least most")

# `next` is the condition to go over to, `kind` that of the token; either may be None.
Action = collections.namedtuple("Action", "next kind")
Rule = collections.namedtuple("Rule", "conditions line_begin pattern action")
Specification = collections.namedtuple("Specification", "conditions rules")

NAME = "[A-Za-z_][A-Za-z0-9_]*"
NEWLINE = 10
ALL_BYTES = frozenset(range(256))
ESCAPED = {letter: ord(byte) for letter, byte in zip("abtnvfr", "\a\b\t\n\v\f\r")}
REPEATS = {"*": (0, None), "+": (1, None), "?": (0, 1)}
SAME_ACTION = "|"


class Refused(Exception):
    """Something that isn't read here, though lx may read it."""


class PatternReader:
    """Reads a pattern up to a blank or the end of the text."""

    def __init__(self, text, definitions, depth=0):
        self.text, self.place = text, 0
        self.definitions, self.depth = definitions, depth
        if depth > 32:
            raise Refused("names in a circle")

    def rest(self):
        return self.text[self.place :]

    def at(self, letters):
        return self.rest() != "" and self.rest()[0] in letters

    def take(self):
        if self.rest() == "":
            raise Refused("a pattern that isn't closed")
        self.place += 1
        return self.text[self.place - 1]

    def take_match(self, expression):
        found = re.match(expression, self.rest())
        self.place += found.end() if found else 0
        return found

    def choice(self):
        parts = [self.sequence()]
        while self.take_match(r"\|"):
            parts.append(self.sequence())
        return parts[0] if len(parts) == 1 else Choice(parts)

    def sequence(self):
        parts = []
        while self.rest() != "" and not self.at("|) \t"):
            interval = self.take_match(r"\{([0-9]+)\}")
            if interval and (not parts or int(interval[1]) == 0):
                raise Refused("an interval with nothing before it, or of no times")
            if interval:
                # An interval of lx takes all that stands to the left in the alternative.
                parts = [Repeat(Sequence(parts), int(interval[1]), int(interval[1]))]
                continue
            part = self.unit()
            while self.at(REPEATS):
                part = Repeat(part, *REPEATS[self.take()])
            parts.append(part)
        if not parts:
            raise Refused("a pattern with an empty part")
        return parts[0] if len(parts) == 1 else Sequence(parts)

    def unit(self):
        name = self.take_match(r"\{(" + NAME + r")\}")
        if name:
            return self.named(name[1])
        letter = self.take()
        if letter == "(":
            group = self.choice()
            if self.take() != ")":
                raise Refused("a group that isn't closed")
            return group
        if letter == '"':
            return self.quoted()
        if letter == "[":
            return self.bracket()
        if letter == ".":
            return Bytes(ALL_BYTES - {NEWLINE})
        if letter == "\\":
            return Bytes(frozenset([self.escaped()]))
        if letter in "{*+?^$/":
            raise Refused(f"the operator {letter} where it stands")
        return Bytes(frozenset([ord(letter)]))

    def named(self, name):
        if name not in self.definitions:
            raise Refused(f"the name {name}, which isn't defined")
        return whole_pattern(self.definitions[name], self.definitions, self.depth + 1)

    def quoted(self):
        text = self.take_match(r'([^"\\]+)"')
        if not text:
            raise Refused("a quoted text with an escape, of no bytes, or that isn't closed")
        return Sequence([Bytes(frozenset([ord(letter)])) for letter in text[1]])

    def escaped(self):
        letter = self.take()
        if letter in ESCAPED:
            return ESCAPED[letter]
        if letter.isalnum():
            raise Refused(f"the escape \\{letter}")
        return ord(letter)

    def bracket_byte(self):
        letter = self.take()
        if letter == "[" and self.at(":.="):
            raise Refused("a class in brackets")
        return self.escaped() if letter == "\\" else ord(letter)

    def bracket(self):
        negated = self.take_match(r"\^")
        found = set()
        while not found or not self.at("]"):
            low = high = self.bracket_byte()
            if self.take_match(r"-(?!\])"):
                high = self.bracket_byte()
            if high < low:
                raise Refused("a range that runs backwards")
            found.update(range(low, high + 1))
        self.take()
        return Bytes(ALL_BYTES - found if negated else frozenset(found))


def whole_pattern(text, definitions, depth=0):
    reader = PatternReader(text, definitions, depth)
    pattern = reader.choice()
    if reader.rest():
        raise Refused(f"{reader.rest()} behind a pattern")
    return pattern


def may_be_empty(pattern):
    if isinstance(pattern, Sequence):
        return all(map(may_be_empty, pattern.parts))
    if isinstance(pattern, Choice):
        return any(map(may_be_empty, pattern.parts))
    return isinstance(pattern, Repeat) and (pattern.least == 0 or may_be_empty(pattern.part))


def may_hold_newline(pattern):
    if isinstance(pattern, Bytes):
        return NEWLINE in pattern.bytes
    if isinstance(pattern, Repeat):
        return may_hold_newline(pattern.part)
    return any(map(may_hold_newline, pattern.parts))


def last_bytes(pattern):
    """The bytes that a text may end in."""
    if isinstance(pattern, Bytes):
        return pattern.bytes
    if isinstance(pattern, Repeat):
        return last_bytes(pattern.part)
    if isinstance(pattern, Choice):
        return frozenset().union(*map(last_bytes, pattern.parts))
    found = frozenset()
    for part in reversed(pattern.parts):
        found |= last_bytes(part)
        if not may_be_empty(part):
            break
    return found


def read_definitions(lines):
    """Goes on up to `%%`, and gives the exclusive conditions and the substitutes of names."""
    conditions, definitions = [], {}
    for line in lines:
        declared = re.fullmatch(r"%x((?: +" + NAME + r")+)", line)
        defined = re.fullmatch("(" + NAME + r")[ \t]+(.*\S)[ \t]*", line)
        if line == "%%":
            return conditions, definitions
        if line.startswith("%{"):
            while not next(lines, "%}").startswith("%}"):
                pass
        elif line.startswith("/*"):
            while "*/" not in line[2:]:
                line = "  " + next(lines, "*/")
        elif declared:
            conditions += declared[1].split()
        elif defined:
            definitions[defined[1]] = defined[2]
        elif line:
            raise Refused("a definition of this form")
    raise Refused("a specification without rules")


def read_action(text, conditions):
    statements = re.fullmatch(r"\{(.*)\}|(.*)", text)
    following = kind = None
    for statement in (statements[1] or statements[2]).split(";")[:-1]:
        begun = re.fullmatch(r"\s*BEGIN\s*(\(?)\s*(" + NAME + r"|0)\s*(\)?)", statement)
        returned = re.fullmatch(r"\s*return (" + NAME + ")", statement)
        if begun and len(begun[1]) == len(begun[3]) and kind is None:
            following = "INITIAL" if begun[2] == "0" else begun[2]
        elif returned and kind is None:
            kind = returned[1]
        elif statement.strip():
            raise Refused(f"the action {text}")
    if following not in [None, *conditions] or not re.search(r";\s*\}?$", text):
        raise Refused(f"the action {text}")
    return Action(following, kind)


def read_rule(line, conditions, definitions):
    """The rule of a line, whose action may be SAME_ACTION."""
    listed = re.match("<(" + NAME + "(?:," + NAME + ")*)>", line)
    chosen = listed[1].split(",") if listed else ["INITIAL"]
    if not set(chosen) <= set(conditions) or (line.startswith("<") and not listed):
        raise Refused("a list of conditions that aren't declared, or of this form")
    reader = PatternReader(line[listed.end() if listed else 0 :], definitions)
    line_begin = bool(reader.take_match(r"\^"))
    pattern = reader.choice()
    text = reader.rest()
    if not re.match(r"[ \t]+\S", text):
        raise Refused("a rule without an action")
    if may_be_empty(pattern):
        raise Refused("a pattern that matches no bytes")
    action = SAME_ACTION if text.strip() == SAME_ACTION else read_action(text.strip(), conditions)
    return Rule(chosen, line_begin, pattern, action)


def read_rules(lines, conditions, definitions):
    rules = []
    for line in lines:
        if line == "%%" or re.match(r"[ \t]|%\{", line):
            raise Refused("a line of this form among the rules")
        if line:
            rules.append(read_rule(line, conditions, definitions))
    for place in reversed(range(len(rules))):
        if rules[place].action == SAME_ACTION:
            if place + 1 == len(rules):
                raise Refused("a last rule without an action of its own")
            rules[place] = rules[place]._replace(action=rules[place + 1].action)
    return rules


def read_specification(path):
    """The specification in a file. Refused tells the file and the line."""
    numbered = list(enumerate(path.read_text("latin-1").split("\n"), 1))
    at = [0]

    def lines():
        for at[0], line in numbered:
            yield line

    stream = lines()
    try:
        declared, definitions = read_definitions(stream)
        conditions = ["INITIAL", *declared]
        return Specification(conditions, read_rules(stream, conditions, definitions))
    except Refused as refused:
        raise Refused(f"{path.name} at line {at[0]} isn't translated: {refused}") from None


def byte_text(byte):
    return f"\\x{byte:02X}"


def byte_set(found):
    """A set of bytes by its ranges."""
    text = ""
    for low in sorted(found):
        if low - 1 not in found:
            high = next(byte for byte in range(low, 257) if byte + 1 not in found)
            text += byte_text(low) if low == high else f"{byte_text(low)}-{byte_text(high)}"
    return f"[{text}]"


def plain_letter(pattern):
    """The letter that a pattern matches alone, where it may stand in quotes, or nothing."""
    letter = chr(min(pattern.bytes)) if isinstance(pattern, Bytes) and len(pattern.bytes) == 1 else ""
    return letter if " " <= letter <= "~" and letter not in '"\\' else ""


def pattern_text(pattern):
    """A pattern as flex and re2c both read it."""
    if isinstance(pattern, Bytes):
        letter = plain_letter(pattern)
        return f'"{letter}"' if letter else byte_set(pattern.bytes)
    if isinstance(pattern, Sequence):
        letters = list(map(plain_letter, pattern.parts))
        text = f'"{"".join(letters)}"' if all(letters) else "".join(map(pattern_text, pattern.parts))
        return f"({text})"
    if isinstance(pattern, Choice):
        return "(" + "|".join(map(pattern_text, pattern.parts)) + ")"
    signs = {bounds: sign for sign, bounds in REPEATS.items()}
    return pattern_text(pattern.part) + signs.get((pattern.least, pattern.most), f"{{{pattern.least}}}")


def listing_text(rule):
    """Returns the code for the bytes from `start` to `end`. A newline in a token is counted as it is listed."""
    if rule.action.kind:
        return f'LIST("T {rule.action.kind}", start, end);'
    return "count_lines(start, end);" if may_hold_newline(rule.pattern) else ""


FLEX_HEAD = """\
%option 8bit never-interactive noyywrap nounput noinput
%{
#include "listing.h"
#define start ((const unsigned char *)yytext)
#define end (start + yyleng)
#define ECHO LIST("E -", start, end)
%}
"""
FLEX_TAIL = """\
%%
/* The buffer goes before its bytes do: flex puts one back as it leaves a buffer. */
static void scan_text(size_t size)
{
    yy_scan_buffer((char *)text, size + 2);
    BEGIN(INITIAL);
    yylex();
    yy_delete_buffer(YY_CURRENT_BUFFER);
}
"""


def flex_text(specification):
    parts = [FLEX_HEAD]
    parts += [f"%x {condition}\n" for condition in specification.conditions[1:]]
    parts.append("%%\n")
    for rule in specification.rules:
        begin = f" BEGIN({rule.action.next});" if rule.action.next else ""
        pattern = ("^" if rule.line_begin else "") + pattern_text(rule.pattern)
        parts.append(f"<{','.join(rule.conditions)}>{pattern} {{ {listing_text(rule)}{begin} }}\n")
    return "".join([*parts, FLEX_TAIL])


RE2C_HEAD = """\
#include "listing.h"

static void scan_text(size_t size)
{
    const unsigned char *start, *end = text, *marker, *limit = text + size;
    /*!re2c
    re2c:define:YYCTYPE = "unsigned char";
    re2c:define:YYCURSOR = end;
    re2c:define:YYMARKER = marker;
    re2c:yyfill:enable = 0;
    */
"""
RE2C_TAIL = """\
at_zero:
    if (start < limit)
        fail(6, "a zero in the text\\n");
}
"""


def without_zero(pattern):
    if isinstance(pattern, Bytes):
        if pattern.bytes == {0}:
            raise Refused("a pattern for the byte 0")
        return Bytes(pattern.bytes - {0})
    if isinstance(pattern, Repeat):
        return pattern._replace(part=without_zero(pattern.part))
    return type(pattern)([without_zero(part) for part in pattern.parts])


def inside_label(condition):
    return f"in_{condition}"


def line_begin_label(condition):
    return f"in_{condition}_at_line_begin"


class Re2cWriter:
    """re2c has no line begins: a condition that has rules for them has a scanner of its own there.

    The text ends at a zero, which no rule takes, since re2c has its test for the end of a text not beside bit vectors. A zero before that
    is reached as the first byte of an item, and ends the program with a fault.
    """

    def __init__(self, specification):
        rules = [rule._replace(pattern=without_zero(rule.pattern)) for rule in specification.rules]
        self.specification = specification._replace(rules=rules)
        self.with_line_begin = {condition for rule in specification.rules if rule.line_begin for condition in rule.conditions}

    def going_on(self, condition, lasts):
        """Goes to the scanner of what is behind a text that ends in one of those bytes."""
        if condition not in self.with_line_begin or NEWLINE not in lasts:
            return f"goto {inside_label(condition)};"
        always = f"goto {line_begin_label(condition)};"
        return always if lasts == {NEWLINE} else f"if (end[-1] == '\\n') {always} goto {inside_label(condition)};"

    def scanner(self, condition, label, at_line_begin):
        parts = [f"{label}:\n    start = end;\n    /*!re2c\n"]
        for rule in self.specification.rules:
            if condition in rule.conditions and (at_line_begin or not rule.line_begin):
                going_on = self.going_on(rule.action.next or condition, last_bytes(rule.pattern))
                parts.append(f"    {pattern_text(rule.pattern)} {{ {listing_text(rule)} {going_on} }}\n")
        parts.append(f'    * {{ LIST("E -", start, end); {self.going_on(condition, ALL_BYTES)} }}\n')
        parts.append(f"    {byte_set([0])} {{ goto at_zero; }}\n    */\n")
        return "".join(parts)

    def whole_text(self):
        # The text begins in INITIAL and at a line begin.
        parts = [RE2C_HEAD, f"    {self.going_on('INITIAL', {NEWLINE})}\n"]
        for condition in self.specification.conditions:
            if condition in self.with_line_begin:
                parts.append(self.scanner(condition, line_begin_label(condition), True))
            parts.append(self.scanner(condition, inside_label(condition), False))
        return "".join([*parts, RE2C_TAIL])


def re2c_text(specification):
    return Re2cWriter(specification).whole_text()
