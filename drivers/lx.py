"""lx.py: scans by tables that `lx gen` printed, in Python 3 alone.

    import lx

    tables = lx.Tables(open("words.tab", "rb").read())       # lx.Damaged, a ValueError, says by line and cause why a text is no tables
    for token in tables.scan(open("words.txt", "rb").read()):
        if token.kind is None:                                # a byte that no rule takes, or the text of an ECHO
            print(f"{token.line}:{token.column}: unexpected {token.text}")
        elif token.kind == "ID":                              # a kind is its name, or a number where the action returns one
            print(token.text.decode(), "at", token.start)

scan gives a Scanner: its next() gives one token, and None at the end, and its begin(number) goes over to a start condition. Lines and columns
count from 1, and columns are counted in bytes.
"""
import collections
import os
import re

NUMBER = re.compile(rb"0|[1-9][0-9]*")
NAME = re.compile(rb"[A-Za-z_][A-Za-z0-9_]*")
MOST_CONDITIONS, MOST_KINDS, MOST_RULES, MOST_CLASSES, MOST_STATES = 64, 4_096, 4_096, 256, 16_512
GREATEST_NUMBER = 2_147_483_647
BEGIN, ITEM = 0, 1

Token = collections.namedtuple("Token", "kind text start line column")
# What a rule does: pairs of BEGIN and a condition, or ITEM and a kind; and how many bytes of the match aren't part of the token.
Action = collections.namedtuple("Action", "steps gives_back")
ECHO_BYTE = Action([(ITEM, None)], 0)


class Damaged(ValueError):
    """Why a text of tables is refused, and the line of it, from 1."""

    def __init__(self, line, cause):
        super().__init__(f"line {line}: {cause}")
        self.line, self.cause = line, cause


class Reader:
    """Goes over a text of tables, and refuses it where something else is due."""

    def __init__(self, text):
        self.text, self.at, self.line = text, 0, 1

    def refuse(self, cause):
        raise Damaged(self.line, cause if self.at < len(self.text) else "the text is cut off")

    def is_next(self, word):
        return self.text.startswith(word, self.at)

    def word(self, word, cause=None):
        common = os.path.commonprefix([word, self.text[self.at : self.at + len(word)]])
        self.at += len(common)
        self.line += common.count(b"\n")
        if common != word:
            self.refuse(cause or f'"{word.decode()}" is due')

    def line_of(self, word):
        """The end of a line, and the word with which the next one begins."""
        self.word(b"\n" + word, f'a line that begins with "{word.decode()}" is due')

    def match(self, pattern, cause):
        found = pattern.match(self.text, self.at) or self.refuse(cause)
        self.at = found.end()
        return found[0]

    def number(self, word, most):
        self.word(word)
        first = self.at
        digits = self.match(NUMBER, "a number is due")
        if len(digits) > len(str(most)) or int(digits) > most:
            self.at = first
            self.refuse("a number is too great")
        return int(digits)

    def count(self, word, most):
        self.line_of(word)
        return self.number(b"", most)


class Tables:
    """What a text of tables says. A row has for each class of bytes the next row or None, and last an Action or None."""

    def __init__(self, text):
        reader = Reader(text.encode() if isinstance(text, str) else bytes(text))
        reader.word(b"lx-tables ", "this is no text of tables")
        reader.word(b"2", "the tables are of another version: `lx up` prints version 2")
        conditions = reader.count(b"conditions ", MOST_CONDITIONS)
        starts = [(reader.count(b"start ", MOST_STATES - 1), reader.number(b" ", MOST_STATES - 1)) for _ in range(conditions)]
        self.kinds = [self._kind(reader) for _ in range(reader.count(b"kinds ", MOST_KINDS))]
        actions = [self._action(reader, conditions) for _ in range(reader.count(b"rules ", MOST_RULES))]
        count = reader.count(b"classes ", MOST_CLASSES)
        self.classes = self._classes(reader, count)
        rows = [[] for _ in range(reader.count(b"states ", MOST_STATES))]
        if not starts or max(map(max, starts)) >= len(rows):
            reader.refuse("a condition has no start among the states, or there is none")
        for row in rows:
            row += self._row(reader, rows, count, actions)
        reader.word(b"\nend\n", 'the line "end" is due')
        if reader.at < len(reader.text):
            reader.refuse("nothing may follow the end")
        if len({tuple(id(row[number]) for row in rows) for number in range(count)}) < count:
            raise Damaged(reader.line, "two classes lead to the same states")
        if len(set(self.kinds)) < len(self.kinds):
            raise Damaged(reader.line, "two kinds have the same name")
        self.starts = [(rows[plain], rows[at_line_begin]) for plain, at_line_begin in starts]

    @staticmethod
    def _kind(reader):
        reader.line_of(b"kind ")
        return reader.match(NAME, "a name is due").decode()

    def _action(self, reader, conditions):
        reader.line_of(b"rule ")
        gives_back, steps = reader.number(b"", 1), []
        while reader.is_next(b" ") and (not steps or steps[-1][0] == BEGIN or steps[-1][1] is None):
            reader.word(b" ")
            if reader.is_next(b"b"):
                steps.append((BEGIN, reader.number(b"b", conditions - 1)))
            elif reader.is_next(b"k"):
                steps.append((ITEM, self.kinds[reader.number(b"k", len(self.kinds) - 1)]))
            elif reader.is_next(b"n"):
                steps.append((ITEM, reader.number(b"n", GREATEST_NUMBER)))
            else:
                reader.word(b"e", "a step is due")
                steps.append((ITEM, None))
        return Action(steps, gives_back)

    @staticmethod
    def _classes(reader, count):
        """Of each byte its class."""
        classes, seen = bytearray(), 0
        reader.line_of(b"class")
        while len(classes) < 256:
            low, high, number = reader.number(b" ", 255), reader.number(b"-", 255), reader.number(b":", count - 1)
            if low != len(classes) or high < low or classes[-1:] == bytes([number]) or number > seen:
                reader.refuse("the next bytes are due, in another class, or the next new one")
            classes += bytes([number]) * (high + 1 - low)
            seen += number == seen
        if seen < count:
            reader.refuse("a class has no bytes")
        return bytes(classes)

    @staticmethod
    def _row(reader, rows, count, actions):
        row, least = [None] * (count + 1), 0
        reader.line_of(b"state ")
        if reader.is_next(b"-"):
            reader.word(b"-")
        else:
            row[count] = actions[reader.number(b"", len(actions) - 1)]
        while reader.is_next(b" "):
            number, target = reader.number(b" ", count - 1), reader.number(b":", len(rows) - 1)
            if number < least:
                reader.refuse("a greater class is due")
            row[number], least = rows[target], number + 1
        return row

    def scan(self, data):
        return Scanner(self, data)


class Scanner:
    """Gives the tokens of some bytes, one after the other."""

    def __init__(self, tables, data):
        self.tables, self.data, self.condition = tables, bytes(data), 0
        self._tokens = self._scan()

    def __iter__(self):
        return self._tokens

    def next(self):
        return next(self._tokens, None)

    def begin(self, condition):
        """Goes over to a start condition by its number, which the next match begins in; 0 is INITIAL."""
        if not 0 <= condition < len(self.tables.starts):
            raise ValueError(f"there is no start condition {condition}")
        self.condition = condition

    def _scan(self):
        data, starts = self.data, self.tables.starts
        classes, size = data.translate(self.tables.classes), len(self.data)
        at, line, line_start = 0, 1, 0
        while at < size:
            start = row = starts[self.condition][at == line_start]
            end = at
            try:
                while row:
                    last = row
                    row = last[classes[end]]
                    end += 1
                end -= 1
            except IndexError:  # the end of the text
                pass
            action = last[-1]
            if not action or action.gives_back or end == at:
                action, end = self._look_back(start, classes, at, end)
            text = data[at:end]
            for what, value in action.steps:
                if what == BEGIN:
                    self.condition = value
                else:
                    yield Token(value, text, at, line, at - line_start + 1)
            if b"\n" in text:
                line += text.count(b"\n")
                line_start = at + text.rfind(b"\n") + 1
            at = end

    @staticmethod
    def _look_back(row, classes, at, end):
        """Walks once more over what was walked, for the last place where a token ends: its action and that place."""
        action, token_end = ECHO_BYTE, at + 1
        for walked in range(at, end):
            row = row[classes[walked]]
            if row[-1] and walked + 1 - row[-1].gives_back > at:
                action, token_end = row[-1], walked + 1 - row[-1].gives_back
        return action, token_end
