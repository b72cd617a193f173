"""lx_c.py: the tokens of a scanner that `lx gen --c` printed, in Python, about as fast as Python can take them.

    $ lx gen --c --prefix words words.l > words.c
    $ cc -O2 -shared -fPIC -o words.so words.c

    import lx_c

    words = lx_c.Library("./words.so", "words")
    for token in words.scan(open("words.txt", "rb").read()):
        print(token.kind, token.text, token.start, token.line, token.column)

Tokens are those of lx.py: a kind is its name, or a number where the action returns one, or None for a byte that no rule takes and the text of an ECHO.
"""
import collections
import ctypes
import struct

END, ECHO = -1, -2
TOKENS_AT_ONCE = 4_096
# A token in C: its kind, where its text stands in memory, its length, its start, its line, and the start of that line.
TOKEN = struct.Struct("@iPNNNN")
# More memory than a scanner in C takes.
SCANNER_WORDS = 64

Token = collections.namedtuple("Token", "kind text start line column")


class Library:
    """A shared library with a scanner of this prefix."""

    def __init__(self, path, prefix="lx"):
        library = ctypes.CDLL(path)
        self._init, self._fill, self._name = (library[f"{prefix}_{call}"] for call in ("init", "fill", "name"))
        self._init.argtypes, self._init.restype = [ctypes.c_void_p, ctypes.c_char_p, ctypes.c_size_t], None
        self._fill.argtypes, self._fill.restype = [ctypes.c_void_p, ctypes.c_void_p, ctypes.c_size_t], ctypes.c_size_t
        self._name.argtypes, self._name.restype = [ctypes.c_int], ctypes.c_char_p
        self._kinds = {ECHO: None}

    def _kind(self, number):
        if number not in self._kinds:
            name = self._name(number)
            self._kinds[number] = name.decode() if name else number
        return self._kinds[number]

    def scan(self, data):
        """The tokens of some bytes. They are scanned in C by the thousand."""
        data, scanner = bytes(data), (ctypes.c_size_t * SCANNER_WORDS)()
        tokens = (ctypes.c_char * (TOKEN.size * TOKENS_AT_ONCE))()
        view = memoryview(tokens).cast("B")
        self._init(scanner, data, len(data))
        while True:
            count = self._fill(scanner, tokens, TOKENS_AT_ONCE)
            for kind, _, length, start, line, line_start in TOKEN.iter_unpack(view[: count * TOKEN.size]):
                if kind == END:
                    return
                yield Token(self._kind(kind), data[start : start + length], start, line, start - line_start + 1)
