"""Compares the words that no kind may be (crates/lx_c/src/words.rt) with the words that compilers of C and C++ refuse.

In a printed scanner a kind has its bare name with --include, and otherwise its name after the prefix in capitals and a `_`. The test compiles
`enum { WORD };` for each keyword of C99 to C23 and C++98 to C++23, for each alternative token, and for each word of the table, by gcc and clang in each
standard that they know. For the names of the standard library it includes the headers of both languages, and a macro counts as refused.

- `lx gen --c --include` has to refuse each keyword that some compiler refuses, and to accept each one that all compilers accept.
- It has to refuse each word of the table, and some compiler has to refuse the word too, unless it is a keyword of a newer standard.
- `lx gen --c --prefix` has to refuse each kind whose name after the prefix is a word of the table, and to accept that kind after another prefix.
"""
import concurrent.futures
import re
import shutil

from tests import support
from tests.support import TOP, Case, run, said_by

PARSER = support.parser("Compares the words that no kind may be with those that compilers refuse.")
PARSER.add_argument("--jobs", default=2, type=int, metavar="N", help="how many compilers run at a time (default: 2)")
OPTIONS = PARSER.parse_args([])
C_STANDARDS = ["c99", "c11", "c17", "c2x"]
CPP_STANDARDS = ["c++98", "c++11", "c++14", "c++17", "c++20", "c++2b"]
COMPILERS = [("gcc", "c", C_STANDARDS), ("clang", "c", C_STANDARDS), ("g++", "c++", CPP_STANDARDS), ("clang++", "c++", CPP_STANDARDS)]

# C99, C11 and C23, 6.4.1. C23 calls the decimal types and those of its annex H keywords too.
C_WORDS = """auto break case char const continue default do double else enum extern float for goto if inline int long register restrict return short signed
    sizeof static struct switch typedef union unsigned void volatile while _Bool _Complex _Imaginary _Alignas _Alignof _Atomic _Generic _Noreturn _Static_assert
    _Thread_local alignas alignof bool constexpr false nullptr static_assert thread_local true typeof typeof_unqual _BitInt _Decimal128 _Decimal32 _Decimal64
    _Float16 _Float32 _Float64 _Float128 _Float32x _Float64x""".split()
# C++98 to C++23, [lex.key] and [lex.digraph].
CPP_WORDS = """alignas alignof asm auto bool break case catch char char16_t char32_t char8_t class co_await co_return co_yield concept const const_cast consteval
    constexpr constinit continue decltype default delete do double dynamic_cast else enum explicit export extern false float for friend goto if inline int long
    mutable namespace new noexcept nullptr operator private protected public register reinterpret_cast requires return short signed sizeof static static_assert
    static_cast struct switch template this thread_local throw true try typedef typeid typename union unsigned using virtual void volatile wchar_t while
    and and_eq bitand bitor compl not not_eq or or_eq xor xor_eq""".split()
KEYWORDS = {*C_WORDS, *CPP_WORDS}
# Words that mean something in few places alone, or resemble one of the others: they can be kinds.
OTHERS = "final override import module Register REGISTER registers _register int_ _Bool_ ID NUM x size_of".split()

HEADERS = "ctype errno fenv float inttypes limits locale math setjmp signal stdarg stddef stdint stdio stdlib string time wchar wctype".split()
INCLUDES = "".join(f"#include <{name}.h>\n" for name in HEADERS)
REFUSAL = b" is a word of C or C++\n"


def is_compiled(mode, text):
    compiler, language, standard = mode
    return run(compiler, f"-std={standard}", "-fsyntax-only", "-x", language, "-", input=text.encode()).returncode == 0


def refusing_mode(modes, word):
    """Returns a compiler and a standard that refuse the word, or None. A macro with arguments counts as refused: a header that is included may use it."""
    text = f"enum {{ {word} }};\n" if word in KEYWORDS else f"{INCLUDES}#ifdef {word}\n#error\n#endif\nenum {{ {word} }};\n"
    return next((mode for mode in modes if not is_compiled(mode, text)), None)


def table_of_words():
    text = (TOP / "crates/lx_c/src/words.rt").read_text()
    literal = re.search(r'WORDS: &\[u8\] = b"(.*?)";', text, re.S)[1]
    return literal.replace("\\\n", " ").split()


def is_refused(kind, *words):
    """Tells that a scanner with this kind is refused since the kind is a word of C; any other refusal is an error."""
    ended = support.lx("gen", "--c", *words, "-", input=f"%%\na return {kind};\n".encode())
    if ended.returncode == 0 and ended.stdout:
        return False
    if ended.returncode == 1 and ended.stderr.startswith(b"lx: ") and REFUSAL in ended.stderr and not ended.stdout:
        return True
    raise AssertionError(f"lx gen --c {' '.join(words)} of the kind {kind} ends with {ended.returncode}: {said_by(ended)}")


def is_refused_bare(word):
    return is_refused(word, "--prefix", "s", "--include", "kinds.h")


def splits_of(word):
    """Yields the prefixes and the kinds that make the word."""
    for mark in re.finditer("_", word):
        prefix, kind = word[: mark.start()], word[mark.end() :]
        if re.fullmatch(r"[A-Z][A-Z0-9_]{0,31}", prefix) and re.fullmatch(r"[A-Za-z_][A-Za-z0-9_]*", kind):
            yield prefix.lower(), kind


class WordsOfC(Case):
    def known_modes(self):
        """Returns each compiler with each standard that it knows."""
        modes = []
        for compiler, language, standards in COMPILERS:
            if shutil.which(compiler):
                modes += [mode for standard in standards if is_compiled(mode := (compiler, language, standard), "int x;\n")]
            else:
                self.leave_out(compiler, "it isn't there")
        if not modes:
            self.skipTest("there is no compiler")
        return modes

    def test_words(self):
        support.built()
        modes, table = self.known_modes(), table_of_words()
        words, newer = sorted({*KEYWORDS, *OTHERS, *table}), []
        with concurrent.futures.ThreadPoolExecutor(OPTIONS.jobs) as pool:
            refusers = dict(zip(words, pool.map(lambda word: refusing_mode(modes, word), words)))
        for word, mode in refusers.items():
            refused = is_refused_bare(word)
            if mode:
                self.check(f"{word}, by {' '.join(mode)}", refused, "the compiler refuses it, and lx doesn't")
            elif word in KEYWORDS:
                newer.append(word)
            else:
                self.check(f"{word}, by all compilers", not refused, "lx refuses it, and no compiler does")
            self.expect(f"{word}, in the table", refused, word in table)
        print(f"keywords of newer standards or other compilers, which none here refuses: {' '.join(newer) or 'none'}")
        print(f"{len(words)} words by {len(modes)} compilers and standards, {sum(map(bool, refusers.values()))} of them refused")

    def test_prefixes(self):
        table = table_of_words()
        for word in table:
            for prefix, kind in splits_of(word):
                self.check(f"{word}, as {kind} after {prefix}", is_refused(kind, "--prefix", prefix), "it is accepted")
                if kind not in table:
                    self.check(f"{kind} after s", not is_refused(kind, "--prefix", "s"), "it is refused")


if __name__ == "__main__":
    support.main(PARSER, OPTIONS)
