# Specifications that are dear to make an automaton of, the same in each run.
import itertools


def letters():
    """Endless letters, the same in each run."""
    state = 1
    while True:
        state = (state * 1103515245 + 12345) % 2**31
        yield chr(ord("a") + (state >> 16) % 26)


def different_words(count, lengths):
    """So many words, no two the same, whose lengths go round those given."""
    stream, words = letters(), {}
    while len(words) < count:
        length = lengths[len(words) % len(lengths)]
        words["".join(itertools.islice(stream, length))] = True
    return list(words)


def specification(rules, definitions=()):
    return "\n".join([*definitions, "%%", *rules, ""])


def chain(outer):
    return specification([f"(a{{128}}){{{outer}}} return A;"])


def many_sets(exponent):
    """The place of an `a` is remembered for so many bytes: two to the power of exponent + 1 sets."""
    return specification([f"(a|b)*a((a|b){{{exponent}}}) return L;"])
