# Texts that look like C, JSON and logs, the same in each run.
import json
import time

from measuring import TOP

NOUNS = "buffer cursor entry field group item key line node offset page queue record stream table value".split()
VERBS = "add check clear close copy count find join load move open pop push read split write".split()
TYPES = ["int", "long", "unsigned char", "double", "struct node *", "const char *", "size_t"]
OPENING = """
/* Sees to {v}_{a}{n}: gives what stands in its {b},
 * or {n} where there is none ** and is called {n} times. */
static {t} {v}_{a}{n}(struct {a} *{a}, const char *name, unsigned {b}_{n})
{{
    size_t i, total = 0;
    double ratio = 1.0;
"""
STATEMENTS = """\
    if ({a} == NULL || {a}->{b} < 0x{n:X}u) {{
        fprintf(stderr, "{v}: no {a} at \\"%s\\" (%d)\\n", name, {n});
        return -1;
    }}

    for (i = 0; i < {a}->{b}_count; i++)
        total += {a}->{b}[i] * {n} >> 3;    // a {b} each

    while (*{a} != '\\0' && *{a} != '\\n') {{
        if (isspace((unsigned char)*{a}++))
            continue;
        {b}_{n} |= 1UL << ({n} & 31);
    }}

    {a}.{b} = {v}_{b}(&{b}_{n}, sizeof({b}_{n}), {n}.{n}e-3);

    switch ({a}[{n}].kind) {{
    case '{v[0]}': ratio *= 0.{n}f; break;
    case '\\\\': {v}_{a}({b}, {n}L); /* falls through */
    default: ratio = ratio ? 1. / ratio : .5e+{n}; goto done;
    }}

    {b}[{n}] = (struct {a}) {{ "{v} {a}\\t{b}", {n}, ~{n} ^ 0{n:o}, !{a} }};

#ifdef HAVE_{n}
    memset({a}, 0, {n} * sizeof(*{a}));
#endif
""".rstrip("\n").split("\n\n")
CLOSING = """
done:
    return {a} ? total - {n} : total % {n};
}}
"""
SPEAKERS = ["net.http", "disk", "mail.queue", "store.index", "auth", "cron"]
LEVELS = ["DEBUG", "INFO ", "INFO ", "INFO ", "WARN ", "ERROR"]
FIRST_SECOND = 1_769_847_300  # 2026-01-31T08:15:00Z
MESSAGES = [
    "listening on {n}",
    "GET /{a}/{b}/{n}?{v}={a} 200 {n}.{n} ms \"Mozilla/5.0 (X11; Linux x86_64)\"",
    "cannot {v} {a} {n}: no space left",
    "{v} of {a} \\\\{b}\\{n} took {n} ms",
    "user=müller action={v} {a}={n} {b}={n} ok=true",
    "{n} of {n} {a}s: {v} → {b}",
]
BEHIND = " at block {n}\n\t{v}_{a} ({b}.c:{n})\n"


def draws():
    """Endless numbers below 32,768, the same in each run."""
    state = 1
    while True:
        state = (state * 1103515245 + 12345) % 2**31
        yield state >> 16


def drawn_words(numbers):
    words = {letter: of[next(numbers) % len(of)] for letter, of in zip("abvt", (NOUNS, NOUNS, VERBS, TYPES))}
    return words | {"n": next(numbers) % 1000}


def function(numbers):
    """A function of C in which plausible statements stand: it isn't made to be compiled."""
    statements = [STATEMENTS[next(numbers) % len(STATEMENTS)] for _ in range(3 + next(numbers) % 8)]
    filled = [part.format(**drawn_words(numbers)) for part in statements]
    words = drawn_words(numbers)
    return OPENING.format(**words) + "\n".join(filled) + CLOSING.format(**words)

def c_functions():
    numbers = draws()
    while True:
        yield function(numbers)


def record(numbers, number):
    words = [drawn_words(numbers) for _ in range(2 + next(numbers) % 4)]
    a, b, v, n = (words[0][letter] for letter in "abvn")
    return {
        "id": number,
        "name": f"{a}_{b}{n}",
        "active": n % 3 > 0,
        "parent": None if n % 4 == 0 else f"{b}/{v}",
        "ratio": (n - 500) / 64,
        "size": n * 1e20 if n % 7 == 0 else -n,
        "tags": [each["v"] for each in words],
        "places": [{"line": each["n"], "column": next(numbers) % 120, "kind": each["a"]} for each in words],
        "note": f'To {v} the {a}, say "{b}" {n} times:\n\tC:\\{a}\\{b}' if n % 2 else f"Für {a} – naïve {v}",
        "empty": [{}, []],
    }


def json_records():
    """One value behind the other, in the layouts that are usual."""
    numbers = draws()
    layouts = [{"indent": 4}, {"indent": 2, "ensure_ascii": False}, {"ensure_ascii": False}, {"separators": (",", ":")}]
    number = 0
    while True:
        layout = layouts[next(numbers) % len(layouts)]
        for _ in range(16):
            number += 1
            yield json.dumps(record(numbers, number), **layout) + "\n"


def log_lines():
    """Some of the messages have lines behind them that no rule takes."""
    numbers = draws()
    second = FIRST_SECOND
    while True:
        words = drawn_words(numbers)
        second += next(numbers) % 4
        moment = time.strftime("%Y-%m-%dT%H:%M:%SZ", time.gmtime(second))
        level = LEVELS[next(numbers) % len(LEVELS)]
        who = SPEAKERS[next(numbers) % len(SPEAKERS)]
        message = MESSAGES[next(numbers) % len(MESSAGES)].format(**words)
        behind = BEHIND.format(**words) if next(numbers) % 32 == 0 else ""
        yield f"{moment} {level} {who}: {message}\n{behind}"


# By the names of the specifications in examples/.
EXAMPLES = {"c": c_functions, "json": json_records, "log": log_lines}


def fill(file, size, texts):
    """Goes on with texts until the file has as many bytes."""
    for text in texts:
        if file.tell() >= size:
            break
        file.write(text.encode())


def write_example(name, size, path):
    """The input of an example, and more of its kind behind it."""
    with open(path, "wb") as file:
        file.write((TOP / f"examples/{name}.txt").read_bytes())
        fill(file, size, EXAMPLES[name]())
