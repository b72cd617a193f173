/* lx.h: scans by tables that `lx gen` printed, read at run time. One header for C99 and C++98, which asks for no memory and prints nothing.
 *
 *     lx_tables tables; lx_scanner s; lx_token t; lx_error error;
 *     size_t size = lx_tables_size(text, length, &error);          -- text: what `lx gen words.l` printed; 0 where it is refused
 *     void *memory = size ? malloc(size) : NULL;                   -- it has to stay as long as the tables are used
 *     if (!memory || !lx_tables_read(&tables, memory, text, length, &error)) {
 *         fprintf(stderr, "words.tab:%lu: %s\n", (unsigned long)error.line, error.message);
 *         return 1;
 *     }
 *     lx_init(&s, &tables, input, input_length);
 *     while (lx_next(&s, &t) != lx_END)
 *         if (t.kind == lx_kind(&tables, "ID")) printf("%.*s\n", (int)t.length, t.text);
 *
 * The calls are those of a scanner that `lx gen --c` prints, but for P_fill. Each text of tables is taken, and none that would lead out of the arrays. */
#ifndef LX_H
#define LX_H
#include <stddef.h>
#include <string.h>

/* What lx_next gives beside kinds: the text's end; a byte that no rule takes, or the text of an ECHO; that more bytes are wanted (lx_refill). A number that
 * an action returns is its own kind, and kinds with names are counted from tables.first on. lx_kind gives lx_NO_KIND where no kind has the name. */
enum { lx_END = -1, lx_ECHO = -2, lx_MORE = -3, lx_NO_KIND = -4 };

typedef struct lx_error { size_t line; const char *message; } lx_error; /* the line of the text of tables, from 1, and why it is refused */

typedef struct lx_tables {       /* states are counted from 1, and 0 is none */
    unsigned columns[256];       /* where the column of a byte's class begins */
    const unsigned short *steps; /* in a column for each state the next one */
    const int *accepts;          /* for each state the place of its action, or 0; below 0, where the rule ends with `$` */
    const int *actions;          /* a kind, lx_ECHO or -4 - a condition each, up to lx_END; first that of a byte that no rule takes */
    const int *starts, *names;   /* for each condition the state where a match begins, and the one at line begin; where names begin */
    const char *letters;
    int conditions, kinds, first, classes, states; /* how many, and the number of the first kind with a name */
} lx_tables;

typedef struct lx_token {
    int kind; const char *text;             /* in the caller's buffer, with no NUL after it */
    size_t length, start, line, line_start; /* start: bytes before it; line: from 1; line_start: bytes before that line */
} lx_token;

typedef struct lx_scanner { /* its fields may be read; the calls below set them */
    const lx_tables *tables; const char *text;
    size_t size, before, at, line, line_start; /* bytes in the buffer and before it; where the next match begins in it, with its line */
    int condition, is_last, pending;           /* pending: the place of the steps that are left of the last match's action */
    lx_token last;                             /* the last match */
} lx_scanner;

/* ---- Reading tables: a reader goes over the text twice. It judges it and counts words and letters, and then it stores them. */
typedef struct lx__reader {
    const char *at, *end, *message; size_t line, words, letters;
    int greatest, *memory; /* greatest: of the numbers that actions return, and 255 */
    unsigned short *steps; char *names;
} lx__reader;

#define LX__DUE(word) word, "\"" word "\" is due"
#define LX__LINE(word) "\n" word, "a line that begins with \"" word "\" is due"

static inline int *lx__place(const lx__reader *r) { return r->memory ? r->memory + r->words : NULL; }
static inline int lx__is_next(const lx__reader *r, char least, char most) { return !r->message && r->at != r->end && *r->at >= least && *r->at <= most; }
static inline int lx__refuse(lx__reader *r, const char *why) { return r->message = r->message ? r->message : r->at == r->end ? "the text is cut off" : why, 0; }
static inline void lx__put(lx__reader *r, int word) { int *const place = lx__place(r); r->words++; if (place) *place = word; }
static inline int lx__word(lx__reader *r, const char *word, const char *message) {
    for (; *word && lx__is_next(r, *word, *word); word++) r->line += *r->at++ == '\n';
    return *word ? lx__refuse(r, message) : 1;
}
static inline int lx__number(lx__reader *r, const char *word, const char *message, int most) { /* after a word, up to `most` */
    int n = 0, digits = 0;
    lx__word(r, word, message);
    for (; lx__is_next(r, '0', '9') && (n || !digits); digits++, r->at++) { /* no digit follows a leading zero */
        const int digit = *r->at - '0';
        if (digit > most || n > (most - digit) / 10) return lx__refuse(r, "a number is too great");
        n = 10 * n + digit;
    }
    return digits ? n : lx__refuse(r, "a number is due");
}

static inline void lx__read_kind(lx__reader *r) {
    size_t i = r->letters;
    lx__put(r, (int)i);
    lx__word(r, LX__LINE("kind "));
    for (; lx__is_next(r, 'a', 'z') || lx__is_next(r, 'A', 'Z') || lx__is_next(r, '_', '_') || (i > r->letters && lx__is_next(r, '0', '9')); i++, r->at++)
        if (r->names) r->names[i] = *r->at;
    if (i == r->letters) lx__refuse(r, "a name is due");
    r->letters = i + 1; /* a NUL is there */
}
static inline void lx__read_rule(lx__reader *r, const lx_tables *t, int place, int *accepted) { /* accepted: the place, below 0 where the rule ends with `$` */
    int is_open = 1;
    if (lx__number(r, LX__LINE("rule "), 1)) place = -place;
    if (accepted) *accepted = place;
    while (is_open && lx__is_next(r, ' ', ' ')) {
        const char step = ++r->at == r->end ? ' ' : *r->at;
        const int is_step = memchr("bekn", step, 4) ? r->at++, 1 : lx__refuse(r, "a step is due");
        const int n = !is_step || step == 'e' ? 0 : lx__number(r, "", "", step == 'b' ? t->conditions - 1 : step == 'k' ? t->kinds - 1 : 2147483647);
        if (step == 'n' && n > r->greatest) r->greatest = n;
        lx__put(r, step == 'b' ? -4 - n : step == 'e' ? (int)lx_ECHO : step == 'k' ? t->first + n : n);
        is_open = step == 'b' || step == 'e';
    }
    lx__put(r, lx_END);
}
static inline void lx__read_classes(lx__reader *r, lx_tables *t) {
    int byte = 0, seen = 0, last = -1;
    lx__word(r, LX__LINE("class"));
    while (byte < 256 && !r->message) {
        const int low = lx__number(r, LX__DUE(" "), 255), high = lx__number(r, LX__DUE("-"), 255), one = lx__number(r, LX__DUE(":"), t->classes - 1);
        if (low != byte || high < low || one == last || one > seen) lx__refuse(r, "the next bytes are due, in another class, or the next new one");
        for (; byte <= high; byte++) t->columns[byte] = (unsigned)(one * (t->states + 1));
        last = one, seen += one == seen;
    }
    if (seen < t->classes) lx__refuse(r, "a class has no bytes");
}
static inline void lx__read_state(lx__reader *r, const lx_tables *t, int state, const int *places, int rules) {
    int least = 0, rule = -1;
    if (lx__word(r, LX__LINE("state ")) && lx__is_next(r, '-', '-')) r->at++;
    else rule = lx__number(r, "", "", rules - 1);
    lx__put(r, rule < 0 || !r->memory ? 0 : places[rule]);
    while (lx__is_next(r, ' ', ' ')) {
        const int one = lx__number(r, " ", "", t->classes - 1), next = lx__number(r, LX__DUE(":"), t->states - 1);
        if (one < least) lx__refuse(r, "a greater class is due");
        if (r->memory) r->steps[one * (t->states + 1) + state] = (unsigned short)(next + 1);
        least = one + 1;
    }
}

static inline void lx__read(lx__reader *r, lx_tables *t) { /* where it is stored, what `t` counts is known from the time before */
    int i, rules, state, greatest_start = 0, *places;
    size_t actions;
    lx__word(r, "lx-tables ", "this is no text of tables");
    lx__word(r, "2", "the tables are of another version: `lx up` prints version 2");
    t->conditions = lx__number(r, LX__LINE("conditions "), 64), t->starts = lx__place(r);
    for (i = 0; i < 2 * t->conditions; i++) {
        state = i % 2 ? lx__number(r, LX__DUE(" "), 16511) : lx__number(r, LX__LINE("start "), 16511);
        lx__put(r, state + 1), greatest_start = state > greatest_start ? state : greatest_start;
    }
    t->kinds = lx__number(r, LX__LINE("kinds "), 4096), t->names = lx__place(r);
    for (i = 0; i < t->kinds; i++) lx__read_kind(r);
    rules = lx__number(r, LX__LINE("rules "), 4096), places = lx__place(r); /* of the rules' actions */
    actions = r->words += (size_t)rules, t->actions = lx__place(r);
    lx__put(r, lx_ECHO), lx__put(r, lx_END);
    for (i = 0; i < rules; i++) lx__read_rule(r, t, (int)(r->words - actions), places ? places + i : NULL);
    t->classes = lx__number(r, LX__LINE("classes "), 256), lx__read_classes(r, t);
    t->states = lx__number(r, LX__LINE("states "), 16512);
    if (greatest_start >= t->states || t->conditions == 0) lx__refuse(r, "a condition has no start among the states, or there is none");
    t->accepts = lx__place(r), r->words++;
    for (i = 1; i <= t->states && !r->message; i++) lx__read_state(r, t, i, places, rules);
    lx__word(r, "\nend\n", "a line \"end\" is due");
    if (r->at != r->end) lx__refuse(r, "nothing may follow the end");
    if (!r->message && t->kinds > 2147483647 - r->greatest) r->message = "a number leaves none for the kinds";
    t->steps = r->steps, t->letters = r->names;
}

/* Returns 1 where no two classes lead to the same states, as in each text that lx prints. */
static inline int lx__are_classes_apart(const lx_tables *t) {
    const size_t height = (size_t)t->states + 1;
    int one, other;
    for (one = 1; one < t->classes; one++)
        for (other = 0; other < one; other++)
            if (memcmp(t->steps + (size_t)one * height, t->steps + (size_t)other * height, height * sizeof *t->steps) == 0) return 0;
    return 1;
}

/* Returns 1 where no two kinds have the same name. */
static inline int lx__are_names_apart(const lx_tables *t) {
    int one, other;
    for (one = 1; one < t->kinds; one++)
        for (other = 0; other < one; other++)
            if (strcmp(t->letters + t->names[one], t->letters + t->names[other]) == 0) return 0;
    return 1;
}

/* Reads tables into memory, or judges them where that is NULL, but for their classes: how many bytes they want, or 0 where the text is refused. */
static inline size_t lx_tables_read(lx_tables *t, void *memory, const char *text, size_t n, lx_error *error) {
    lx__reader r = {text, text + n, NULL, 1, 0, 0, 255, NULL, NULL, NULL}, storing = r;
    size_t steps;
    memset(t, 0, sizeof *t);
    if (n > 1000000000) lx__refuse(&r, "the text is too long");
    lx__read(&r, t);
    if (r.message) return error->line = r.line, error->message = r.message, 0;
    t->first = t->kinds ? r.greatest + 1 : r.greatest, steps = (size_t)(t->classes * (t->states + 1));
    if (memory) {
        storing.memory = (int *)memory, storing.steps = (unsigned short *)(storing.memory + r.words), storing.names = (char *)(storing.steps + steps);
        memset(storing.steps, 0, steps * sizeof *r.steps + r.letters);
        lx__read(&storing, t);
        if (!lx__are_classes_apart(t)) return error->line = storing.line, error->message = "two classes lead to the same states", 0;
        if (!lx__are_names_apart(t)) return error->line = storing.line, error->message = "two kinds have the same name", 0;
    }
    return r.words * sizeof *r.memory + steps * sizeof *r.steps + r.letters;
}
static inline size_t lx_tables_size(const char *text, size_t n, lx_error *error) { lx_tables t; return lx_tables_read(&t, NULL, text, n, error); }
static inline const char *lx_name(const lx_tables *t, int kind) { /* or NULL */
    return kind >= t->first && kind - t->first < t->kinds ? t->letters + t->names[kind - t->first] : NULL;
}
static inline int lx_kind(const lx_tables *t, const char *name) {
    int i = 0;
    while (i < t->kinds && strcmp(name, t->letters + t->names[i]) != 0) i++;
    return i < t->kinds ? t->first + i : (int)lx_NO_KIND;
}

/* ---- Scanning. Where lx_MORE comes, the bytes from s->text + s->at on are handed over again, moved or not, with more after them. */
static inline void lx_refill(lx_scanner *s, const void *text, size_t size, int is_last) {
    s->before += s->at, s->at = 0, s->text = text ? (const char *)text : "", s->size = size, s->is_last = is_last;
}
static inline void lx_init_part(lx_scanner *s, const lx_tables *tables, const void *text, size_t size) { /* a text that comes in parts */
    memset(s, 0, sizeof *s);
    s->tables = tables, s->line = 1;
    lx_refill(s, text, size, 0);
}
static inline void lx_init(lx_scanner *s, const lx_tables *t, const void *text, size_t size) { lx_init_part(s, t, text, size), s->is_last = 1; } /* a whole text */
static inline void lx_begin(lx_scanner *s, int condition) { if (condition >= 0 && condition < s->tables->conditions) s->condition = condition; } /* 0 is INITIAL */
static inline size_t lx_column(const lx_scanner *s, const lx_token *t) { return (void)s, t->start - t->line_start + 1; } /* from 1, in bytes */
static inline size_t lx__lines(const char *text, size_t length) { size_t n = 0; while (length > 0) n += text[--length] == '\n'; return n; }
static inline void lx__take(lx_scanner *s, size_t length, size_t lines) { /* as the last match, with so many newlines */
    const char *const from = s->text + s->at, *end = from + length;
    s->last.text = from, s->last.length = length, s->last.start = s->before + s->at, s->last.line = s->line, s->last.line_start = s->line_start;
    s->at += length;
    if (lines == 0) return;
    while (end[-1] != '\n') end--;
    s->line += lines, s->line_start = s->last.start + (size_t)(end - from);
}
/* yyless: goes on after the first bytes of the last token, one at least. Further items of the same action get the shorter text. */
static inline void lx_less(lx_scanner *s, const lx_token *t, size_t length) {
    if (t->start != s->last.start || length == 0 || length > s->last.length) return;
    s->at = t->start - s->before, s->line = t->line, s->line_start = t->line_start;
    lx__take(s, length, lx__lines(t->text, length));
}
static inline int lx__perform(lx_scanner *s, int place) { /* the steps of an action up to one that gives an item */
    const int *step = s->tables->actions + place;
    for (; *step <= -4; step++) s->condition = -4 - *step;
    s->pending = *step == lx_ECHO ? (int)(step + 1 - s->tables->actions) : 0;
    return *step;
}
static inline int lx__has_step(const lx_tables *t, size_t state) { int b = 0; while (b < 256 && t->steps[t->columns[b] + state] == 0) b++; return b < 256; }
/* walks once more over so many bytes, for the last place where a state accepts: its action, and the length of its token */
static inline int lx__walk_again(const lx_tables *t, size_t state, const unsigned char *text, size_t *length) {
    const size_t walked = *length;
    int action = 0;
    size_t i;
    *length = 1;
    for (i = 1; i <= walked; i++) {
        const int accepted = t->accepts[state = t->steps[t->columns[text[i - 1]] + state]];
        if (accepted > 0) action = accepted, *length = i;
        else if (accepted < 0 && i > 1) action = -accepted, *length = i - 1;
    }
    return action;
}
static inline int lx__match(lx_scanner *s) { /* takes the longest match, and begins its action */
    const lx_tables *const t = s->tables;
    const unsigned char *const from = (const unsigned char *)s->text + s->at, *const end = (const unsigned char *)s->text + s->size, *p = from;
    const size_t start = (size_t)t->starts[2 * s->condition + (s->before + s->at == s->line_start)];
    size_t state = start, next, length, lines = 0;
    int action;
    while ((next = t->steps[t->columns[*p] + state]) != 0) {
        state = next;
        lines += *p == '\n';
        if (++p == end) break;
    }
    if (next && !s->is_last && lx__has_step(t, next)) return lx_MORE;
    length = (size_t)(p - from);
    action = t->accepts[state];
    if (action <= 0 || length == 0) action = lx__walk_again(t, start, from, &length), lines = lx__lines(s->text + s->at, length);
    lx__take(s, length, lines);
    return lx__perform(s, action);
}
static inline int lx_next(lx_scanner *s, lx_token *t) { /* the next token, and its kind; after the end always lx_END */
    int kind = s->pending ? lx__perform(s, s->pending) : (int)lx_END;
    while (kind == lx_END && s->at != s->size) kind = lx__match(s);
    if (kind == lx_END && !s->is_last) kind = lx_MORE;
    if (kind == lx_END || kind == lx_MORE) lx__take(s, 0, 0);
    *t = s->last;
    return t->kind = kind;
}
#endif
