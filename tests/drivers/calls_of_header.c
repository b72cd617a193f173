/* calls_of_header TABLES: tries the calls of drivers/lx.h beside lx_next by the tables of all_steps.l, and prints what isn't so. */
#include "../../drivers/lx.h"
#include "files.h"

#define CHECK(it) ((it) ? (void)0 : (void)printf("line %d: not so: %s\n", __LINE__, #it))

static lx_tables tables;
static lx_scanner s;
static lx_token t;

static void check_kinds(void)
{
    CHECK(tables.first == 256 && tables.kinds == 3 && tables.conditions == 3);
    CHECK(lx_kind(&tables, "HASH") == 256 && lx_kind(&tables, "LAST") == 258);
    CHECK(lx_kind(&tables, "NONE") == lx_NO_KIND && lx_kind(&tables, "") == lx_NO_KIND);
    CHECK(strcmp(lx_name(&tables, 257), "ID") == 0);
    CHECK(!lx_name(&tables, 7) && !lx_name(&tables, 255) && !lx_name(&tables, 259) && !lx_name(&tables, lx_ECHO) && !lx_name(&tables, lx_NO_KIND));
}

/* yyless gives back what stands behind a length, and nothing where that is none of the token's. */
static void check_less(void)
{
    lx_init(&s, &tables, "abc 12\nd", 8);
    CHECK(lx_next(&s, &t) == 257 && t.length == 3);
    lx_less(&s, &t, 0);
    lx_less(&s, &t, 4);
    CHECK(s.at == 3);
    lx_less(&s, &t, 1);
    CHECK(lx_next(&s, &t) == 257 && t.length == 2 && t.start == 1 && lx_column(&s, &t) == 2);
    CHECK(lx_next(&s, &t) == lx_ECHO && t.length == 1);
    CHECK(lx_next(&s, &t) == 258 && t.length == 2); /* before a newline */
    lx_less(&s, &t, 1);
    CHECK(lx_next(&s, &t) == 258 && t.length == 1 && t.line == 1);
    CHECK(lx_next(&s, &t) == lx_ECHO && lx_next(&s, &t) == 257 && t.line == 2 && lx_column(&s, &t) == 1);
    CHECK(lx_next(&s, &t) == lx_END && lx_next(&s, &t) == lx_END && t.start == 8 && t.length == 0);
}

/* What is left of an action gives the shorter text, as the rest of an action does after yyless: here HASH, in OUT, which skips what was given back. */
static void check_less_of_an_action(void)
{
    lx_init(&s, &tables, "#ab", 3);
    CHECK(lx_next(&s, &t) == lx_ECHO && t.length == 3);
    lx_less(&s, &t, 1);
    CHECK(lx_next(&s, &t) == 256 && t.length == 1 && t.start == 0);
    CHECK(lx_next(&s, &t) == lx_END && s.condition == 2);
}

static void check_begin(void)
{
    lx_init(&s, &tables, "ab\ncd  e", 8);
    lx_begin(&s, 3);
    lx_begin(&s, -1);
    CHECK(s.condition == 0);
    lx_begin(&s, 2);
    CHECK(lx_next(&s, &t) == 257 && t.start == 3 && t.line == 2); /* OUT skips the first line, and then IN is begun */
    CHECK(lx_next(&s, &t) == lx_ECHO && t.length == 2);           /* which only IN has */
}

/* A text in parts: more is wanted only while it may change the match. */
static void check_parts(void)
{
    lx_init_part(&s, &tables, NULL, 0);
    CHECK(lx_next(&s, &t) == lx_MORE);
    lx_refill(&s, "ab", 2, 0);
    CHECK(lx_next(&s, &t) == lx_MORE && s.at == 0);
    lx_refill(&s, "ab\n+", 4, 0);
    CHECK(lx_next(&s, &t) == 257 && t.length == 2 && lx_next(&s, &t) == lx_ECHO && *t.text == '\n');
    CHECK(lx_next(&s, &t) == lx_ECHO && *t.text == '+' && t.line == 2 && lx_column(&s, &t) == 1);
    CHECK(lx_next(&s, &t) == lx_MORE && s.at == 4);
    lx_refill(&s, "x", 1, 1);
    CHECK(lx_next(&s, &t) == 257 && t.start == 4 && t.line == 2 && lx_column(&s, &t) == 2 && lx_next(&s, &t) == lx_END);
    lx_init_part(&s, &tables, "x\n", 2);
    lx_begin(&s, 2);
    CHECK(lx_next(&s, &t) == lx_MORE && s.at == 2 && s.condition == 1); /* behind the newline no step could follow, so it was taken */
}

int main(int argc, char **argv)
{
    struct file text;
    lx_error error;
    void *memory;
    if (argc != 2) return 2;
    text = file_read(argv[1]);
    memory = malloc(lx_tables_size((const char *)text.bytes, text.size, &error));
    if (!lx_tables_read(&tables, memory, (const char *)text.bytes, text.size, &error)) return 1;
    free(text.bytes);
    check_kinds();
    check_less();
    check_less_of_an_action();
    check_begin();
    check_parts();
    free(memory);
    return 0;
}
