/* The listing of a text as `lx scan` has it, each line with the column before it, by a scanner in C.
 *
 * Where P is defined when it is included, P(name) is the scanner's name for a call or a type, INIT and INIT_PART begin a text, COLUMN is a token's column
 * and NAME a kind's name: then it gives P(list). It may be included for several scanners; WITHOUT_FILL is defined where they have no fill. A text comes
 * whole, in parts of so many bytes, or so many tokens a call; each part is a block of memory of its exact size, so that a sanitizer sees each byte too
 * far. */
#include <stdio.h>
#include <stdlib.h>
#include <string.h>

#ifndef LISTING_H
#define LISTING_H
/* a block of exactly these bytes: the rest of the one before, and what comes behind it */
static unsigned char *listing_block(const void *rest, size_t rest_size, const unsigned char *more, size_t more_size)
{
    unsigned char *block = (unsigned char *)malloc(rest_size + more_size ? rest_size + more_size : 1);
    if (!block) exit(5);
    if (rest_size) memcpy(block, rest, rest_size);
    if (more_size) memcpy(block + rest_size, more, more_size);
    return block;
}

static void listing_text(const char *text, size_t length)
{
    size_t i;
    for (i = 0; i < length; i++) {
        const unsigned char byte = (unsigned char)text[i];
        if (byte == '\\') fputs("\\\\", stdout);
        else if (byte >= 32 && byte < 127) putchar(byte);
        else printf("\\x%02X", (unsigned)byte);
    }
}
#endif

#ifdef P
static void P(list_item)(unsigned file, const P(scanner) *s, const P(token) *t)
{
    printf("%lu %u ", (unsigned long)COLUMN(s, t), file);
    if (t->kind == P(ECHO)) fputs("E -", stdout);
    else if (NAME(t->kind)) printf("T %s", NAME(t->kind));
    else printf("T %d", t->kind);
    printf(" %lu %lu %lu ", (unsigned long)t->line, (unsigned long)t->start, (unsigned long)t->length);
    listing_text(t->text, t->length);
    putchar('\n');
}

static void P(list_whole)(unsigned file, const unsigned char *text, size_t size)
{
    P(scanner) s;
    P(token) t;
    INIT(&s, text, size);
    while (P(next)(&s, &t) != P(END)) P(list_item)(file, &s, &t);
    if (P(next)(&s, &t) != P(END)) puts("there is a token behind the end");
}

#ifndef WITHOUT_FILL
static void P(list_by_fill)(unsigned file, const unsigned char *text, size_t size, size_t most)
{
    P(token) *const tokens = (P(token) *)malloc(most * sizeof *tokens);
    P(scanner) s;
    size_t count, i;
    if (!tokens) exit(5);
    INIT(&s, text, size);
    do {
        count = P(fill)(&s, tokens, most);
        for (i = 0; i < count && tokens[i].kind != P(END); i++) P(list_item)(file, &s, &tokens[i]);
    } while (i == most);
    free(tokens);
}
#endif

static void P(list_by_parts)(unsigned file, const unsigned char *text, size_t size, size_t part)
{
    unsigned char *block = listing_block(NULL, 0, NULL, 0);
    size_t block_size = 0;
    P(scanner) s;
    P(token) t;
    INIT_PART(&s, block, 0);
    while (P(next)(&s, &t) != P(END)) {
        if (t.kind == P(MORE)) {
            const size_t more = size < part ? size : part, rest = block_size - s.at;
            unsigned char *const next = listing_block(block + s.at, rest, text, more);
            free(block);
            block = next, block_size = rest + more;
            text += more, size -= more;
            P(refill)(&s, block, block_size, size == 0);
        } else P(list_item)(file, &s, &t);
    }
    free(block);
}

/* way: `whole`, or `part` or `fill` with a number after it */
static void P(list)(unsigned file, const unsigned char *text, size_t size, const char *way)
{
    const size_t number = *way == 'w' ? 0 : (size_t)strtoul(way + 4, NULL, 10);
    if (*way == 'p') P(list_by_parts)(file, text, size, number);
#ifndef WITHOUT_FILL
    else if (*way == 'f') P(list_by_fill)(file, text, size, number);
#endif
    else P(list_whole)(file, text, size);
}
#endif
