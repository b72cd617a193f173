/* The listing of a text by a printed scanner whose tokens P_less shortens. A token's number, start and length say whether it is shortened and how far, so that it
 * is the same for each way of handing the text over. P(name) is the scanner's name for a call or a type; this file may be included for several scanners. */
#include <stdio.h>
#include <stdlib.h>
#include <string.h>

#ifndef LESS_H
#define LESS_H
/* how many bytes of a token stay */
static size_t less_length(unsigned long number, size_t start, size_t length)
{
    const unsigned long drawn = (number * 2654435761UL + start * 40503UL + length * 9973UL) & 0xffffffffUL;
    return length && (drawn >> 8) % 3 == 0 ? 1 + (drawn >> 16) % length : length;
}

/* a block of exactly these bytes */
static char *less_block(const char *rest, size_t rest_size, const char *more, size_t more_size)
{
    char *const block = (char *)malloc(rest_size + more_size + !(rest_size + more_size));
    if (!block) exit(5);
    if (rest_size) memcpy(block, rest, rest_size);
    if (more_size) memcpy(block + rest_size, more, more_size);
    return block;
}
#endif

/* A text in parts of so many bytes, or whole where that is 0. */
static void P(list_less)(const char *text, size_t size, size_t part)
{
    char *block = less_block(NULL, 0, text, part ? 0 : size);
    size_t block_size = part ? 0 : size;
    unsigned long number = 0;
    P(scanner) s;
    P(token) t, earlier;
    if (part) P(init_part)(&s, block, 0);
    else P(init)(&s, block, size);
    memset(&earlier, 0, sizeof earlier);
    while (P(next)(&s, &t) != P(END)) {
        if (t.kind == P(MORE)) {
            const size_t more = size < part ? size : part, rest = block_size - s.at;
            char *const next = less_block(block + s.at, rest, text, more);
            free(block);
            block = next, block_size = rest + more;
            text += more, size -= more;
            P(refill)(&s, block, block_size, size == 0);
            continue;
        }
        size_t i, length = less_length(number, t.start, t.length);
        printf("%d %lu %lu %lu ", t.kind, (unsigned long)t.start, (unsigned long)t.line, (unsigned long)P(column)(&s, &t));
        for (i = 0; i < t.length; i++) printf("%02x", (unsigned char)t.text[i]);
        /* these change nothing */
        P(less)(&s, &t, 0);
        P(less)(&s, &t, t.length + 1);
        if (number && earlier.start + earlier.length <= t.start && earlier.start != t.start) P(less)(&s, &earlier, 1);
        if (length != t.length) {
            /* a shorter length, and then the one that counts */
            P(less)(&s, &t, 1);
            P(less)(&s, &t, length);
            printf(" %lu", (unsigned long)length);
        }
        putchar('\n');
        earlier = t;
        number++;
    }
    free(block);
}
