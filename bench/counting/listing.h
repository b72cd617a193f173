/* What the scanners of flex and re2c have beside their rules where tokens are counted, and nothing is listed: in the place of ../listing.h, for bench/direct. */
#include <stdio.h>
#include <stdlib.h>
#include <string.h>

struct token {
    const unsigned char *text;
    size_t length;
};

static unsigned char *text;
static size_t tokens, lengths;

static void fail(int status, const char *message)
{
    fputs(message, stderr);
    exit(status);
}

#define count_lines(start, end) ((void)0)

/* In a loop of its own the scanner counts; else it gives each token to who called it. */
#ifdef A_TOKEN_A_CALL
static const unsigned char *place;
#define LIST(kind, start, end)                                        \
    do {                                                              \
        place = (end);                                                \
        token->text = (start);                                        \
        token->length = (size_t)((end) - (start));                    \
        return 1;                                                     \
    } while (0)
#else
#define LIST(kind, start, end) (tokens++, lengths += (size_t)((end) - (start)))
#endif

static void scan_text(size_t size);

/* Prints what count.h prints where lines aren't counted. Before the text a newline stands, behind it two zeros. */
int main(int argc, char **argv)
{
    FILE *const file = argc == 3 ? fopen(argv[2], "rb") : NULL;
    size_t size;
    if (!file || fseek(file, 0, SEEK_END) != 0)
        fail(3, "no file to read\n");
    size = (size_t)ftell(file);
    rewind(file);
    text = calloc(size + 3, 1);
    if (!text || fread(text + 1, 1, size, file) != size)
        fail(3, "cannot read\n");
    *text++ = '\n';
    scan_text(size);
    printf("%zu %zu %zu\n", tokens, lengths, tokens);
    return 0;
}
