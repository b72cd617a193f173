/* Counts the tokens of a file, and sums their lengths and their lines: for bench/drivers, which defines what a scanner's calls are named. */
#include <stdio.h>
#include <stdlib.h>

static char *read_file(const char *path, size_t *size)
{
    FILE *const file = fopen(path, "rb");
    char *bytes;
    if (!file || fseek(file, 0, SEEK_END) != 0) exit(3);
    *size = (size_t)ftell(file);
    rewind(file);
    bytes = malloc(*size + 1);
    if (!bytes || fread(bytes, 1, *size, file) != *size) exit(3);
    fclose(file);
    return bytes;
}

int main(int argc, char **argv)
{
    size_t size, tokens = 0, lengths = 0, lines = 0;
    P(scanner) scanner;
    P(token) token;
    if (argc != 3) return 2;
    BEGIN(argv[1])
    const char *const text = read_file(argv[2], &size);
    INIT(&scanner, text, size);
    while (P(next)(&scanner, &token) != P(END)) tokens++, lengths += token.length, lines += token.line;
    printf("%zu %zu %zu\n", tokens, lengths, lines);
    return 0;
}
