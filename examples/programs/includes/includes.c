/* Prints each word of a file, and of the files that it includes, with the place where it stands: includes TABLES FILE. Each file has a scanner of its own,
 * and they stand on a stack. */
#include "lx.h"
#include <stdio.h>
#include <stdlib.h>

enum { DEPTH = 16 };

struct source {
    char *name, *text;
    lx_scanner scanner;
};

static char *read_file(const char *name, size_t *size)
{
    FILE *const file = fopen(name, "rb");
    char *text;
    if (!file || fseek(file, 0, SEEK_END) != 0) {
        perror(name);
        exit(3);
    }
    *size = (size_t)ftell(file);
    rewind(file);
    text = (char *)malloc(*size + 1);
    if (!text || fread(text, 1, *size, file) != *size) exit(3);
    fclose(file);
    return text;
}

/* A source with the file of this name, which is copied. */
static void begin(struct source *source, const lx_tables *tables, const char *name, size_t length)
{
    size_t size;
    source->name = (char *)calloc(length + 1, 1);
    if (!source->name) exit(5);
    memcpy(source->name, name, length);
    source->text = read_file(source->name, &size);
    lx_init(&source->scanner, tables, source->text, size);
}

static void end(struct source *source)
{
    free(source->name);
    free(source->text);
}

static void print_words(const lx_tables *tables, const char *name)
{
    const int file = lx_kind(tables, "FILE");
    struct source stack[DEPTH], *top = stack;
    lx_token t;
    begin(top, tables, name, strlen(name));
    while (top >= stack) {
        const int kind = lx_next(&top->scanner, &t);
        if (kind == lx_END) end(top--);
        else if (kind != file) printf("%s:%lu:%lu: %.*s\n", top->name, (unsigned long)t.line, (unsigned long)lx_column(&top->scanner, &t), (int)t.length, t.text);
        else if (top + 1 < stack + DEPTH) begin(++top, tables, t.text, t.length);
        else printf("%s:%lu: files are included too deep\n", top->name, (unsigned long)t.line);
    }
}

int main(int argc, char **argv)
{
    lx_tables tables;
    lx_error error;
    size_t size;
    if (argc != 3) return 2;
    char *const text = read_file(argv[1], &size);
    void *const memory = malloc(lx_tables_size(text, size, &error) + 1);
    if (!memory || !lx_tables_read(&tables, memory, text, size, &error)) {
        fprintf(stderr, "%s:%lu: %s\n", argv[1], (unsigned long)error.line, error.message);
        return 1;
    }
    print_words(&tables, argv[2]);
    free(text);
    free(memory);
    return 0;
}
