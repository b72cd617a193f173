/* damage_by_header CASES FILE: what drivers/lx.h says of each text of tables in CASES, which has its length as four bytes before it: the line at which it is refused,
 * or the listing of FILE by it. */
#include "by_header.h"
#include "listing.h"
#include "files.h"

/* One text, in blocks of the exact size of it and of its tables. */
static void try_text(const unsigned char *text, size_t size, const struct file *file)
{
    char *const block = (char *)listing_block(NULL, 0, text, size);
    lx_error error;
    const size_t room = lx_tables_size(block, size, &error);
    void *const memory = room ? malloc(room) : NULL;
    const int is_taken = memory && lx_tables_read(&tables, memory, block, size, &error);
    free(block);
    if (room && !memory) exit(5);
    if (is_taken) {
        puts("= taken");
        lx_list(0, file->bytes, file->size, "whole");
    } else printf("= refused at line %lu\n", (unsigned long)error.line);
    free(memory);
}

int main(int argc, char **argv)
{
    struct file texts, file;
    size_t at = 0;
    if (argc != 3) return 2;
    texts = file_read(argv[1]);
    file = file_read(argv[2]);
    while (at < texts.size) {
        const unsigned char *const p = texts.bytes + at;
        const size_t size = p[0] | (size_t)p[1] << 8 | (size_t)p[2] << 16 | (size_t)p[3] << 24;
        try_text(p + 4, size, &file);
        at += 4 + size;
    }
    free(texts.bytes);
    free(file.bytes);
    return 0;
}
