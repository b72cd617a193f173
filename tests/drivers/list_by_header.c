/* list_by_header WAY TABLES FILE..: the listing of files by drivers/lx.h, each line with the column before it. */
#include "by_header.h"
#include "listing.h"
#include "files.h"

int main(int argc, char **argv)
{
    struct file text;
    lx_error error;
    size_t room;
    void *memory;
    int i;
    if (argc < 4) return 2;
    text = file_read(argv[2]);
    room = lx_tables_size((const char *)text.bytes, text.size, &error);
    memory = malloc(room ? room : 1);
    if (!memory) return 5;
    if (!lx_tables_read(&tables, memory, (const char *)text.bytes, text.size, &error)) {
        printf("refused at line %lu: %s\n", (unsigned long)error.line, error.message);
        return 1;
    }
    free(text.bytes);
    for (i = 3; i < argc; i++) {
        const struct file file = file_read(argv[i]);
        lx_list((unsigned)i - 3, file.bytes, file.size, argv[1]);
        free(file.bytes);
    }
    free(memory);
    return 0;
}
