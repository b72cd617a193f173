/* A program over scanners that `lx gen --c` prints: PREFIX WAY FILE.. lists files by the scanner with this prefix. */
#include <stddef.h>
#include "listing.h"
#include "files.h"

#define INIT(s, text, size) P(init)(s, text, size)
#define INIT_PART(s, text, size) P(init_part)(s, text, size)
#define COLUMN(s, t) P(column)(s, t)
#define NAME(kind) P(name)(kind)

struct printed_scanner {
    const char *prefix;
    void (*list)(unsigned file, const unsigned char *text, size_t size, const char *way);
};
extern const struct printed_scanner printed_scanners[];

int main(int argc, char **argv)
{
    const struct printed_scanner *scanner = printed_scanners;
    int i;
    if (argc < 3) return 2;
    while (scanner->prefix && strcmp(scanner->prefix, argv[1]) != 0) scanner++;
    if (!scanner->prefix) return 2;
    for (i = 3; i < argc; i++) {
        const struct file file = file_read(argv[i]);
        scanner->list((unsigned)i - 3, file.bytes, file.size, argv[2]);
        free(file.bytes);
    }
    return 0;
}
