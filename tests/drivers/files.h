/* A file in a block of memory of its exact size. */
#include <stdio.h>
#include <stdlib.h>

struct file {
    unsigned char *bytes;
    size_t size;
};

static struct file file_read(const char *path)
{
    struct file file = {NULL, 0};
    FILE *const from = fopen(path, "rb");
    if (!from || fseek(from, 0, SEEK_END) != 0) exit(3);
    file.size = (size_t)ftell(from);
    file.bytes = (unsigned char *)malloc(file.size ? file.size : 1);
    rewind(from);
    if (!file.bytes || fread(file.bytes, 1, file.size, from) != file.size) exit(3);
    fclose(from);
    return file;
}
