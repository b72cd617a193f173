/* count_by_header TABLES FILE: by drivers/lx.h. */
#include "../drivers/lx.h"
static lx_tables tables;
#define P(name) lx_##name
#define INIT(s, text, size) lx_init(s, &tables, text, size)
#define BEGIN(path)                                                                                 \
    size_t length;                                                                                  \
    lx_error error;                                                                                 \
    const char *const told = read_file(path, &length);                                              \
    if (!lx_tables_read(&tables, malloc(lx_tables_size(told, length, &error)), told, length, &error)) return 1;
#include "count.h"
