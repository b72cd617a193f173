/* What listing.h wants of a scanner, by drivers/lx.h: tables that are read at run time, and no call that fills many tokens. */
#include "../../drivers/lx.h"
static lx_tables tables;
#define WITHOUT_FILL
#define P(name) lx_##name
#define INIT(s, text, size) lx_init(s, &tables, text, size)
#define INIT_PART(s, text, size) lx_init_part(s, &tables, text, size)
#define COLUMN(s, t) lx_column(s, t)
#define NAME(kind) lx_name(&tables, kind)
