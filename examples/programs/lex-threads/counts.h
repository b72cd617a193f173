/* What a scanner finds in one file. */
#ifndef COUNTS_H
#define COUNTS_H

struct counts {
    unsigned long lines, code, comments, strings;
    int has_code, has_comment;
};

#endif
