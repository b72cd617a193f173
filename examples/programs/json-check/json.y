/* A grammar of JSON for bison, whose kinds are those of the scanner: json-check FILE.. says of each file how many values it has, or where it is wrong. */
%define parse.error verbose
%token STRING NUMBER BOOLEAN NOTHING UNKNOWN
%{
#include <stdio.h>
#include <stdlib.h>

static unsigned long values;

static int yylex(void);
static void yyerror(const char *message);
%}
%%
text: value;
value: plain { values++; } | '[' ']' { values++; } | '[' list ']' { values++; } | '{' '}' { values++; } | '{' members '}' { values++; };
plain: STRING | NUMBER | BOOLEAN | NOTHING;
list: value | list ',' value;
members: member | members ',' member;
member: STRING ':' value;
%%
#define json__API static inline
#include "scanner.c"

static json_scanner scanner;
static json_token token;

static int yylex(void)
{
    const int kind = json_next(&scanner, &token);
    return kind == json_END ? YYEOF : kind == json_ECHO ? UNKNOWN : kind;
}

static void yyerror(const char *message) { printf("%lu:%lu: %s\n", (unsigned long)token.line, (unsigned long)json_column(&scanner, &token), message); }

static char *read_file(const char *path, size_t *size)
{
    FILE *const file = fopen(path, "rb");
    char *text;
    if (!file || fseek(file, 0, SEEK_END) != 0) {
        perror(path);
        exit(3);
    }
    *size = (size_t)ftell(file);
    rewind(file);
    text = (char *)malloc(*size + 1);
    if (!text || fread(text, 1, *size, file) != *size) exit(3);
    fclose(file);
    return text;
}

int main(int argc, char **argv)
{
    size_t size;
    int i, refused = 0;
    for (i = 1; i < argc; i++) {
        char *const json = read_file(argv[i], &size);
        values = 0;
        json_init(&scanner, json, size);
        printf("%s: ", argv[i]);
        if (yyparse() == 0) printf("%lu values\n", values);
        else refused = 1;
        free(json);
    }
    return refused;
}
