/* The library of lex: main and yywrap, for scanners whose program has none. Link with -ll or -lfl, or compile this file with the scanner.
 *
 * A program may have one of the two functions, so each is a member of its own in the library: LIBL_MAIN leaves out yywrap, and LIBL_YYWRAP leaves out main.
 * The file is ISO C99. */
int yylex(void);
int yywrap(void);

#ifndef LIBL_MAIN
/* No further file follows. */
int yywrap(void)
{
    return 1;
}
#endif

#ifndef LIBL_YYWRAP
/* Scans standard input to its end, whatever the actions return. */
int main(void)
{
    while (yylex() != 0)
        ;
    return 0;
}
#endif
