/* A calculator: reads a line, and prints its value or where it is wrong. */
#define calc__API static inline
#include "scanner.c"
#include <setjmp.h>
#include <stdio.h>
#include <stdlib.h>
#include <string.h>

static calc_scanner scanner;
static calc_token token;
static jmp_buf refused;

static void refuse(void)
{
    printf("column %lu: ", (unsigned long)calc_column(&scanner, &token));
    if (token.kind == calc_END) puts("the line ends too early");
    else printf("%.*s isn't due\n", (int)token.length, token.text);
    longjmp(refused, 1);
}

static double sum(void);

static double factor(void)
{
    double value = 0;
    switch (token.kind) {
    case '-':
        calc_next(&scanner, &token);
        return -factor();
    case '(':
        calc_next(&scanner, &token);
        value = sum();
        if (token.kind != ')') refuse();
        break;
    case CALC_NUMBER:
        value = strtod(token.text, NULL);
        break;
    default:
        refuse();
    }
    calc_next(&scanner, &token);
    return value;
}

static double product(void)
{
    double value = factor();
    while (token.kind == '*' || token.kind == '/') {
        const int is_times = token.kind == '*';
        calc_next(&scanner, &token);
        value = is_times ? value * factor() : value / factor();
    }
    return value;
}

static double sum(void)
{
    double value = product();
    while (token.kind == '+' || token.kind == '-') {
        const int is_plus = token.kind == '+';
        calc_next(&scanner, &token);
        value = is_plus ? value + product() : value - product();
    }
    return value;
}

static void calculate(char *line)
{
    line[strcspn(line, "\n")] = 0;
    calc_init(&scanner, line, strlen(line));
    calc_next(&scanner, &token);
    if (token.kind == calc_END || setjmp(refused)) return;
    const double value = sum();
    if (token.kind != calc_END) refuse();
    printf("%.10g\n", value);
}

int main(void)
{
    static char line[10000];
    while (fgets(line, sizeof line, stdin)) calculate(line);
    return 0;
}
