/* A calculator: prints the value of each line of standard input, or where it is wrong. */
#include "calculator.h"
#include "grammar.h"
#include "scanner.h"
#include <stdio.h>
#include <string.h>

struct variable *find_variable(struct calculator *calculator, const char *name)
{
    struct variable *variable = calculator->variables, *const end = variable + calculator->used;
    while (variable < end && strncmp(variable->name, name, NAME_SIZE - 1) != 0) variable++;
    if (variable < end) return variable;
    if (calculator->used == MOST_NAMES) return NULL;
    strncpy(variable->name, name, NAME_SIZE - 1);
    calculator->used++;
    return variable;
}

int main(void)
{
    static struct calculator calculator;
    yyscan_t scanner;
    int refused;
    if (yylex_init_extra(&calculator, &scanner) != 0) {
        perror("calculator");
        return 5;
    }
    yyset_in(stdin, scanner);
    refused = yyparse(scanner, &calculator);
    yylex_destroy(scanner);
    printf("%d names, %d faults\n", calculator.used, calculator.faults);
    return refused;
}
