/* The grammar of the calculator: one statement a line. */
%code requires {
#include "calculator.h"
}
%code {
#include <stdio.h>

int yylex(YYSTYPE *value, YYLTYPE *place, void *scanner);
static void yyerror(const YYLTYPE *place, void *scanner, struct calculator *calculator, const char *message);
}

%define api.pure full
%define parse.error verbose
%locations
%param { void *scanner }
%parse-param { struct calculator *calculator }

%union {
    double number;
    struct variable *variable;
}
%token <number> NUMBER "number"
%token <variable> NAME "name"
%token UNKNOWN "unknown character" TOO_MANY "name too many" '\n' "end of line"
%type <number> sum

%left '-' '+'
%left '*' '/'
%precedence NEGATION

%%

lines: %empty | lines line;

line: '\n'
    | sum '\n' { printf("%.10g\n", $1); }
    | NAME '=' sum '\n' { $1->value = $3; }
    | error '\n' { yyerrok; };

sum: NUMBER
   | NAME { $$ = $1->value; }
   | sum '+' sum { $$ = $1 + $3; }
   | sum '-' sum { $$ = $1 - $3; }
   | sum '*' sum { $$ = $1 * $3; }
   | sum '/' sum {
         if ($3 == 0) {
             yyerror(&@3, scanner, calculator, "division by zero");
             YYERROR;
         }
         $$ = $1 / $3;
     }
   | '-' sum %prec NEGATION { $$ = -$2; }
   | '(' sum ')' { $$ = $2; };

%%

static void yyerror(const YYLTYPE *place, void *scanner, struct calculator *calculator, const char *message)
{
    (void)scanner;
    calculator->faults++;
    printf("%d:%d", place->first_line, place->first_column);
    if (place->last_column > place->first_column) printf("-%d", place->last_column);
    printf(": %s\n", message);
}
