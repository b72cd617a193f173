/* What the scanner, the grammar and the program of the calculator share. */
#ifndef CALCULATOR_H
#define CALCULATOR_H

enum { MOST_NAMES = 100, NAME_SIZE = 32 };

struct variable {
    char name[NAME_SIZE];
    double value;
};

struct calculator {
    struct variable variables[MOST_NAMES];
    int used, faults;
};

/* Returns the variable of this name, a new one with the value 0 if there is none, or NULL if there are too many. */
struct variable *find_variable(struct calculator *calculator, const char *name);

#endif
