/* Counts the lines of two C files at once: threads FILE FILE. Each thread has a scanner. */
#include "counts.h"
#include "lines.h"
#include <pthread.h>
#include <stdio.h>

enum { FILES = 2 };

struct task {
    const char *name;
    struct counts counts;
    int status;
};

static int scan(FILE *file, struct counts *counts)
{
    yyscan_t scanner;
    if (lineslex_init_extra(counts, &scanner) != 0) return 5;
    linesset_in(file, scanner);
    lineslex(scanner);
    lineslex_destroy(scanner);
    return 0;
}

static void *count(void *given)
{
    struct task *const task = (struct task *)given;
    FILE *const file = fopen(task->name, "rb");
    if (file) {
        task->status = scan(file, &task->counts);
        fclose(file);
    } else task->status = 3;
    return NULL;
}

int main(int argc, char **argv)
{
    static struct task tasks[FILES];
    pthread_t threads[FILES];
    int i, status = 0;
    if (argc != 1 + FILES) {
        fputs("use: threads FILE FILE\n", stderr);
        return 2;
    }
    for (i = 0; i < FILES; i++) {
        tasks[i].name = argv[1 + i];
        if (pthread_create(&threads[i], NULL, count, &tasks[i]) != 0) return 5;
    }
    for (i = 0; i < FILES; i++) {
        const struct counts *const counts = &tasks[i].counts;
        pthread_join(threads[i], NULL);
        if (tasks[i].status != 0) {
            fprintf(stderr, "%s isn't counted\n", tasks[i].name);
            status = tasks[i].status;
        } else {
            printf("%s: %lu lines, %lu with code, %lu with comments, %lu strings\n", tasks[i].name, counts->lines, counts->code, counts->comments, counts->strings);
        }
    }
    return status;
}
