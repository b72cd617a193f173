/* Refuses requests for memory. It is loaded before the C library, whose calls it stands in for: malloc, calloc, realloc, aligned_alloc,
 * posix_memalign, memalign, valloc and pvalloc. The environment says which requests are refused, counted from 1 over all threads:
 *
 *     REFUSE_ONCE=N     the Nth alone
 *     REFUSE_FROM=N     the Nth and all behind it
 *     REFUSE_SIZE=N     the first of N bytes and all behind it
 *     REFUSE_MARK=PATH  a file that is made at the first refusal
 *     REFUSE_TOLD=PATH  a file that has, once the program has ended by exit or _exit, the number of requests and that of those refused
 *
 * What was handed out before stays usable, and free is the C library's own. */
#define _GNU_SOURCE
#include <errno.h>
#include <fcntl.h>
#include <stdatomic.h>
#include <stdbool.h>
#include <stddef.h>
#include <stdlib.h>
#include <sys/syscall.h>
#include <unistd.h>

/* The C library's own, under the names that nothing stands in for. */
void *__libc_malloc(size_t size);
void *__libc_calloc(size_t count, size_t size);
void *__libc_realloc(void *block, size_t size);
void *__libc_memalign(size_t alignment, size_t size);

static unsigned long once, from, fatal_size;
static const char *mark, *told;
static atomic_bool watches, has_met_size;
static atomic_ulong requests, refusals;

static unsigned long number(const char *name)
{
    const char *text = getenv(name);
    return text == NULL ? 0 : strtoul(text, NULL, 10);
}

__attribute__((constructor)) static void begin(void)
{
    once = number("REFUSE_ONCE");
    from = number("REFUSE_FROM");
    fatal_size = number("REFUSE_SIZE");
    mark = getenv("REFUSE_MARK");
    told = getenv("REFUSE_TOLD");
    watches = true;
}

static void make(const char *path, const char *text, size_t length)
{
    int file = path == NULL ? -1 : open(path, O_WRONLY | O_CREAT | O_TRUNC, 0644);
    if (file < 0)
        return;
    if (write(file, text, length) != (ssize_t)length)
        abort();
    close(file);
}

/* Writes the digits of a number after `end`, and gives their beginning. */
static char *digits(char *end, unsigned long value)
{
    do
        *--end = '0' + value % 10;
    while ((value /= 10) != 0);
    return end;
}

__attribute__((destructor)) static void tell(void)
{
    char text[64], *end = text + sizeof text, *begin = end;
    *--begin = '\n';
    begin = digits(begin, refusals);
    *--begin = ' ';
    begin = digits(begin, requests);
    make(told, begin, (size_t)(end - begin));
}

/* A program with threads ends so, and runs no destructors. */
void _exit(int status)
{
    tell();
    for (;;)
        syscall(SYS_exit_group, status);
}

static bool is_refused(size_t size)
{
    if (!watches)
        return false;
    unsigned long this = atomic_fetch_add(&requests, 1) + 1;
    if (fatal_size != 0 && size == fatal_size)
        has_met_size = true;
    if (this != once && (from == 0 || this < from) && !has_met_size)
        return false;
    if (atomic_fetch_add(&refusals, 1) == 0)
        make(mark, "", 0);
    errno = ENOMEM;
    return true;
}

void *malloc(size_t size)
{
    return is_refused(size) ? NULL : __libc_malloc(size);
}

void *calloc(size_t count, size_t size)
{
    return is_refused(count * size) ? NULL : __libc_calloc(count, size);
}

void *realloc(void *block, size_t size)
{
    return is_refused(size) ? NULL : __libc_realloc(block, size);
}

void *memalign(size_t alignment, size_t size)
{
    return is_refused(size) ? NULL : __libc_memalign(alignment, size);
}

void *aligned_alloc(size_t alignment, size_t size)
{
    return memalign(alignment, size);
}

void *valloc(size_t size)
{
    return memalign((size_t)sysconf(_SC_PAGESIZE), size);
}

void *pvalloc(size_t size)
{
    size_t page = (size_t)sysconf(_SC_PAGESIZE);
    return memalign(page, (size + page - 1) / page * page);
}

int posix_memalign(void **block, size_t alignment, size_t size)
{
    if (alignment % sizeof(void *) != 0 || (alignment & (alignment - 1)) != 0 || alignment == 0)
        return EINVAL;
    int before = errno;
    void *found = memalign(alignment, size);
    errno = before;
    if (found == NULL)
        return ENOMEM;
    *block = found;
    return 0;
}
