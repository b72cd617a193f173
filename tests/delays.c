/* Delays threads at random places, so that they meet in orders that are rare otherwise. It is loaded before the C library, whose calls it stands in
 * for: malloc, calloc, realloc, aligned_alloc, posix_memalign, memalign and sched_yield. Before one call of 32, on average, the thread sleeps for up
 * to 300 microseconds; the environment's DELAYS_SEED says which, with the number of the thread. Where DELAYS_THREADS is a number, each thread starts a
 * fifth of a second late, and after so many threads none can be started. */
#define _GNU_SOURCE
#include <dlfcn.h>
#include <errno.h>
#include <pthread.h>
#include <stdatomic.h>
#include <stddef.h>
#include <stdint.h>
#include <stdlib.h>
#include <sys/syscall.h>
#include <time.h>
#include <unistd.h>

/* The C library's own, under the names that nothing stands in for. */
void *__libc_malloc(size_t size);
void *__libc_calloc(size_t count, size_t size);
void *__libc_realloc(void *block, size_t size);
void *__libc_memalign(size_t alignment, size_t size);

static uint64_t seed;
static atomic_uint threads;
static _Thread_local uint64_t state;

__attribute__((constructor)) static void begin(void)
{
    const char *text = getenv("DELAYS_SEED");
    seed = text == NULL ? 1 : strtoull(text, NULL, 10);
}

/* xorshift64* (Vigna 2016), with a state for each thread. */
static uint64_t drawn(void)
{
    if (state == 0)
        state = (seed + 1) * 0x9e3779b97f4a7c15u + ++threads;
    state ^= state >> 12;
    state ^= state << 25;
    state ^= state >> 27;
    return state * 0x2545f4914f6cdd1du;
}

static void delay(void)
{
    uint64_t number = drawn() >> 32;
    if (number % 32 != 0)
        return;
    int before = errno;
    struct timespec time = {0, (long)(number / 32 % 300000)};
    nanosleep(&time, NULL);
    errno = before;
}

void *malloc(size_t size)
{
    delay();
    return __libc_malloc(size);
}

void *calloc(size_t count, size_t size)
{
    delay();
    return __libc_calloc(count, size);
}

void *realloc(void *block, size_t size)
{
    delay();
    return __libc_realloc(block, size);
}

void *memalign(size_t alignment, size_t size)
{
    delay();
    return __libc_memalign(alignment, size);
}

void *aligned_alloc(size_t alignment, size_t size)
{
    return memalign(alignment, size);
}

int posix_memalign(void **block, size_t alignment, size_t size)
{
    if (alignment % sizeof(void *) != 0 || (alignment & (alignment - 1)) != 0 || alignment == 0)
        return EINVAL;
    int before = errno;
    void *found = memalign(alignment, size);
    errno = before;
    if (found == NULL)
        return ENOMEM;
    *block = found;
    return 0;
}

int pthread_create(pthread_t *thread, const pthread_attr_t *attributes, void *(*start)(void *), void *argument)
{
    static atomic_uint begun;
    const struct timespec late = {0, 200000000};
    const char *most = getenv("DELAYS_THREADS");
    int (*create)(pthread_t *, const pthread_attr_t *, void *(*)(void *), void *);
    if (most != NULL) {
        nanosleep(&late, NULL);
        if (++begun > (unsigned)strtoul(most, NULL, 10))
            return EAGAIN;
    }
    *(void **)&create = dlsym(RTLD_NEXT, "pthread_create");
    return create(thread, attributes, start, argument);
}

int sched_yield(void)
{
    delay();
    return (int)syscall(SYS_sched_yield);
}
