/* Refuses one growth of memory, or all from one on: GROWTH tells which, counted from 1, and GROWTHS, a file, takes how
   many there were. Growths are counted from the first line on that the program has written to standard output, or with
   GROWTH_FROM_START all of them. Loaded before the C library (LD_PRELOAD). */
#define _GNU_SOURCE
#include <dlfcn.h>
#include <errno.h>
#include <stdio.h>
#include <stdlib.h>
#include <sys/uio.h>
#include <unistd.h>

static long made, wanted = -1;
static int all_from_there, counting;

__attribute__((constructor)) static void begin(void)
{
    counting = getenv("GROWTH_FROM_START") != NULL;
}

static int refused(void)
{
    if (!counting)
        return 0;
    made++;
    if (wanted < 0) {
        const char *word = getenv("GROWTH");
        wanted = word ? strtol(word, NULL, 10) : 0;
        all_from_there = getenv("GROWTH_ALL") != NULL;
    }
    if (wanted == 0 || made < wanted || (made > wanted && !all_from_there))
        return 0;
    errno = ENOMEM;
    return 1;
}

void *malloc(size_t size)
{
    static void *(*next)(size_t);
    if (!next)
        next = (void *(*)(size_t))dlsym(RTLD_NEXT, "malloc");
    return refused() ? NULL : next(size);
}

void *realloc(void *old, size_t size)
{
    static void *(*next)(void *, size_t);
    if (!next)
        next = (void *(*)(void *, size_t))dlsym(RTLD_NEXT, "realloc");
    return refused() ? NULL : next(old, size);
}

void *calloc(size_t count, size_t size)
{
    static void *(*next)(size_t, size_t);
    if (!next)
        next = (void *(*)(size_t, size_t))dlsym(RTLD_NEXT, "calloc");
    return refused() ? NULL : next(count, size);
}

void *aligned_alloc(size_t alignment, size_t size)
{
    static void *(*next)(size_t, size_t);
    if (!next)
        next = (void *(*)(size_t, size_t))dlsym(RTLD_NEXT, "aligned_alloc");
    return refused() ? NULL : next(alignment, size);
}

/* The last byte of what was written tells whether a line has ended. */
static void count_after(int file, char last)
{
    if (file == STDOUT_FILENO && last == '\n')
        counting = 1;
}

ssize_t write(int file, const void *bytes, size_t size)
{
    static ssize_t (*next)(int, const void *, size_t);
    if (!next)
        next = (ssize_t (*)(int, const void *, size_t))dlsym(RTLD_NEXT, "write");
    ssize_t done = next(file, bytes, size);
    if (done > 0)
        count_after(file, ((const char *)bytes)[done - 1]);
    return done;
}

ssize_t writev(int file, const struct iovec *parts, int count)
{
    static ssize_t (*next)(int, const struct iovec *, int);
    if (!next)
        next = (ssize_t (*)(int, const struct iovec *, int))dlsym(RTLD_NEXT, "writev");
    ssize_t done = next(file, parts, count);
    if (done > 0 && count > 0 && parts[count - 1].iov_len > 0)
        count_after(file, ((const char *)parts[count - 1].iov_base)[parts[count - 1].iov_len - 1]);
    return done;
}

__attribute__((destructor)) static void tell(void)
{
    const char *name = getenv("GROWTHS");
    counting = 0;
    if (name) {
        FILE *file = fopen(name, "w");
        if (file) {
            fprintf(file, "%ld\n", made);
            fclose(file);
        }
    }
}
