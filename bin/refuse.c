/* Loaded before a program by LD_PRELOAD: refuses the allocation whose number, counted from 1, is in REFUSE, and if REFUSE_REST isn't
 * empty all after it too. If COUNT names a file, the number of allocations requested is written there when the program ends. */
#define _GNU_SOURCE
#include <dlfcn.h>
#include <errno.h>
#include <fcntl.h>
#include <stdatomic.h>
#include <stdio.h>
#include <stdlib.h>
#include <sys/syscall.h>
#include <unistd.h>

static atomic_long requested;

static int is_refused(void)
{
    long number = atomic_fetch_add(&requested, 1) + 1;
    const char *first = getenv("REFUSE");
    const char *rest = getenv("REFUSE_REST");
    if (first == NULL || number < atol(first))
        return 0;
    if (number > atol(first) && (rest == NULL || *rest == '\0'))
        return 0;
    errno = ENOMEM;
    return 1;
}

void *malloc(size_t size)
{
    static void *(*next)(size_t);
    if (next == NULL)
        next = (void *(*)(size_t))dlsym(RTLD_NEXT, "malloc");
    return is_refused() ? NULL : next(size);
}

void *realloc(void *block, size_t size)
{
    static void *(*next)(void *, size_t);
    if (next == NULL)
        next = (void *(*)(void *, size_t))dlsym(RTLD_NEXT, "realloc");
    return is_refused() ? NULL : next(block, size);
}

__attribute__((destructor)) static void report(void)
{
    const char *name = getenv("COUNT");
    int file = name == NULL ? -1 : open(name, O_WRONLY | O_CREAT | O_TRUNC, 0666);
    if (file >= 0) {
        dprintf(file, "%ld\n", atomic_load(&requested));
        close(file);
    }
}

/* A program that ends by this call runs no destructors. */
void _exit(int status)
{
    report();
    for (;;)
        syscall(SYS_exit_group, status);
}
