/* Loaded before a program by LD_PRELOAD: each read and write moves a byte at most. FAIL names a call that fails with
 * EIO: `read 3 7` is the seventh read of descriptor 3; with `+` behind it, all from the seventh on fail. When the
 * program ends, two numbers go to the file REPORT: how many calls failed, and how many reads came after the first. */
#define _GNU_SOURCE
#include <errno.h>
#include <fcntl.h>
#include <stdatomic.h>
#include <stdio.h>
#include <stdlib.h>
#include <string.h>
#include <sys/syscall.h>
#include <unistd.h>

static atomic_long matching, failed, later_reads;

/* Counts a call, and says whether it is to fail. */
static int fails(const char *kind, int descriptor)
{
    const char *which = getenv("FAIL");
    char chosen[8], sign = '\0';
    int on;
    long first;
    if (atomic_load(&failed) > 0 && strcmp(kind, "read") == 0)
        atomic_fetch_add(&later_reads, 1);
    if (which == NULL || sscanf(which, "%7s %d %ld%c", chosen, &on, &first, &sign) < 3)
        return 0;
    if (strcmp(chosen, kind) != 0 || on != descriptor)
        return 0;
    long number = atomic_fetch_add(&matching, 1) + 1;
    if (number != first && (number < first || sign != '+'))
        return 0;
    atomic_fetch_add(&failed, 1);
    errno = EIO;
    return 1;
}

ssize_t read(int descriptor, void *bytes, size_t size)
{
    return fails("read", descriptor) ? -1 : syscall(SYS_read, descriptor, bytes, size < 1 ? size : 1);
}

ssize_t write(int descriptor, const void *bytes, size_t size)
{
    return fails("write", descriptor) ? -1 : syscall(SYS_write, descriptor, bytes, size < 1 ? size : 1);
}

ssize_t __write(int descriptor, const void *bytes, size_t size)
{
    return write(descriptor, bytes, size);
}

__attribute__((destructor)) static void report(void)
{
    const char *name = getenv("REPORT");
    int file = name == NULL ? -1 : open(name, O_WRONLY | O_CREAT | O_TRUNC, 0666);
    if (file >= 0) {
        dprintf(file, "%ld %ld\n", atomic_load(&failed), atomic_load(&later_reads));
        close(file);
    }
}

/* A program that ends by this call runs no destructors. */
void _exit(int status)
{
    report();
    for (;;)
        syscall(SYS_exit_group, status);
}
