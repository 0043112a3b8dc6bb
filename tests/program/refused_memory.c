/* Loaded into a program before its own libraries, this refuses one allocation: call number REFUSE of malloc, calloc and realloc since the program's start, counted
   together. At that call it makes the file that REFUSED names. At the program's end it writes the number of calls to the file that COUNTED names. */
#include <errno.h>
#include <fcntl.h>
#include <stddef.h>
#include <stdio.h>
#include <stdlib.h>
#include <unistd.h>

extern void *__libc_malloc(size_t size);
extern void *__libc_calloc(size_t count, size_t size);
extern void *__libc_realloc(void *at, size_t size);

/* The number of the refused call, 0 before the start and if none is refused; and how many calls there were. */
static unsigned long refused;
static unsigned long count;
static const char *mark;

__attribute__((constructor)) static void start(void)
{
    const char *number = getenv("REFUSE");
    mark = getenv("REFUSED");
    count = 0;
    refused = number ? strtoul(number, NULL, 10) : 0;
}

__attribute__((destructor)) static void end(void)
{
    const char *name = getenv("COUNTED");
    if (name) {
        int file = open(name, O_CREAT | O_TRUNC | O_WRONLY, 0600);
        if (file >= 0) {
            dprintf(file, "%lu\n", count);
            close(file);
        }
    }
}

static int is_refused(void)
{
    if (++count != refused)
        return 0;
    if (mark) {
        int file = open(mark, O_CREAT | O_WRONLY, 0600);
        if (file >= 0)
            close(file);
    }
    errno = ENOMEM;
    return 1;
}

void *malloc(size_t size)
{
    return is_refused() ? NULL : __libc_malloc(size);
}

void *calloc(size_t count, size_t size)
{
    return is_refused() ? NULL : __libc_calloc(count, size);
}

void *realloc(void *at, size_t size)
{
    return is_refused() ? NULL : __libc_realloc(at, size);
}
