/* Counts the allocations of a program that it is loaded before, and writes their number at its end. */
#define _GNU_SOURCE
#include <dlfcn.h>
#include <stdio.h>
#include <stdlib.h>
#include <sys/syscall.h>
#include <unistd.h>

static _Atomic unsigned long taken;

void *malloc(size_t size)
{
    static void *(*next)(size_t);
    if (!next)
        next = (void *(*)(size_t))dlsym(RTLD_NEXT, "malloc");
    taken++;
    return next(size);
}

void *realloc(void *old, size_t size)
{
    static void *(*next)(void *, size_t);
    if (!next)
        next = (void *(*)(void *, size_t))dlsym(RTLD_NEXT, "realloc");
    taken++;
    return next(old, size);
}

__attribute__((destructor)) static void tell(void)
{
    fprintf(stderr, "%lu\n", taken);
}

/* A program that may start threads ends by this call, and no destructor runs then. */
void _exit(int status)
{
    tell();
    for (;;)
        syscall(SYS_exit_group, status);
}
