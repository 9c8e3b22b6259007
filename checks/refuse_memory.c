/* Preloaded into a program: its N-th call for memory finds none, counted from 1, N in REFUSE_MEMORY. Every other call finds some.
   At the program's end the number of its calls goes into the file COUNT_MEMORY, where one is named. */
#define _GNU_SOURCE
#include <dlfcn.h>
#include <errno.h>
#include <stdio.h>
#include <stdlib.h>
#include <sys/syscall.h>
#include <unistd.h>

static unsigned long calls;

static int refused(void)
{
    const char *word = getenv("REFUSE_MEMORY");
    calls += 1;
    if (word == NULL || calls != strtoul(word, NULL, 10)) {
        return 0;
    }
    errno = ENOMEM;
    return 1;
}

void *malloc(size_t size)
{
    static void *(*next)(size_t);
    if (next == NULL) {
        next = (void *(*)(size_t))dlsym(RTLD_NEXT, "malloc");
    }
    return refused() ? NULL : next(size);
}

void *realloc(void *old, size_t size)
{
    static void *(*next)(void *, size_t);
    if (next == NULL) {
        next = (void *(*)(void *, size_t))dlsym(RTLD_NEXT, "realloc");
    }
    return refused() ? NULL : next(old, size);
}

__attribute__((destructor)) static void tell(void)
{
    unsigned long counted = calls;
    const char *name = getenv("COUNT_MEMORY");
    FILE *file = name == NULL ? NULL : fopen(name, "w");
    if (file != NULL) {
        fprintf(file, "%lu\n", counted);
        fclose(file);
    }
}

/* A program that ends by this runs no destructor. */
void _exit(int status)
{
    tell();
    syscall(SYS_exit_group, status);
    __builtin_unreachable();
}
