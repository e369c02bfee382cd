// Makes the Nth allocation of a program fail, N being the environment's FAIL_AT; 0 or none fails no
// one. At its end the number of allocations is written to the file that ALLOCATIONS names.
// Built and loaded by fail_each_allocation.py.
#include <errno.h>
#include <stddef.h>
#include <stdio.h>
#include <stdlib.h>

extern void *__libc_malloc(size_t size);
extern void *__libc_realloc(void *block, size_t size);

static long counted = 0;
static long failing = -1;

static int is_failing(void) {
    if (failing < 0) {
        const char *text = getenv("FAIL_AT");
        failing = text ? atol(text) : 0;
    }
    counted += 1;
    return counted == failing;
}

static void *refuse(void) {
    errno = ENOMEM;
    return NULL;
}

void *malloc(size_t size) {
    return is_failing() ? refuse() : __libc_malloc(size);
}

void *realloc(void *block, size_t size) {
    return is_failing() ? refuse() : __libc_realloc(block, size);
}

__attribute__((destructor)) static void tell(void) {
    long total = counted;
    const char *path = getenv("ALLOCATIONS");
    failing = 0;
    FILE *file = path ? fopen(path, "w") : NULL;
    if (file) {
        fprintf(file, "%ld\n", total);
        fclose(file);
    }
}
