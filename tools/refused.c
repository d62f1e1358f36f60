/* Loaded into a program ahead of the C library, by LD_PRELOAD. Refuses one allocation, that of the number which the variable
   REFUSED gives, and writes to standard error at the end how many were asked for. */
#include <stdio.h>
#include <stdlib.h>

void *__libc_malloc(size_t size);
void *__libc_realloc(void *block, size_t size);

static long refused = 0;
static long asked = 0;

/* What is asked for before this does not count: the program has not begun. */
__attribute__((constructor)) static void begin(void) {
    const char *given = getenv("REFUSED");
    if (given) refused = atol(given);
    asked = 0;
}

__attribute__((destructor)) static void end(void) { fprintf(stderr, "allocations %ld\n", asked); }

void *malloc(size_t size) { return ++asked == refused ? NULL : __libc_malloc(size); }

void *realloc(void *block, size_t size) { return ++asked == refused ? NULL : __libc_realloc(block, size); }
