/*
 * Refuses one block of memory of a program that it is preloaded into: the one with the number REFUSED of the environment,
 * counted from 1. It reports this by one byte, written to the descriptor TOLD. For ./fail-alloc and tests/memory; it needs the
 * GNU C library.
 */
#include <stddef.h>
#include <stdlib.h>
#include <unistd.h>

void *__libc_malloc(size_t size);
void *__libc_realloc(void *block, size_t size);

/* How many blocks are left up to and including the refused one; 0: none is refused any longer. */
static long left;

static int told;

__attribute__((constructor)) static void begin(void) {
    const char *number = getenv("REFUSED"), *descriptor = getenv("TOLD");
    if (number && descriptor) {
        told = atoi(descriptor);
        left = atol(number);
    }
}

static int is_refused(void) {
    return left > 0 && --left == 0 && write(told, "", 1) == 1;
}

void *malloc(size_t size) {
    return is_refused() ? NULL : __libc_malloc(size);
}

void *realloc(void *block, size_t size) {
    return is_refused() ? NULL : __libc_realloc(block, size);
}
