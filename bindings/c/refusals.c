/*
 * Makes each call that takes memory with the first block of memory refused, then the second, and so on, until none is: for
 * tests/bindings, which links it so that malloc and realloc go through the functions below. The text is standard input; if it
 * is accepted, its layout is the second text. Writes a line for each call, with its name, how many blocks were refused, and the
 * kind and number of the last answer, and then the layout. The status is 1 if an answer before the last is not out of memory,
 * or comes with a changed buffer.
 */
#include "cedar_formatter.h"

#include <stdio.h>
#include <stdlib.h>
#include <string.h>

#define ROOM 65536

void *__real_malloc(size_t size);
void *__real_realloc(void *block, size_t size);
void *__wrap_malloc(size_t size);
void *__wrap_realloc(void *block, size_t size);

/* How many blocks are given before one is refused; below 0, none is. */
static long left = -1;

static char text[ROOM], layout[ROOM], out[ROOM], before[ROOM];
static size_t len, layout_len;
static struct cedar_answer answer;

void *__wrap_malloc(size_t size) {
    return left-- == 0 ? NULL : __real_malloc(size);
}

void *__wrap_realloc(void *block, size_t size) {
    return left-- == 0 ? NULL : __real_realloc(block, size);
}

static void format(void) {
    cedar_format(text, len, 80, 2, out, ROOM, &answer);
}

static void is_formatted(void) {
    cedar_is_formatted(text, len, 80, 2, &answer);
}

static void same_layout(void) {
    cedar_same_layout(text, len, layout, layout_len, &answer);
}

/* Makes a call with each block refused in turn; returns whether all goes well. */
static int in_turn(const char *name, void (*call)(void)) {
    long refused = 0;
    for (;;) {
        memset(out, '#', ROOM);
        left = refused;
        call();
        if (left >= 0) {
            break;
        }
        left = -1;
        if (answer.kind != CEDAR_OUT_OF_MEMORY || answer.number != 0 || memcmp(out, before, ROOM)) {
            printf("%s, block %ld: kind %u\n", name, refused, (unsigned)answer.kind);
            return 0;
        }
        refused++;
    }
    left = -1;
    printf("%s %ld %u %zu\n", name, refused, (unsigned)answer.kind, answer.number);
    return 1;
}

int main(void) {
    len = fread(text, 1, ROOM, stdin);
    memset(before, '#', ROOM);
    if (!in_turn("format", format)) {
        return 1;
    }
    if (answer.kind == CEDAR_RESULT) {
        layout_len = answer.number;
        memcpy(layout, out, layout_len);
    }
    if (!in_turn("is_formatted", is_formatted) || !in_turn("same_layout", same_layout)) {
        return 1;
    }
    fwrite(layout, 1, layout_len, stdout);
    return 0;
}
