/*
 * Makes the calls that standard input describes, for tests/bindings: each is a line
 *
 *     NAME WIDTH INDENT ROOM LEN OTHER
 *
 * and then the LEN bytes of a text and the OTHER bytes of a second one; a call of `place` has the byte as its width. Writes a
 * line KIND NUMBER COLUMN, and then all ROOM bytes of the buffer, which held '#' before the call. Each text and the buffer are
 * blocks of exactly their sizes, so that a memory checker sees every access beyond them. With the word `null`, those of no
 * bytes are null pointers.
 */
#include "cedar_formatter.h"

#include <stdio.h>
#include <stdlib.h>
#include <string.h>

/* Whether a block of no bytes is a null pointer. */
static int null;

/* A block of this many bytes. */
static char *block(size_t size) {
    char *bytes = null && size == 0 ? NULL : malloc(size);
    if (!bytes && !(null && size == 0)) {
        fputs("calls: out of memory\n", stderr);
        exit(2);
    }
    return bytes;
}

/* The next bytes of standard input, as many as given. */
static char *next(size_t size) {
    char *bytes = block(size);
    if (bytes && fread(bytes, 1, size, stdin) != size) {
        fputs("calls: a text ends early\n", stderr);
        exit(2);
    }
    return bytes;
}

int main(int count, char **words) {
    char name[16];
    size_t width, room, len, other;
    ptrdiff_t indent;
    null = count > 1 && !strcmp(words[1], "null");
    while (scanf("%15s %zu %td %zu %zu %zu", name, &width, &indent, &room, &len, &other) == 6) {
        char *line_feed = next(1), *text = next(len), *second = next(other), *out = block(room);
        /* (numbers that no call answers) */
        struct cedar_answer answer = {99, 99};
        struct cedar_place_answer place = {99, 99, 0};
        if (out) {
            memset(out, '#', room);
        }
        if (!strcmp(name, "format")) {
            cedar_format(text, len, width, indent, out, room, &answer);
        } else if (!strcmp(name, "is_formatted")) {
            cedar_is_formatted(text, len, width, indent, &answer);
        } else if (!strcmp(name, "same_layout")) {
            cedar_same_layout(text, len, second, other, &answer);
        } else if (!strcmp(name, "place")) {
            cedar_place(text, len, width, &place);
            answer.kind = place.kind;
            answer.number = place.line;
        } else if (!strcmp(name, "version")) {
            cedar_version(out, room, &answer);
        }
        printf("%u %zu %zu\n", (unsigned)answer.kind, answer.number, place.column);
        if (out) {
            fwrite(out, 1, room, stdout);
        }
        free(line_feed);
        free(text);
        free(second);
        free(out);
    }
    return 0;
}
