/*
 * Formats the policies of standard input: `example [WIDTH [INDENT]]`. The status is 0 with the result on standard output,
 * and 1 if there is none, with `LINE:COLUMN: WHY` on standard error.
 */
#include "cedar_formatter.h"

#include <stdio.h>
#include <stdlib.h>

struct text {
    char *bytes;
    size_t len;
};

/* All of standard input; no bytes if it can't be read or memory runs out. */
static struct text read_all(void) {
    struct text text = {malloc(1), 0};
    size_t room = 1, count = 1;
    while (text.bytes && count > 0) {
        count = fread(text.bytes + text.len, 1, room - text.len, stdin);
        text.len += count;
        if (text.len == room) {
            char *grown = realloc(text.bytes, room * 2);
            if (!grown) {
                free(text.bytes);
            }
            text.bytes = grown;
            room *= 2;
        }
    }
    if (ferror(stdin)) {
        free(text.bytes);
        text.bytes = NULL;
    }
    return text;
}

/* The formatted text, in memory of its own; no bytes if there is no result. */
static struct text formatted(struct text text, size_t width, ptrdiff_t indent, struct cedar_answer *answer) {
    size_t room = 2 * text.len + 64;
    struct text out = {malloc(room), 0};
    answer->kind = CEDAR_OUT_OF_MEMORY;
    if (out.bytes) {
        cedar_format(text.bytes, text.len, width, indent, out.bytes, room, answer);
    }
    if (answer->kind == CEDAR_NO_ROOM) {
        free(out.bytes);
        room = answer->number;
        out.bytes = malloc(room);
        answer->kind = CEDAR_OUT_OF_MEMORY;
        if (out.bytes) {
            cedar_format(text.bytes, text.len, width, indent, out.bytes, room, answer);
        }
    }
    if (answer->kind == CEDAR_RESULT) {
        out.len = answer->number;
    } else {
        free(out.bytes);
        out.bytes = NULL;
    }
    return out;
}

/* Says why there is no result, and where, if it has a place. */
static void tell(struct text text, struct cedar_answer answer) {
    static const char *const why[] = {
        "",
        "unknown character",
        "unfinished string",
        "number too large",
        "not in the grammar",
        "nested too deeply",
        "failed to produce doc",
        "formatter changed the policies",
        "out of memory",
        "not UTF-8",
        "no room",
    };
    if (answer.kind <= CEDAR_TOO_DEEP) {
        struct cedar_place_answer place;
        cedar_place(text.bytes, text.len, answer.number, &place);
        fprintf(stderr, "%zu:%zu: ", place.line, place.column);
    }
    fprintf(stderr, "%s\n", why[answer.kind]);
}

int main(int count, char **words) {
    size_t width = count > 1 ? strtoul(words[1], NULL, 10) : 80;
    ptrdiff_t indent = count > 2 ? strtol(words[2], NULL, 10) : 2;
    struct text text = read_all();
    struct cedar_answer answer;
    struct text out;
    if (!text.bytes) {
        fputs("cannot be read\n", stderr);
        return 1;
    }
    out = formatted(text, width, indent, &answer);
    if (out.bytes) {
        fwrite(out.bytes, 1, out.len, stdout);
    } else {
        tell(text, answer);
    }
    free(text.bytes);
    free(out.bytes);
    return answer.kind != CEDAR_RESULT;
}
