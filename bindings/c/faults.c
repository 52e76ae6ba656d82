/*
 * Prints all faults of the policies of standard input, at most a hundred: a line LINE:COLUMN: MESSAGE for each, with columns in
 * characters, and a second one for a bracket that it leaves open. The status is 1 if there are any, or if the text can't be read.
 */
#include "cedar_formatter.h"

#include <stdio.h>

#define MOST 100

static char text[1 << 20];

int main(void) {
    size_t len = fread(text, 1, sizeof text, stdin), from = 0, count;
    if (ferror(stdin) || !feof(stdin)) {
        fputs("cannot be read, or has more than a megabyte\n", stderr);
        return 1;
    }
    for (count = 0; count < MOST; count++) {
        char message[1000];
        struct cedar_fault_answer fault;
        struct cedar_place_answer place;
        cedar_next_fault(text, len, from, message, sizeof message, &fault);
        if (fault.kind == CEDAR_OUT_OF_MEMORY || fault.kind == CEDAR_NOT_UTF8) {
            fputs(fault.kind == CEDAR_NOT_UTF8 ? "not UTF-8\n" : "out of memory\n", stderr);
            return 1;
        }
        if (fault.kind == CEDAR_RESULT) {
            break;
        }
        /* (what is missing at the end is missing after the last token) */
        cedar_place(text, len, fault.at < len ? fault.start : fault.end, &place);
        printf("%zu:%zu: %.*s\n", place.line, place.column, fault.length <= sizeof message ? (int)fault.length : 0, message);
        if (fault.unclosed_end > 0) {
            cedar_place(text, len, fault.unclosed_start, &place);
            printf("%zu:%zu: this '%c' is not closed\n", place.line, place.column, text[fault.unclosed_start]);
        }
        from = fault.next;
    }
    return count > 0;
}
