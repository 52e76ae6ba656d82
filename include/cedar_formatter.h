/*
 * The formatter for Cedar policies, for C and C++. `bindings/build` makes the libraries, bindings/out/libcedar_formatter.a
 * and libcedar_formatter.so.
 *
 * A text is a pointer to its bytes, in UTF-8, and their number; it needs no zero byte at its end. Each call answers through
 * its last parameter. What it answers is proved: the contracts are in crates/cedar_c/src/lib.rt.
 *
 * What a caller has to ensure, and nothing checks:
 *
 * - `text`, `a` and `b` point to as many readable bytes as their lengths say, `out` to `room` writable ones, and each answer
 *   pointer to a whole struct. Only the pointer of no bytes may be null: `text`, `a` or `b` with length 0, and `out` with
 *   `room` 0. No length is above PTRDIFF_MAX.
 * - What a call writes to (`out`, the answer) overlaps nothing else that is passed to it. Texts may overlap each other.
 * - While a call runs, no other thread writes what it reads, or reads or writes what it writes. Calls on separate memory
 *   may run at the same time; nothing is kept from one call to the next.
 * - No call is made from a signal handler, or in the forked child of a process with threads.
 * - malloc, realloc and free belong to one allocator, and align a block of N bytes to each power of two up to 16 that divides N.
 * - The stack has 1 MiB left, for a text of 128 nested brackets; with less, the process may end by SIGSEGV. (A thread's stack
 *   may be smaller than the process's.)
 */
#ifndef CEDAR_FORMATTER_H
#define CEDAR_FORMATTER_H

#include <stddef.h>
#include <stdint.h>

#ifdef __cplusplus
extern "C" {
#endif

/* The kinds of answers. The numbers do not change. */
enum cedar_kind {
    CEDAR_RESULT = 0,            /* there is a result */
    CEDAR_UNKNOWN_CHARACTER = 1, /* no blank, comment or token begins at the byte */
    CEDAR_UNFINISHED_STRING = 2, /* the string that begins at the byte has no end */
    CEDAR_NUMBER_TOO_LARGE = 3,  /* the number that begins at the byte is above 18446744073709551615 */
    CEDAR_GRAMMAR = 4,           /* the token that begins at the byte isn't allowed there, or one is missing at the end */
    CEDAR_TOO_DEEP = 5,          /* the token that begins at the byte is nested more than 128 deep */
    CEDAR_NO_DOCUMENT = 6,       /* proved never to be answered */
    CEDAR_UNSOUND = 7,           /* proved never to be answered */
    CEDAR_OUT_OF_MEMORY = 8,     /* memory was refused */
    CEDAR_NOT_UTF8 = 9,          /* the bytes aren't UTF-8 */
    CEDAR_NO_ROOM = 10           /* the result is longer than `room` */
};

/* What a call answers. */
struct cedar_answer {
    uint32_t kind; /* of enum cedar_kind */
    /*
     * With CEDAR_RESULT the result: a length in bytes, or 1 for yes and 0 for no. With CEDAR_NO_ROOM the length needed,
     * in bytes. With kinds 1 to 5 the byte, counted from 0. Otherwise 0.
     */
    size_t number;
};

/*
 * Lays out the policies `text`, at `width` columns per line (80 is usual) and `indent` columns per level (2 is usual; a
 * negative number moves to the left), and writes the result to the start of `out`, with no zero byte at its end.
 *
 * CEDAR_RESULT: the number is the length of the result; the rest of `out` is unchanged.
 * CEDAR_NO_ROOM: the number is the length of the result, which is above `room`. So a null `out` with a `room` of 0 asks for it.
 * With every kind except CEDAR_RESULT `out` is unchanged. CEDAR_NO_DOCUMENT and CEDAR_UNSOUND never occur; every other kind
 * can.
 */
void cedar_format(const char *text, size_t len, size_t width, ptrdiff_t indent, char *out, size_t room,
                  struct cedar_answer *answer);

/*
 * Whether `text` is as cedar_format lays it out at this width and indentation. A text that isn't accepted is answered as
 * there; CEDAR_NO_ROOM never occurs.
 */
void cedar_is_formatted(const char *text, size_t len, size_t width, ptrdiff_t indent, struct cedar_answer *answer);

/*
 * Whether cedar_format lays out `a` and `b` as the same bytes. The answer is the same for every width and indentation: their
 * tokens and comments are the same, up to trailing commas and leading zeros of numbers. The answer is CEDAR_NOT_UTF8 if one
 * of them isn't UTF-8, else the refusal of `a`, else that of `b`; CEDAR_NO_ROOM never occurs.
 */
void cedar_same_layout(const char *a, size_t a_len, const char *b, size_t b_len, struct cedar_answer *answer);

/* The place of a byte in a text. */
struct cedar_place_answer {
    uint32_t kind; /* CEDAR_RESULT or CEDAR_NOT_UTF8 */
    size_t line;   /* from 1; 0 with CEDAR_NOT_UTF8 */
    size_t column; /* from 1, in characters; 0 with CEDAR_NOT_UTF8 */
};

/*
 * The line and the column of the byte `at` of `text`, counted from 0. Only a line feed ends a line. A byte inside a
 * character has the place of that character, and one past the end has the place of the end.
 */
void cedar_place(const char *text, size_t len, size_t at, struct cedar_place_answer *place);

/*
 * A fault of a text. All bytes are counted from 0, in the whole text; without a fault they are 0, and so is the length. Only the
 * end of the text, a `;` or a closing bracket of another kind leaves a bracket open.
 */
struct cedar_fault_answer {
    uint32_t kind; /* 1 to 5 for a fault; CEDAR_RESULT if none is left; CEDAR_OUT_OF_MEMORY or CEDAR_NOT_UTF8 */
    size_t at;     /* the byte of the fault: the first at which no accepted text continues; `len` if something is missing at the end */
    size_t start;  /* the first of the bytes that it is about: those of a token, say; the last token's end if something is missing */
    size_t end;    /* the byte after the last of them */
    size_t unclosed_start; /* the byte of the innermost bracket of the policy that it leaves open; 0 if there is none */
    size_t unclosed_end;   /* the byte after that bracket; 0 if there is none */
    size_t next;           /* the byte from which to search for the next fault */
    size_t length;         /* the length of the message in bytes, whether there was room for it or not */
};

/*
 * The first fault of `text` from the byte `from` on. Begin with 0, and go on with `next` of each answer while its kind is 1 to 5:
 * these are all faults of the text, for each policy that isn't accepted the first. An accepted text has none. A text that isn't
 * Cedar at all can have one for each semicolon, and each call takes time in proportion to the text: set a limit.
 *
 * A message for people, in UTF-8, is written to the start of `out`, with no zero byte at its end, if there is room for all of it:
 * `expected an operand, found ')'`, say. 500 bytes suffice for nearly all. Otherwise `out` is unchanged. CEDAR_NOT_UTF8: the bytes
 * from `from` on aren't UTF-8.
 */
void cedar_next_fault(const char *text, size_t len, size_t from, char *out, size_t room, struct cedar_fault_answer *fault);

/*
 * Writes the version of the library to the start of `out`, with no zero byte at its end: "noblesilk 1.0.0, proved with KIT",
 * or "noblesilk 1.0.0, not proved, built with KIT". The answer is CEDAR_RESULT or CEDAR_NO_ROOM, as for cedar_format.
 */
void cedar_version(char *out, size_t room, struct cedar_answer *answer);

#ifdef __cplusplus
}
#endif

#endif
