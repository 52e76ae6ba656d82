/*
 * A reader of the lexis of Cedar policies that shares nothing with the library: the tokens of a text, each with its comments,
 * by the rules of docs/STYLE.md. It is what tests/hostile judges outputs and refusals by.
 */
#ifndef LEXIS_H
#define LEXIS_H

#include <stddef.h>

/* A part of a text. */
struct part {
    const char *at;
    size_t size;
};

/* A token. The comments of its leading text and then those of its trailing text stand in a row of the list. */
struct token {
    struct part text;
    size_t first, leading, trailing;
    struct part trailing_text; /* without blanks at its ends */
};

/* What a text was read as. */
struct list {
    unsigned kind; /* of enum cedar_kind: the result, or why there is none */
    size_t fault;  /* with a refusal the byte, else 0 */
    struct token *tokens;
    size_t count; /* the last token is empty: its leading comments close the text */
    size_t room;
    struct part *comments;
    size_t comment_count, comment_room;
};

/* Reads a text into a list, which keeps parts of the text. What the list held before is gone. */
void read_list(struct list *list, const char *text, size_t size);

/* Whether the bytes are UTF-8. */
int is_utf8(const char *text, size_t size);

/* Takes out the trailing commas, whose comments go to their neighbours. */
void drop_commas(struct list *list);

/* Whether there is no trailing comma, and no zero before a number. */
int is_plain(const struct list *list);

/* Whether both have the same tokens, numbers by value, with the same comments. */
int are_equal(const struct list *a, const struct list *b);

/* Whether a token begins at the byte; the end of the text counts as one. */
int begins_token(const struct list *list, const char *text, size_t byte);

/* Memory for this many bytes, in the place of the old; ends the program if there is none. */
void *block(void *old, size_t size);

#endif
