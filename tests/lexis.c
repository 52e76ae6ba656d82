#include "lexis.h"

#include "cedar_formatter.h"

#include <stdio.h>
#include <stdlib.h>
#include <string.h>

void *block(void *old, size_t size) {
    void *made = realloc(old, size ? size : 1);
    if (!made) {
        fputs("hostile: out of memory\n", stderr);
        exit(2);
    }
    return made;
}

static size_t least(size_t a, size_t b) {
    return a < b ? a : b;
}

/* ---- bytes and characters */

/* The blanks beyond ASCII. */
static const char *const BLANKS[] = {
    "\xc2\x85", "\xc2\xa0", "\xe1\x9a\x80", "\xe2\x80\x80", "\xe2\x80\x81", "\xe2\x80\x82",
    "\xe2\x80\x83", "\xe2\x80\x84", "\xe2\x80\x85", "\xe2\x80\x86", "\xe2\x80\x87", "\xe2\x80\x88", "\xe2\x80\x89", "\xe2\x80\x8a",
    "\xe2\x80\xa8", "\xe2\x80\xa9", "\xe2\x80\xaf", "\xe2\x81\x9f", "\xe3\x80\x80",
};

static const char *const SIGNS[] = {
    "?principal", "?resource", "::", "==", "!=", "<=", ">=", "||", "&&", "@", ".", ",", ";", ":", "(", ")",
    "{", "}", "[", "]", "<", ">", "+", "-", "*", "/", "%", "!",
};

#define COUNT(list) (sizeof(list) / sizeof(*(list)))

/* The size of the first of these words that the bytes begin with, or 0. */
static size_t word_at(const char *const *words, size_t count, const char *at, size_t left) {
    for (size_t i = 0; i < count; i++) {
        size_t size = strlen(words[i]);
        if (size <= left && !memcmp(words[i], at, size)) {
            return size;
        }
    }
    return 0;
}

static size_t blank_at(const char *at, size_t left) {
    if ((unsigned char)*at < 0x80) {
        return *at == ' ' || ('\t' <= *at && *at <= '\r');
    }
    return word_at(BLANKS, COUNT(BLANKS), at, left);
}

/* The size of the blank that ends right before `end`, not before `begin`; 0 if none does. */
static size_t blank_before(const char *begin, const char *end) {
    for (size_t size = 1; size <= least(3, (size_t)(end - begin)); size++) {
        if (blank_at(end - size, size) == size) {
            return size;
        }
    }
    return 0;
}

/* The part without the blanks at its ends. */
static struct part trimmed(const char *begin, const char *end) {
    size_t size;
    while (begin < end && (size = blank_at(begin, (size_t)(end - begin)))) {
        begin += size;
    }
    while (begin < end && (size = blank_before(begin, end))) {
        end -= size;
    }
    return (struct part){begin, (size_t)(end - begin)};
}

/* The bytes of the character that begins here, or 0 if that isn't UTF-8. */
static size_t character_at(const unsigned char *at, size_t left) {
    unsigned char first = *at;
    /* the least and the greatest second byte of what begins with this byte */
    unsigned char low = first == 0xe0 ? 0xa0 : first == 0xf0 ? 0x90 : 0x80;
    unsigned char high = first == 0xed ? 0x9f : first == 0xf4 ? 0x8f : 0xbf;
    size_t size = first < 0x80 ? 1 : first < 0xc2 ? 0 : first < 0xe0 ? 2 : first < 0xf0 ? 3 : first < 0xf5 ? 4 : 0;
    if (size > left || (size > 1 && (at[1] < low || at[1] > high))) {
        return 0;
    }
    for (size_t i = 2; i < size; i++) {
        if (at[i] < 0x80 || at[i] > 0xbf) {
            return 0;
        }
    }
    return size;
}

int is_utf8(const char *text, size_t size) {
    size_t at = 0, step = 1;
    while (at < size && step) {
        step = character_at((const unsigned char *)text + at, size - at);
        at += step;
    }
    return step != 0;
}

/* ---- tokens */

static int is_digit(char c) {
    return '0' <= c && c <= '9';
}

static int is_letter(char c) {
    return ('a' <= c && c <= 'z') || ('A' <= c && c <= 'Z') || c == '_';
}

/* The size of the string that begins here, or 0 if it has no end. */
static size_t string_at(const char *at, size_t left) {
    for (size_t i = 1; i < left; i++) {
        if (at[i] == '"') {
            return i + 1;
        }
        if (at[i] == '\\' && (++i == left || at[i] == '\n')) {
            return 0;
        }
    }
    return 0;
}

/* The size of the token that begins here, or 0. */
static size_t token_at(const char *at, size_t left) {
    size_t size = 0;
    if (*at == '"') {
        return string_at(at, left);
    }
    while (size < left && (is_digit(at[size]) || (is_letter(*at) && is_letter(at[size])))) {
        size++;
    }
    return size ? size : word_at(SIGNS, COUNT(SIGNS), at, left);
}

/* The digits of a number without leading zeros; any other token as it is. */
static struct part value_of(struct part text) {
    while (text.size > 1 && *text.at == '0') {
        text.at++;
        text.size--;
    }
    return text;
}

static int is_too_large(struct part text) {
    static const char greatest[] = "18446744073709551615";
    struct part value = value_of(text);
    size_t most = strlen(greatest);
    return is_digit(*value.at) && (value.size > most || (value.size == most && memcmp(value.at, greatest, most) > 0));
}

static int is_text(struct part part, const char *text) {
    return part.size == strlen(text) && !memcmp(part.at, text, part.size);
}

static int are_same(struct part a, struct part b) {
    return a.size == b.size && !memcmp(a.at, b.at, a.size);
}

/* ---- lists */

static struct token *add_token(struct list *list, const char *at) {
    if (list->count == list->room) {
        list->room = 2 * list->room + 64;
        list->tokens = block(list->tokens, list->room * sizeof *list->tokens);
    }
    list->tokens[list->count] = (struct token){{at, 0}, list->comment_count, 0, 0, {at, 0}};
    return &list->tokens[list->count++];
}

static void add_comment(struct list *list, struct part comment) {
    if (list->comment_count == list->comment_room) {
        list->comment_room = 2 * list->comment_room + 64;
        list->comments = block(list->comments, list->comment_room * sizeof *list->comments);
    }
    list->comments[list->comment_count++] = comment;
}

/* Reads blanks and comments, up to what is neither, and adds the comments. With `stop` it ends at the first line feed. */
static const char *read_gap(struct list *list, const char *at, const char *end, int stop) {
    while (at < end && !(stop && *at == '\n')) {
        size_t blank = blank_at(at, (size_t)(end - at));
        if (!blank && !(end - at > 1 && at[0] == '/' && at[1] == '/')) {
            break;
        }
        const char *begin = at;
        at += blank;
        while (!blank && at < end && *at != '\n' && *at != '\r') {
            at++;
        }
        if (!blank) {
            add_comment(list, trimmed(begin, at));
        }
    }
    return at;
}

static void refuse(struct list *list, unsigned kind, size_t fault) {
    list->kind = kind;
    list->fault = fault;
}

void read_list(struct list *list, const char *text, size_t size) {
    const char *at = text, *end = text + size, *begin;
    const struct token *large = NULL;
    refuse(list, CEDAR_RESULT, 0);
    list->count = list->comment_count = 0;
    if (!is_utf8(text, size)) {
        refuse(list, CEDAR_NOT_UTF8, 0);
        return;
    }
    for (;;) {
        size_t token_index = list->count, first = list->comment_count;
        at = read_gap(list, at, end, 0);
        struct token *token = add_token(list, at);
        token->first = first;
        token->leading = list->comment_count - first;
        if (at == end) {
            break;
        }
        token->text.size = token_at(at, (size_t)(end - at));
        if (!token->text.size) {
            refuse(list, *at == '"' ? CEDAR_UNFINISHED_STRING : CEDAR_UNKNOWN_CHARACTER, (size_t)(at - text));
            return;
        }
        begin = at + token->text.size;
        at = read_gap(list, begin, end, 1);
        token = &list->tokens[token_index];
        token->trailing = list->comment_count - first - token->leading;
        token->trailing_text = trimmed(begin, at);
    }
    for (size_t i = list->count; i-- > 0;) {
        large = list->tokens[i].text.size && is_too_large(list->tokens[i].text) ? &list->tokens[i] : large;
    }
    if (large) {
        refuse(list, CEDAR_NUMBER_TOO_LARGE, (size_t)(large->text.at - text));
    }
}

/* Whether the token at the index is a trailing comma. */
static int is_trailing_comma(const struct list *list, size_t at) {
    static const char *const closing[] = {")", "]", "}"};
    if (at + 1 >= list->count || !is_text(list->tokens[at].text, ",")) {
        return 0;
    }
    return word_at(closing, COUNT(closing), list->tokens[at + 1].text.at, list->tokens[at + 1].text.size) != 0;
}

void drop_commas(struct list *list) {
    size_t kept = 0;
    for (size_t i = 0; i < list->count; i++) {
        const struct token *comma = &list->tokens[i];
        struct token *before = kept ? &list->tokens[kept - 1] : NULL, *next = &list->tokens[i + 1];
        if (!is_trailing_comma(list, i)) {
            list->tokens[kept++] = *comma;
        } else if (before && !before->trailing_text.size && !comma->leading) {
            before->trailing_text = comma->trailing_text;
        } else {
            /* (the comments of neighbours stand in a row) */
            next->leading += comma->leading + comma->trailing;
            next->first = comma->first;
        }
    }
    list->count = kept;
}

int is_plain(const struct list *list) {
    for (size_t i = 0; i < list->count; i++) {
        struct part text = list->tokens[i].text;
        if (is_trailing_comma(list, i) || (text.size > 1 && *text.at == '0')) {
            return 0;
        }
    }
    return 1;
}

static int are_equal_tokens(const struct list *a, const struct token *x, const struct list *b, const struct token *y) {
    if (!are_same(value_of(x->text), value_of(y->text)) || !are_same(x->trailing_text, y->trailing_text) || x->leading != y->leading) {
        return 0;
    }
    for (size_t i = 0; i < x->leading; i++) {
        if (!are_same(a->comments[x->first + i], b->comments[y->first + i])) {
            return 0;
        }
    }
    return 1;
}

int are_equal(const struct list *a, const struct list *b) {
    if (a->count != b->count) {
        return 0;
    }
    for (size_t i = 0; i < a->count; i++) {
        if (!are_equal_tokens(a, &a->tokens[i], b, &b->tokens[i])) {
            return 0;
        }
    }
    return 1;
}

int begins_token(const struct list *list, const char *text, size_t byte) {
    for (size_t i = 0; i < list->count; i++) {
        if (list->tokens[i].text.at == text + byte) {
            return 1;
        }
    }
    return 0;
}
