/*
 * Formats texts with the library for C and checks each answer, for tests/hostile. Standard input has a row of orders, each a line
 *
 *     NAME NUMBER NUMBER LEN OTHER
 *
 * and then the LEN bytes of a text and the OTHER bytes of a second one:
 *
 * - `check WIDTH INDENT` checks all that is promised of a text;
 * - `equal WIDTH INDENT` also demands that the second text is its layout;
 * - `refused KIND BYTE` also demands this refusal;
 * - `exchange WIDEST INDENT` also demands, at each width up to WIDEST, that the layouts differ in nothing else if a word of the text
 *   becomes another as wide; the second text has both words, with a line feed between;
 * - `random SECONDS SEED` checks texts that are made by changing those before, for so long.
 *
 * A wrong answer is printed as FAILED with the reason and the text. One text of a thousand is printed with its answer, if it is
 * short, to be compared with what the definitions say. Ends after 20 wrong answers, or as many as the first word says. The last line
 * is 'N passed, M failed'.
 */
#include "cedar_formatter.h"
#include "lexis.h"

#include <stdint.h>
#include <stdio.h>
#include <stdlib.h>
#include <string.h>
#include <time.h>

enum { LONGEST = 4000, SAMPLED = 400, EACH_SAMPLE = 1000 };

struct text {
    char *at;
    size_t size;
};

struct layout {
    size_t width;
    ptrdiff_t indent;
};

/* An answer of cedar_format, with the layout. */
struct result {
    struct cedar_answer answer;
    struct text out;
    size_t room;
};

static size_t passed, failed, most_failed = 20;

static struct text *corpus;

static size_t corpus_count;

/* ---- random numbers */

static uint64_t state = 1;

/* (xorshift64*) */
static uint64_t next_random(void) {
    state ^= state >> 12;
    state ^= state << 25;
    state ^= state >> 27;
    return state * 2685821657736338717u;
}

static size_t below(size_t limit) {
    return (size_t)((next_random() >> 16) % limit);
}

#define PICK(list) ((list)[below(sizeof(list) / sizeof(*(list)))])

static struct layout random_layout(void) {
    static const size_t widths[] = {0, 1, 20, 40, 60, 79, 80, 81, 120, 65535, 65536, (size_t)1 << 63, SIZE_MAX};
    static const ptrdiff_t indents[] = {PTRDIFF_MIN, -3, 0, 1, 2, 2, 2, 4, 8, 100};
    return (struct layout){below(2) ? PICK(widths) : below(100), PICK(indents)};
}

/* ---- texts */

static void put(struct text text) {
    fputs("b\"", stdout);
    for (size_t i = 0; i < text.size; i++) {
        unsigned char c = (unsigned char)text.at[i];
        printf(c < ' ' || c > '~' || c == '"' || c == '\\' ? "\\x%02x" : "%c", c);
    }
    fputs("\"", stdout);
}

static int same(struct text a, struct text b) {
    return a.size == b.size && (a.size == 0 || !memcmp(a.at, b.at, a.size));
}

static int is_answer(struct cedar_answer answer, uint32_t kind, size_t number) {
    return answer.kind == kind && answer.number == number;
}

/* The text with one word in the place of another. */
static struct text exchanged(struct text text, struct text from, struct text to) {
    struct text made = {block(NULL, text.size * (to.size + 1)), 0};
    for (size_t i = 0; i < text.size;) {
        int is_there = from.size <= text.size - i && !memcmp(text.at + i, from.at, from.size);
        const char *part = is_there ? to.at : text.at + i;
        size_t size = is_there ? to.size : 1;
        memcpy(made.at + made.size, part, size);
        made.size += size;
        i += is_there ? from.size : 1;
    }
    return made;
}

/* ---- calls */

/* Formats a text; the result has room from the call before. */
static void format(struct result *result, struct text text, struct layout how) {
    size_t wanted = 2 * text.size + 64;
    for (int calls = 0; calls < 2; calls++) {
        if (result->room < wanted) {
            result->room = wanted;
            result->out.at = block(result->out.at, wanted);
        }
        cedar_format(text.at, text.size, how.width, how.indent, result->out.at, result->room, &result->answer);
        if (result->answer.kind != CEDAR_NO_ROOM) {
            break;
        }
        wanted = result->answer.number;
    }
    result->out.size = result->answer.kind == CEDAR_RESULT ? result->answer.number : 0;
}

static struct cedar_answer is_formatted(struct text text, struct layout how) {
    struct cedar_answer answer;
    cedar_is_formatted(text.at, text.size, how.width, how.indent, &answer);
    return answer;
}

static struct cedar_answer same_layout(struct text a, struct text b) {
    struct cedar_answer answer;
    cedar_same_layout(a.at, a.size, b.at, b.size, &answer);
    return answer;
}

/* ---- what is promised; each function gives the promise that is broken, or NULL */

/* A room of this size is enough exactly if it holds the layout, and nothing else of the buffer is written to. */
static const char *wrong_room(struct text text, struct layout how, struct text out, size_t room) {
    struct cedar_answer answer;
    char *buffer = block(NULL, out.size + 8);
    int fits = room >= out.size, is_right;
    memset(buffer, '#', out.size + 8);
    cedar_format(text.at, text.size, how.width, how.indent, buffer, room, &answer);
    is_right = is_answer(answer, fits ? CEDAR_RESULT : CEDAR_NO_ROOM, out.size);
    for (size_t i = 0; i < out.size + 8; i++) {
        is_right &= buffer[i] == (fits && i < out.size ? out.at[i] : '#');
    }
    free(buffer);
    return is_right ? NULL : "a room that is too small, or just enough, is answered wrongly";
}

/* Each call gives the same refusal; that of a text which splits into tokens is at one of them, or at the end. */
static const char *wrong_refusal(struct text text, const struct list *list, struct cedar_answer got, struct layout how, int all) {
    static const struct text nothing;
    struct cedar_answer others[3];
    if (list->kind != CEDAR_RESULT) {
        if (!is_answer(got, list->kind, list->fault)) {
            return "not refused as it has to be: not UTF-8, or by its characters, strings or numbers";
        }
    } else if ((got.kind != CEDAR_GRAMMAR && got.kind != CEDAR_TOO_DEEP) || !begins_token(list, text.at, got.number)) {
        return "refused, although it splits into tokens, or at a byte where no token begins";
    }
    if (!all) {
        return NULL;
    }
    others[0] = is_formatted(text, how);
    others[1] = same_layout(text, nothing);
    others[2] = same_layout(nothing, text);
    for (size_t i = 0; i < 3; i++) {
        if (!is_answer(others[i], got.kind, got.number)) {
            return "refused in another way by cedar_is_formatted or cedar_same_layout";
        }
    }
    return NULL;
}

/* The other calls agree with the layout, which isn't changed by the way over another one. */
static const char *wrong_calls(struct text text, struct text out, struct layout how, struct layout other) {
    static struct result by_way, direct, back;
    size_t rooms[] = {out.size, out.size - (out.size > 0), out.size / 2};
    for (size_t i = 0; i < 3; i++) {
        const char *why = wrong_room(text, how, out, rooms[i]);
        if (why) {
            return why;
        }
    }
    if (!is_answer(is_formatted(out, how), CEDAR_RESULT, 1) || !is_answer(is_formatted(text, how), CEDAR_RESULT, same(text, out))) {
        return "cedar_is_formatted";
    }
    format(&by_way, out, other);
    format(&direct, text, other);
    if (!same(by_way.out, direct.out)) {
        return "another layout of the layout than of the text";
    }
    format(&back, direct.out, how);
    if (!same(back.out, out)) {
        return "another layout by way of another width and indentation";
    }
    return is_answer(same_layout(text, direct.out), CEDAR_RESULT, 1) ? NULL : "cedar_same_layout";
}

/* What is promised of every text, at a width and an indentation. With `all` the other calls are made too. */
static const char *wrong(struct text text, struct layout how, struct layout other, int all, struct result *first) {
    static struct list list, printed;
    static struct result again;
    format(first, text, how);
    read_list(&list, text.at, text.size);
    if (list.kind != CEDAR_RESULT || first->answer.kind != CEDAR_RESULT) {
        return wrong_refusal(text, &list, first->answer, how, all);
    }
    read_list(&printed, first->out.at, first->out.size);
    drop_commas(&list);
    if (printed.kind != CEDAR_RESULT || !is_plain(&printed) || !are_equal(&list, &printed)) {
        return "other tokens or comments in the layout";
    }
    format(&again, first->out, how);
    if (again.answer.kind != CEDAR_RESULT || !same(again.out, first->out)) {
        return "a second run changes the layout";
    }
    return all ? wrong_calls(text, first->out, how, other) : NULL;
}

/* Whether one word in the place of another, which is as wide, changes nothing else, at each of these widths. */
static const char *wrong_exchange(struct text text, struct text both, size_t widest, ptrdiff_t indent) {
    static struct result first, second;
    char *middle = memchr(both.at, '\n', both.size);
    struct text from = {both.at, (size_t)(middle - both.at)}, to = {middle + 1, both.size - from.size - 1};
    struct text other = exchanged(text, from, to);
    const char *why = NULL;
    for (size_t width = 0; width <= widest && !why; width++) {
        struct layout how = {width, indent};
        format(&first, text, how);
        format(&second, other, how);
        struct text wanted = exchanged(first.out, from, to);
        if (first.answer.kind != second.answer.kind || !same(wanted, second.out)) {
            why = "a word that is as wide as another changes the layout";
        }
        free(wanted.at);
    }
    free(other.at);
    return why;
}

static void count(const char *why, const char *what, struct text text, struct layout how, const struct result *result) {
    passed += !why;
    failed += why != NULL;
    if (why) {
        printf("FAILED: %s (%s, width %zu, indentation %td, text %zu)\n  text: ", why, what, how.width, how.indent, passed + failed);
        put(text);
        printf("\n  answer: kind %u, number %zu, ", (unsigned)result->answer.kind, result->answer.number);
        put(result->out);
        puts("");
    }
}

/* Prints some of the texts with their answers. */
static void sample(struct text text, struct layout how, const struct result *result) {
    if ((passed + failed) % EACH_SAMPLE == 0 && text.size <= SAMPLED) {
        printf("sample %zu %td %u %zu ", how.width, how.indent, (unsigned)result->answer.kind, result->answer.number);
        put(text);
        printf(" ");
        put(result->out);
        puts("");
    }
}

/* ---- random texts */

static const char *const BITS[] = {
    "//", "// c", "\n// d\n", "\r", "\n", "\r\n", "\n\n", " ", "\t", "\xe3\x80\x80", "\xc3\xa9", "\xe5\xad\x97", "\xf0\x9f\xa6\x80",
    "e\xcc\x81", "\xf0\x9f\x91\xa9\xe2\x80\x8d\xf0\x9f\x91\xa7", "\xff", "\xe5\xad", "#", "&", "=", "'", ",", ",,", ";", "\"",
    "\"a\"", "\"//\"",
    "\"a\n\n b\"", "\\", "\\\n", "(", ")", "[", "]", "{", "}", "@", ".", "::", ":", "==", "!=", "<", "<=", "||", "&&", "+", "-", "*", "/",
    "%", "!", "?principal", "?resource", "?", "0", "007", "00000", "18446744073709551615", "18446744073709551616", "if", "then", "else",
    "in", "is", "has", "like", "when", "unless", "permit", "forbid", "principal", "action", "resource", "context", "true", "a", "_b1",
    "A::B", "A::\"x\"", "{a:1,}", "[1,]", "f(1,)", "permit(principal,action,resource);", "when{true}", "unless{a.b}", "@id(\"x\")",
    "&& true", "|| context.c", "+ 1", "if true then 1 else 2", "principal is A in B::\"c\"", "principal has a.b", "f(1)",
};

static const char *const COMMENTS[] = {
    "// c%zu\n", "\n// c%zu\n", "// c%zu\r// d\n", "\n// c%zu\n// d\n\n", "//%zu\n", "\n// \xe3\x80\x80\xc3\xa9 // b%zu\n \n",
    "// \"%zu\r\n",
};

/* Puts bytes into a text in the place of those from a to b, as long as it stays short. */
static void change(struct text *text, size_t a, size_t b, const char *bytes, size_t size) {
    if (text->size - (b - a) + size <= LONGEST) {
        memmove(text->at + a + size, text->at + b, text->size - b);
        memcpy(text->at + a, bytes, size);
        text->size += size - (b - a);
    }
}

static void change_word(struct text *text, size_t a, size_t b, const char *word) {
    change(text, a, b, word, strlen(word));
}

/* A place in a text: mostly the start or the end of a token. */
static size_t place_in(struct text text, const struct list *list) {
    if (list->count && below(10)) {
        struct part token = list->tokens[below(list->count)].text;
        return (size_t)(token.at - text.at) + (below(2) ? token.size : 0);
    }
    return below(text.size + 1);
}

/* Changes a text at one place; most changes leave an accepted text accepted. */
static void change_once(struct text *text) {
    static struct list list;
    char word[64];
    read_list(&list, text->at, text->size);
    size_t a = place_in(*text, &list), b = place_in(*text, &list), kind = below(12), first = a < b ? a : b, last = a < b ? b : a;
    struct text other = corpus[below(corpus_count)];
    switch (kind) {
    case 0: /* something is lost */
        change(text, first, last - first < 40 ? last : first + (first < text->size), "", 0);
        break;
    case 1: /* something stands twice, or comes from another text */
        other = below(2) ? *text : other;
        a = below(other.size + 1);
        b = below((other.size - a < 200 ? other.size - a : 200) + 1);
        char *part = block(NULL, b);
        memcpy(part, other.at + a, b);
        change(text, first, first, part, b);
        free(part);
        break;
    case 2:
        change_word(text, a, a, PICK(BITS));
        break;
    case 3: /* (deeply nested) */
        for (size_t i = below(140); i > 0; i--) {
            change_word(text, a, a, below(20) ? "(" : "[");
        }
        break;
    case 4:
        change_word(text, a, a, PICK(BITS));
        change_word(text, b, b, PICK(BITS));
        break;
    case 5:
        change_word(text, a, a, below(2) ? "!" : "-");
        break;
    case 6:
        change_word(text, a, a, ",");
        break;
    default:
        snprintf(word, sizeof word, PICK(COMMENTS), below(1000));
        change_word(text, a, a, word);
    }
}

static double now(void) {
    struct timespec time;
    timespec_get(&time, TIME_UTC);
    return (double)time.tv_sec + 1e-9 * (double)time.tv_nsec;
}

static void check_random(size_t seconds, size_t seed) {
    static char bytes[LONGEST];
    static struct result result;
    double end = now() + (double)seconds;
    state = 0x9e3779b97f4a7c15u * (seed + 1);
    for (size_t made = 0; failed < most_failed && (made % 64 || now() < end); made++) {
        struct text kept = corpus[below(corpus_count)], text = {bytes, kept.size};
        memcpy(bytes, kept.at, kept.size);
        for (size_t changes = 1 + below(4) * below(2); changes > 0; changes--) {
            change_once(&text);
        }
        struct layout how = random_layout(), other = random_layout();
        count(wrong(text, how, other, below(16) == 0, &result), "random", text, how, &result);
        sample(text, how, &result);
    }
}

/* ---- orders */

static struct text next(size_t size) {
    struct text text = {block(NULL, size), size};
    if (fread(text.at, 1, size, stdin) != size) {
        fputs("hostile: a text ends early\n", stderr);
        exit(2);
    }
    return text;
}

static void keep(struct text text) {
    corpus = block(corpus, (corpus_count + 1) * sizeof *corpus);
    corpus[corpus_count++] = text;
}

/* Checks a text of an order, and what the order demands besides. Gives whether it is accepted. */
static int follow(const char *name, struct layout how, struct text text, struct text other) {
    static struct result result;
    int is_plain = !strcmp(name, "check") || !strcmp(name, "exchange"), is_refused = !strcmp(name, "refused");
    struct layout usual = {80, 2}, at = !strcmp(name, "check") || !strcmp(name, "equal") ? how : usual;
    const char *why = wrong(text, at, random_layout(), 1, &result);
    if (why || is_plain) {
        why = why || strcmp(name, "exchange") ? why : wrong_exchange(text, other, how.width, how.indent);
    } else if (is_refused) {
        why = is_answer(result.answer, (uint32_t)how.width, (size_t)how.indent) ? NULL : "another refusal than is wanted";
    } else {
        why = same(result.out, other) ? NULL : "another layout than is wanted";
    }
    count(why, name, text, at, &result);
    sample(text, at, &result);
    return result.answer.kind == CEDAR_RESULT;
}

int main(int count_of_words, char **words) {
    char name[16];
    size_t number, len, other_len;
    ptrdiff_t indent;
    most_failed = count_of_words > 1 ? strtoul(words[1], NULL, 10) : most_failed;
    while (failed < most_failed && scanf("%15s %zu %td %zu %zu", name, &number, &indent, &len, &other_len) == 5) {
        struct text line_feed = next(1), text = next(len), other = next(other_len);
        int accepted = 0;
        if (!strcmp(name, "random")) {
            check_random(number, (size_t)indent);
        } else {
            accepted = follow(name, (struct layout){number, indent}, text, other);
        }
        /* (mostly accepted texts) */
        if (len <= LONGEST / 4 && (accepted || below(8) == 0)) {
            keep(text);
        } else {
            free(text.at);
        }
        free(line_feed.at);
        free(other.at);
    }
    printf("%zu passed, %zu failed\n", passed, failed);
    return failed != 0;
}
