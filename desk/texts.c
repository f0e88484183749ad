/* Reads models as text. The library says only which refusal it is, and the place; what is told besides is found here, by going
 * over the words and signs before that place once more. Nothing of this decides what is read or refused. */
#include "texts.h"

#include <inttypes.h>
#include <stdio.h>
#include <string.h>

#include "desk.h"

/* The refusals of docs/TEXT.md. */
enum { GRAMMAR = 51, UNKNOWN = 52, AGAIN = 53, CHECKS = 54, BUFFER = 55 };

/* How much of a long line is shown before the place, and behind it. */
enum { SHOWN = 72 };

/* A word or sign of a text: its bytes, and how many stand before it. At the end of the text it has no bytes. */
struct token {
    const uint8_t *bytes;
    size_t length;
    size_t place;
};

bool is_text(const uint8_t *bytes, size_t length)
{
    return length == 0 || memchr(bytes, 0, length < 4 ? length : 4) == NULL;
}

/* ---- words and signs */

static bool ends_line(uint8_t byte)
{
    return byte == '\n' || byte == '\r';
}

static bool is_blank(uint8_t byte)
{
    return byte == ' ' || byte == '\t' || ends_line(byte);
}

static bool in_word(uint8_t byte)
{
    return (byte >= '0' && byte <= '9') || (byte >= 'A' && byte <= 'Z') || (byte >= 'a' && byte <= 'z');
}

static size_t past_blanks(const uint8_t *text, size_t length, size_t at)
{
    while (at < length && (is_blank(text[at]) || text[at] == '#')) {
        if (text[at] == '#')
            while (at + 1 < length && !ends_line(text[at + 1]))
                at++;
        at++;
    }
    return at;
}

/* The next token from `at` on. A sign of two bytes may be taken as two: none of them is looked for. */
static struct token token_at(const uint8_t *text, size_t length, size_t at)
{
    size_t begin = past_blanks(text, length, at);
    size_t end = begin;

    while (end < length && in_word(text[end]))
        end++;
    if (end == begin && end < length)
        end++;
    return (struct token){text + begin, end - begin, begin};
}

static bool is(struct token token, const char *word)
{
    return token.length == strlen(word) && memcmp(token.bytes, word, token.length) == 0;
}

static bool same(struct token one, struct token other)
{
    return one.length == other.length && memcmp(one.bytes, other.bytes, one.length) == 0;
}

/* ---- what a name was declared as */

/* What declares names, and what such a name is called. */
static const struct {
    const char *keyword;
    const char *called;
} KINDS[] = {
    {"res", "a resource"}, {"bin", "a bin"},     {"sync", "a sync"},   {"var", "a variable"},
    {"sampler", "a sampler"}, {"class", "a class"}, {"local", "a local"},
};

static const char *called_by(struct token token)
{
    for (size_t k = 0; k < sizeof KINDS / sizeof *KINDS; k++)
        if (is(token, KINDS[k].keyword))
            return KINDS[k].called;
    return NULL;
}

/* A declaration that is found: what its name is, or NULL, and the place of the name. */
struct declared {
    const char *as;
    size_t place;
};

/* The first declaration of the name before its own place, that still holds there; locals end with their class. Each name in a
 * declaration stands behind its keyword, or behind the bracket or comma that follows. */
static struct declared declared_before(const uint8_t *text, struct token name)
{
    struct declared found = {NULL, 0};
    const char *kind = NULL;
    bool local = false;
    size_t open = 0;

    for (size_t at = 0;;) {
        struct token token = token_at(text, name.place, at);

        if (token.length == 0)
            return found;
        at = token.place + token.length;
        if (is(token, "{"))
            open++;
        if (is(token, "}") && open > 0 && --open == 0 && local)
            found = (struct declared){NULL, 0}, local = false;
        if (called_by(token) != NULL) {
            kind = called_by(token);
        } else if (kind != NULL && in_word(*token.bytes)) {
            if (found.as == NULL && same(token, name)) {
                found = (struct declared){kind, token.place};
                local = strcmp(kind, "a local") == 0;
            }
            kind = strcmp(kind, "a local") == 0 ? kind : NULL;
        } else if (!is(token, "(") && !is(token, ",")) {
            kind = NULL;
        }
    }
}

/* ---- what the checks ask of a declaration or an action */

#define EXPRESSION "an expression has at most 16 numbers, names and operations; "
#define CLAIM "a claim has at most 4 items, with amounts of 1 to 1,000,000, and no resource, bin or sync twice; "

static const struct {
    const char *keyword;
    const char *words;
} LIMITS[] = {
    {"res", "at most 32 of them, each of at most 1,000,000; "},
    {"bin", "at most 32 of them, each with at most 1,000,000 at the start; "},
    {"sync", "at most 32 of them; "},
    {"var", "at most 32 of them; "},
    {"sampler", "at most 16 of them, highest at least lowest and at most 1,000,000 above it, a seed of 1 to 2,147,483,646; "},
    {"class", "at most 64 of them, each with a body in which blocks nest at most 8 deep, the body included; "},
    {"entity", "at most 64 of them, each at 1,000,000 at the latest; "},
    {"hold", EXPRESSION},
    {"priority", EXPRESSION},
    {"trace", EXPRESSION},
    {"do", ""},
    {"putR", "an amount of 1 to 1,000,000; "},
    {"putB", "an amount of 1 to 1,000,000; "},
    {"putS", "1 to 64 at once; "},
    {"become", ""},
    {"req", CLAIM},
    {"try", "at most 4 branches; " CLAIM},
    {"while", CLAIM},
    {"start", "at most 1,000,000 later; at most 4 shares, of 1 to 1,000,000 each, and no resource twice; "},
    {"close", ""},
};

static const char *limit_of(struct token token)
{
    for (size_t k = 0; k < sizeof LIMITS / sizeof *LIMITS; k++)
        if (is(token, LIMITS[k].keyword))
            return LIMITS[k].words;
    return EXPRESSION; /* a name, which is set to one */
}

/* ---- telling */

/* A byte as it is shown: one that isn't printed is a question mark. */
static void show(const uint8_t *bytes, size_t length)
{
    for (size_t k = 0; k < length; k++)
        fputc(bytes[k] < ' ' && bytes[k] != '\t' ? '?' : bytes[k], stderr);
}

/* Whether a byte begins a character, in UTF-8. */
static bool begins(uint8_t byte)
{
    return (byte & 0xC0) != 0x80;
}

struct line {
    size_t number; /* from 1 */
    size_t begin;
    size_t end;
    size_t column; /* from 1, in characters */
};

static struct line line_of(const uint8_t *text, size_t length, size_t place)
{
    struct line line = {1, 0, place, 1};

    for (size_t k = 0; k < place; k++)
        if (text[k] == '\n' || (text[k] == '\r' && (k + 1 == length || text[k + 1] != '\n'))) {
            line.number++;
            line.begin = k + 1;
        }
    while (line.end < length && !ends_line(text[line.end]))
        line.end++;
    for (size_t k = line.begin; k < place; k++)
        line.column += begins(text[k]);
    return line;
}

/* The line, or what is near the place in a long one, and a mark under the place. */
static void show_line(const uint8_t *text, struct line line, size_t place)
{
    size_t from = place - line.begin > SHOWN ? place - SHOWN : line.begin;
    size_t to = line.end - place > SHOWN ? place + SHOWN : line.end;

    show(text + from, to - from);
    fputc('\n', stderr);
    for (size_t k = from; k < place; k++)
        if (begins(text[k]))
            fputc(text[k] == '\t' ? '\t' : ' ', stderr);
    fputs("^\n", stderr);
}

static void tell_token(struct token token)
{
    show(token.bytes, token.length > SHOWN ? SHOWN : token.length);
}

/* Whether the token is the first of its line, and what stands before it is neither ended nor opened. */
static bool lacks_semicolon(const uint8_t *text, struct token token)
{
    struct token last = {text, 0, 0};

    for (;;) {
        struct token next = token_at(text, token.place, last.place + last.length);

        if (next.length == 0)
            break;
        last = next;
    }
    for (size_t k = last.place; k < token.place; k++)
        if (ends_line(text[k]))
            return last.length > 0 && strchr(";{}", *last.bytes) == NULL;
    return false;
}

static void tell_misfit(const uint8_t *text, struct token token)
{
    if (token.length == 0) {
        fputs("the text ends here, and isn't complete", stderr);
        return;
    }
    if (in_word(*token.bytes) && token.length > 16) {
        fprintf(stderr, "a word of %zu letters and digits; a name has at most 16", token.length);
        return;
    }
    tell_token(token);
    fputs(" doesn't fit here", stderr);
    if (*token.bytes >= '0' && *token.bytes <= '9')
        fputs(", or is too large", stderr);
    else if (lacks_semicolon(text, token))
        fputs("; is a semicolon missing before it?", stderr);
}

static void tell_words(const uint8_t *text, size_t length, uint32_t number, struct token token)
{
    struct declared before = declared_before(text, token);

    switch (number) {
    case GRAMMAR:
        tell_misfit(text, token);
        break;
    case UNKNOWN:
        tell_token(token);
        if (before.as == NULL)
            fputs(" is not declared", stderr);
        else
            fprintf(stderr, " is %s, and doesn't fit here", before.as);
        break;
    case AGAIN:
        tell_token(token);
        fprintf(stderr, " is declared already, in line %zu", line_of(text, length, before.place).number);
        break;
    case CHECKS:
        tell_token(token);
        fprintf(stderr, " breaks a limit: %sin all at most 256 blocks, 1,024 actions and 65,535 bytes of records", limit_of(token));
        break;
    default:
        fprintf(stderr, "its records have over %u bytes", RECORDS_ROOM);
    }
    fputc('\n', stderr);
}

bool reads_text(const char *name, const uint8_t *text, size_t length, uint8_t *records, size_t *written)
{
    size_t place = 0;
    uint32_t number = desk_text(text, length, records, RECORDS_ROOM, &place);

    if (number == 0) {
        *written = place;
        return true;
    }
    struct line line = line_of(text, length, place);
    printf("refused %" PRIu32 " at %zu\n", number, place);
    fflush(stdout);
    fprintf(stderr, "%s:%zu:%zu: refused %" PRIu32 ": ", name, line.number, line.column, number);
    tell_words(text, length, number, token_at(text, length, place));
    show_line(text, line, place);
    return false;
}
