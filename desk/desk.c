/* The booking desk as a program: checks a model, tells its bound, runs it whole, keeps a run of it open (moves.c), tells who waits
 * in it and why (waits.c), or writes its records. A model is a record file or a text (texts.c). */
#include "desk.h"

#include <errno.h>
#include <stdbool.h>
#include <stdio.h>
#include <stdlib.h>
#include <string.h>

#include "moves.h"
#include "texts.h"
#include "waits.h"
#include "words.h"

#define USUAL_LIMIT 1000000u

enum request { CHECK, BOUND, RUN, MOVES, WAITS, RECORDS, UNKNOWN };

/* A whole file in memory of its own. */
struct file {
    uint8_t *bytes;
    size_t length;
};

static enum status usage(void)
{
    fprintf(stderr,
            "usage: desk check FILE\n"
            "       desk bound FILE\n"
            "       desk run FILE [LIMIT]\n"
            "       desk moves FILE STEPS\n"
            "       desk waits FILE [LIMIT]\n"
            "       desk records FILE\n"
            "FILE is a record file or a text; - is standard input. records writes the records of a text to standard output.\n"
            "LIMIT is the most steps that are made, 0 to 4294967295; without it %u. STEPS are made at a time, 1 to 4294967295,\n"
            "until the run ends or has made %u. waits tells who is blocked when the run stops, since when, and why.\n"
            "run and moves tell what a job lacks, and how much of it there is, in the first %u lines that say that it lacks\n"
            "something; in later ones they tell the item's number alone.\n",
            USUAL_LIMIT, USUAL_LIMIT, ITEMS_TOLD);
    return TROUBLE;
}

static bool unreadable(const char *name)
{
    fprintf(stderr, "desk: %s can't be read: %s\n", name, strerror(errno));
    return false;
}

/* Reads to the end, however long the file is: the library refuses one of over 65,535 bytes. False, and said why, if it can't. */
static bool read_all(const char *name, FILE *stream, struct file *file)
{
    for (size_t room = 65536;; room *= 2) {
        uint8_t *bytes = realloc(file->bytes, room);

        if (bytes == NULL) {
            fprintf(stderr, "desk: memory is short: no room for %zu bytes of %s\n", room, name);
            return false;
        }
        file->bytes = bytes;
        file->length += fread(bytes + file->length, 1, room - file->length, stream);
        if (ferror(stream))
            return unreadable(name);
        if (file->length < room)
            return true;
    }
}

static bool read_file(const char *name, struct file *file)
{
    if (strcmp(name, "-") == 0)
        return read_all("standard input", stdin, file);
    FILE *stream = fopen(name, "rb");

    if (stream == NULL)
        return unreadable(name);
    bool whole = read_all(name, stream, file);
    fclose(stream);
    return whole;
}

/* Puts the records of a text in its place. False, and the refusal is told, if it is refused. */
static bool to_records(const char *name, struct file *text)
{
    static uint8_t records[RECORDS_ROOM];
    size_t written;

    if (!reads_text(name, text->bytes, text->length, records, &written))
        return false;
    /* Records are never longer than the room that read_all makes. */
    memcpy(text->bytes, records, written);
    text->length = written;
    return true;
}

static enum status check(const struct file *file)
{
    uint32_t refusal = desk_check(file->bytes, file->length);

    if (refusal != 0) {
        tell_refusal(refusal, file->length);
        return REFUSED_OR_FAULT;
    }
    printf("accepted\n");
    return FINE;
}

static enum status bound(const struct file *file)
{
    uint64_t answer = desk_bound(file->bytes, file->length);

    if (DESK_BOUND_KIND(answer) == DESK_REFUSED) {
        tell_refusal((uint32_t)answer, file->length);
        return REFUSED_OR_FAULT;
    }
    tell_bound(answer);
    return FINE;
}

/* Runs again from fresh with twice the room for as long as the journal is too small: so the user never sees 30. */
static enum status run(const struct file *file, uint32_t limit)
{
    static struct follower follower;

    for (size_t lines = 65536;; lines *= 2) {
        size_t room = lines * LINE_BYTES;
        uint8_t *journal = calloc(lines, LINE_BYTES);

        if (journal == NULL) {
            fprintf(stderr, "desk: memory is short: no room for a journal of %zu lines; a smaller LIMIT needs fewer\n", lines);
            return TROUBLE;
        }
        uint64_t answer = desk_run(file->bytes, file->length, limit, journal, room);
        if (DESK_RUN_ANSWER(answer) == DESK_REFUSED) {
            tell_refusal((uint32_t)answer, file->length);
        } else if (DESK_RUN_ANSWER(answer) != FAULT_JOURNAL) {
            follow(&follower, file->bytes, file->length);
            tell_lines(&follower, journal, room);
            tell_answer(answer);
            printf("\n");
        }
        free(journal);
        if (DESK_RUN_ANSWER(answer) != FAULT_JOURNAL)
            return status_of(answer);
    }
}

/* Whether the word is a u32 in decimal digits, and nothing else. */
static bool reads_number(const char *word, uint32_t *number)
{
    size_t digits = strspn(word, "0123456789");

    if (digits == 0 || digits > 10 || word[digits] != '\0')
        return false;
    unsigned long long wide = strtoull(word, NULL, 10);
    *number = (uint32_t)wide;
    return wide <= UINT32_MAX;
}

static enum request request_of(int count, char **words, uint32_t *limit)
{
    if (count == 3 && strcmp(words[1], "check") == 0)
        return CHECK;
    if (count == 3 && strcmp(words[1], "bound") == 0)
        return BOUND;
    if (count == 3 && strcmp(words[1], "records") == 0)
        return RECORDS;
    if (count == 4 && strcmp(words[1], "moves") == 0 && reads_number(words[3], limit) && *limit > 0)
        return MOVES;
    if (count != 3 && (count != 4 || !reads_number(words[3], limit)))
        return UNKNOWN;
    if (strcmp(words[1], "run") == 0)
        return RUN;
    if (strcmp(words[1], "waits") == 0)
        return WAITS;
    return UNKNOWN;
}

static enum status serve(enum request request, const struct file *file, uint32_t limit)
{
    switch (request) {
    case CHECK:
        return check(file);
    case BOUND:
        return bound(file);
    case MOVES:
        return moves(file->bytes, file->length, limit, USUAL_LIMIT);
    case WAITS:
        return waits(file->bytes, file->length, limit);
    case RECORDS:
        fwrite(file->bytes, 1, file->length, stdout);
        return FINE;
    default:
        return run(file, limit);
    }
}

/* Only a text has records to be written: `records` takes every file as one. */
static enum status answer(enum request request, const char *name, struct file *file, uint32_t limit)
{
    if (!read_file(name, file))
        return TROUBLE;
    if ((request == RECORDS || is_text(file->bytes, file->length)) && !to_records(name, file))
        return REFUSED_OR_FAULT;
    return serve(request, file, limit);
}

int main(int count, char **words)
{
    uint32_t limit = USUAL_LIMIT;
    struct file file = {NULL, 0};
    enum request request = request_of(count, words, &limit);

    if (request == UNKNOWN)
        return usage();
    enum status status = answer(request, words[2], &file, limit);
    free(file.bytes);
    if (fflush(stdout) != 0 || ferror(stdout)) {
        fprintf(stderr, "desk: the answer can't be written: %s\n", strerror(errno));
        return TROUBLE;
    }
    return status;
}
