/* Tells why a job waits. What it lacks is read from the model's bytes, at the REQ or TRY where the row of an open run has it. */
#include "waits.h"

#include <inttypes.h>
#include <stdio.h>

/* The kinds of records that are looked for, and the bytes of a record before its body. */
enum { BLOCK = 6, REQ = 25, TRY = 26, HEAD_BYTES = 4 };

/* The value of a line of one who is barred. */
#define BARRED (-1)

/* The kinds of items. */
enum { GET_R, GET_B, GET_S, CONDITION };

#define ITEM_BYTES 8u

struct item {
    uint32_t kind;
    uint32_t relation;
    uint32_t number;
    int32_t amount;
};

/* Some of a file's bytes. */
struct part {
    const uint8_t *bytes;
    size_t length;
};

static const struct part NOTHING = {NULL, 0};

/* What is behind so many bytes; nothing if there aren't so many. */
static struct part behind(struct part part, size_t bytes)
{
    if (bytes > part.length)
        return NOTHING;
    return (struct part){part.bytes + bytes, part.length - bytes};
}

/* The record of this action of this block, both from 0; nothing if there is none. Declarations stand before the first block. */
static struct part action_at(struct part file, uint64_t block, uint64_t action)
{
    uint64_t begun = 0;

    while (file.length >= HEAD_BYTES) {
        size_t size = 2 + u16_at(file.bytes);

        if (size < HEAD_BYTES || size > file.length)
            return NOTHING;
        if (u16_at(file.bytes + 2) == BLOCK)
            begun++;
        else if (begun == block + 1 && action-- == 0)
            return (struct part){file.bytes, size};
        file = behind(file, size);
    }
    return NOTHING;
}

/* The claim of a REQ, or of the first branch of a TRY, which stands behind the count of branches and the branch's block. */
static struct part first_claim(struct part record)
{
    if (record.length < HEAD_BYTES)
        return NOTHING;
    switch (u16_at(record.bytes + 2)) {
    case REQ:
        return behind(record, HEAD_BYTES);
    case TRY:
        return behind(record, HEAD_BYTES + 4);
    default:
        return NOTHING;
    }
}

/* Whether the claim has an item of this number, from 1, about something that a row has. */
static bool has_item(struct part claim, int32_t number, struct item *item)
{
    if (claim.length < 2 || number < 1 || (uint32_t)number > u16_at(claim.bytes))
        return false;
    struct part at = behind(claim, 2 + ITEM_BYTES * ((size_t)number - 1));
    if (at.length < ITEM_BYTES)
        return false;
    item->kind = at.bytes[0];
    item->relation = at.bytes[1];
    item->number = u16_at(at.bytes + 2);
    item->amount = (int32_t)u32_at(at.bytes + 4);
    return item->kind <= CONDITION && item->number < DESK_THINGS;
}

/* The place of the process of this number; DESK_PLACES if there is none. */
static size_t place_of(const uint64_t *row, uint32_t number)
{
    size_t place = 0;

    while (place < DESK_PLACES && DESK_NUMBER(row, place) != number)
        place++;
    return place;
}

/* Whether the job of the line stands at a REQ or TRY whose first claim has the item that the line says. */
static bool lacks_item(const struct open_run *run, const struct line *line, struct item *item)
{
    size_t place = place_of(run->row, line->process);

    if (place == DESK_PLACES)
        return false;
    uint64_t depth = DESK_DEPTH(run->row, place);
    if (depth < 1 || depth > DESK_DEEPEST)
        return false;
    struct part file = {run->file, run->length};
    struct part action = action_at(file, DESK_BLOCK(run->row, place, depth), DESK_ACTION(run->row, place, depth));
    return has_item(first_claim(action), line->value, item);
}

/* How much there is of what an item names. */
static int64_t there(const uint64_t *row, const struct item *item)
{
    switch (item->kind) {
    case GET_R:
        return (int64_t)DESK_FREE(row, item->number);
    case GET_B:
        return (int64_t)DESK_BIN(row, item->number);
    case GET_S:
        return (int64_t)DESK_WAITING(row, item->number);
    default:
        return DESK_VARIABLE(row, item->number);
    }
}

static const char *relation_words(uint32_t relation)
{
    static const char *const words[] = {"?", "below", "at most", "equal to", "other than", "at least", "above"};

    return words[relation < sizeof words / sizeof words[0] ? relation : 0];
}

/* What the item asks for, and how much there is; `now` stands before that, where it isn't what there was at the line's step. */
static void tell_item(const struct item *item, int64_t amount, const char *now)
{
    static const struct {
        const char *of;
        const char *is;
    } things[] = {{"of resource", "free"}, {"of bin", "there"}, {"at sync", "waiting"}};

    if (item->kind == CONDITION)
        printf(", variable %" PRIu32 " %s %" PRId32 " (now %" PRId64 ")", item->number, relation_words(item->relation),
               item->amount, amount);
    else
        printf(", %" PRId32 " %s %" PRIu32 " (%s%" PRId64 " %s)", item->amount, things[item->kind].of, item->number, now, amount,
               things[item->kind].is);
}

/* Why the job of the line waits: what the line says, and what the run has of it, if there is one to look into. A line that is
 * told later than it was written says what was so then. */
static void tell_wait(const struct open_run *run, const struct line *line, bool later)
{
    struct item item;

    printf("job %" PRIu32 " waits: ", line->process);
    if (line->value == BARRED)
        printf("%sbarred by a job ahead", later ? "it was " : "");
    else
        printf("the first branch %s item %" PRId32, later ? "lacked" : "lacks", line->value);
    if (run != NULL && lacks_item(run, line, &item))
        tell_item(&item, there(run->row, &item), later ? "now " : "");
    printf("\n");
}

void follow(struct follower *follower, const uint8_t *file, size_t length)
{
    opens(&follower->run, file, length);
    follower->behind = 0;
    follower->told = 0;
}

/* How many lines stand in a journal that was all 0 before it was lent. */
static size_t lines_in(const uint8_t *journal, size_t room)
{
    struct line line;
    size_t lines = 0;

    while (line_at(journal, room, lines, &line))
        lines++;
    return lines;
}

/* Moves it on past the lines that it is behind. There it is stopped by the step of the next line, for which no room is left. */
static bool catches_up(struct follower *follower)
{
    uint64_t answer;
    size_t made;

    do {
        size_t lines = follower->behind < JOURNAL_LINES ? follower->behind : JOURNAL_LINES;

        answer = call(&follower->run, UINT32_MAX, lines);
        made = lines_in(follower->run.journal, lines * LINE_BYTES);
        follower->behind -= made;
    } while (made > 0 && follower->behind > 0);
    return follower->behind == 0 && DESK_RUN_ANSWER(answer) == FAULT_JOURNAL;
}

/* The run to look into for what the line says; none for one who is barred, or when enough was told. */
static const struct open_run *run_at(struct follower *follower, const struct line *line)
{
    if (line->value == BARRED || follower->told == ITEMS_TOLD)
        return NULL;
    follower->told++;
    return catches_up(follower) ? &follower->run : NULL;
}

void tell_lines(struct follower *follower, const uint8_t *journal, size_t room)
{
    struct line line;

    for (size_t k = 0; line_at(journal, room, k, &line); k++) {
        if (line.kind == LINE_BLOCKED) {
            printf("time %" PRIu32 ", ", line.time);
            tell_wait(run_at(follower, &line), &line, false);
        } else {
            tell_line(&line);
        }
        follower->behind++;
    }
}

/* Of each living process, by its place, the last line that says that it is blocked. */
static void keep_last(const struct open_run *run, struct line *last)
{
    struct line line;

    for (size_t k = 0; line_at(run->journal, sizeof run->journal, k, &line); k++) {
        size_t place = line.kind == LINE_BLOCKED ? place_of(run->row, line.process) : DESK_PLACES;

        if (place < DESK_PLACES)
            last[place] = line;
    }
}

enum status waits(const uint8_t *file, size_t length, uint32_t steps)
{
    static struct open_run run;
    static struct line last[DESK_PLACES];
    uint64_t answer = NO_CALL;

    if (!opens(&run, file, length))
        return REFUSED_OR_FAULT;
    while (moves_on(&run, steps, &answer))
        keep_last(&run, last);
    if (DESK_BLOCKED(run.row) == 0)
        printf("nobody waits\n");
    for (size_t k = 0; k < DESK_BLOCKED(run.row) && k < DESK_PLACES; k++) {
        const struct line *line = &last[DESK_BLOCKED_PLACE(run.row, k)];

        printf("since time %" PRIu32 ", ", line->time);
        tell_wait(&run, line, true);
    }
    tell_answer(answer);
    printf("\n");
    return status_of(answer);
}
