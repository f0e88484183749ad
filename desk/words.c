/* Tells what the numbers of the library mean: document 01's tables of refusals, faults, answers and kinds of lines. */
#include "words.h"

#include <inttypes.h>
#include <stdio.h>

#include "desk.h"

/* A number, its name, and document 01's words on it. A table ends with the row that stands for every other number. */
struct row {
    uint32_t number;
    const char *name;
    const char *words;
};

enum { OTHERS = 0 };

static const struct row refusals[] = {
    {1, "SHORT", "bytes end inside a record, or length under 2"},
    {2, "KIND", "kind not in the table"},
    {3, "PLACE", "declaration after a BLOCK, action before any"},
    {4, "MANY", "one more than a limit"},
    {5, "SIZE", "body, claim or expression not exactly its size"},
    {6, "VALUE", "field outside its stated set"},
    {7, "TWICE", "a claim names one resource, bin or sync twice, or a START list one resource twice"},
    {8, "NAME", "number of a thing not declared, or a local not in 0..7"},
    {9, "ORDER", "DO, TRY or WHILE names a block not greater than its own"},
    {10, "DEEP", "a class body nests over 8 blocks, itself included"},
    {OTHERS, "?", "no refusal of document 01"},
};

static const struct row faults[] = {
    {20, "STATE", "an open run handed in isn't sound"},
    {21, "SUM", "a node's value leaves the i32 range"},
    {22, "BACK", "HOLD below 0"},
    {23, "LATE", "a time over 2,000,000,000"},
    {24, "HELD", "PUTR or a START list gives more than is held"},
    {25, "OWNED", "PUTS frees more than are owned"},
    {26, "OWING", "a process ends with a resource or a slave"},
    {27, "FULL", "START with 64 living, or number 2,147,483,647 already given"},
    {28, "BIN", "a bin would pass 1,000,000,000"},
    {29, "NOTICES", "a 65th return waiting"},
    {30, "JOURNAL", "the step's lines don't fit"},
    {OTHERS, "?", "no fault of document 01"},
};

/* The words are what the line's value is; a line whose value is always 0 has none. */
static const struct row kinds[] = {
    {1, "started", "class"},
    {2, "ended", NULL},
    {4, "granted", "branch"},
    {5, "resource returned", "resource"},
    {6, "bin returned", "bin"},
    {7, "waiting as slave", "sync"},
    {8, "freed", "sync"},
    {9, "TRACE", "value"},
    {10, "closed", NULL},
    {OTHERS, "no kind of document 01", "value"},
};

static const struct row *find(const struct row *table, uint32_t number)
{
    while (table->number != number && table->number != OTHERS)
        table++;
    return table;
}

void tell_refusal(uint32_t refusal, size_t length)
{
    uint32_t number = DESK_REFUSAL_NUMBER(refusal);
    const struct row *row = find(refusals, number);

    printf("refused %" PRIu32 " %s (%s): ", number, row->name, row->words);
    printf("the record at byte %" PRIu32 "%s\n", DESK_REFUSAL_PLACE(refusal),
           length > 65535 ? ", the file has over 65,535 bytes" : "");
}

void tell_bound(uint64_t bound)
{
    switch (DESK_BOUND_KIND(bound)) {
    case DESK_NONE:
        printf("bound NONE (the model has a WHILE, or a START whose class's body block isn't greater than the START's own)\n");
        break;
    case DESK_OVER:
        printf("bound OVER (above 4,294,967,295)\n");
        break;
    default:
        printf("bound %" PRIu64 "\n", bound);
    }
}

void tell_answer(uint64_t answer)
{
    uint32_t number = DESK_RUN_ANSWER(answer);

    switch (number) {
    case DESK_CLOSED:
        printf("CLOSED");
        break;
    case DESK_IDLE:
        printf("IDLE");
        break;
    case DESK_LIMIT:
        printf("LIMIT");
        break;
    default: {
        const struct row *row = find(faults, number);
        printf("FAULT %" PRIu32 " %s (%s)", number, row->name, row->words);
    }
    }
    printf(", steps done %" PRIu32, DESK_RUN_STEPS(answer));
}

uint32_t u16_at(const uint8_t *bytes)
{
    return bytes[0] | (uint32_t)bytes[1] << 8;
}

uint32_t u32_at(const uint8_t *bytes)
{
    return u16_at(bytes) | u16_at(bytes + 2) << 16;
}

bool line_at(const uint8_t *journal, size_t room, size_t k, struct line *line)
{
    const uint8_t *bytes = journal + k * LINE_BYTES;

    if (k >= room / LINE_BYTES || u16_at(bytes) != 14)
        return false;
    line->kind = u16_at(bytes + 2);
    line->time = u32_at(bytes + 4);
    line->process = u32_at(bytes + 8);
    line->value = (int32_t)u32_at(bytes + 12);
    return true;
}

void tell_line(const struct line *line)
{
    const struct row *kind = find(kinds, line->kind);

    printf("time %" PRIu32 ", process %" PRIu32 ": %s", line->time, line->process, kind->name);
    if (kind->words != NULL)
        printf(", %s %" PRId32, kind->words, line->value);
    printf("\n");
}

enum status status_of(uint64_t answer)
{
    switch (DESK_RUN_ANSWER(answer)) {
    case DESK_CLOSED:
    case DESK_IDLE:
    case DESK_LIMIT:
        return FINE;
    default:
        return REFUSED_OR_FAULT;
    }
}
