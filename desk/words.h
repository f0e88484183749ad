/* What the numbers of the library mean: told on standard output in document 01's words, and as the program's exit status. */
#ifndef BUNGALISTOR_WORDS_H
#define BUNGALISTOR_WORDS_H

#include <stdbool.h>
#include <stddef.h>
#include <stdint.h>

/* Accepted, or ended without a fault; refused, or a fault; bad usage, a file that can't be read, or memory that is short. */
enum status { FINE = 0, REFUSED_OR_FAULT = 1, TROUBLE = 2 };

/* A line of the journal, its bytes, and the kind of one that says that a process is blocked. */
struct line {
    uint32_t kind;
    uint32_t time;
    uint32_t process;
    int32_t value;
};

#define LINE_BYTES 16u
#define LINE_BLOCKED 3u

/* The fault of a step whose lines don't fit. */
#define FAULT_JOURNAL 30u

/* A refusal as desk_check gives it, of a file of `length` bytes: its number, its name, when it is given, and the byte place. */
void tell_refusal(uint32_t refusal, size_t length);

/* A bound as desk_bound gives it of an accepted model. */
void tell_bound(uint64_t bound);

/* The answer of a run of an accepted model, as desk_run gives it: CLOSED, IDLE, LIMIT or FAULT, and the steps done. The line is
 * left open for what the caller has to add. */
void tell_answer(uint64_t answer);

/* A line, unless its kind is LINE_BLOCKED: tell_lines in waits.h says why. */
void tell_line(const struct line *line);

/* Whether that answer is a fault. */
enum status status_of(uint64_t answer);

/* The number in the first two bytes, or four, the lowest one first. */
uint32_t u16_at(const uint8_t *bytes);
uint32_t u32_at(const uint8_t *bytes);

/* Whether a journal that was all 0 before it was lent has a line k, from 0, and that line. */
bool line_at(const uint8_t *journal, size_t room, size_t k, struct line *line);

#endif
