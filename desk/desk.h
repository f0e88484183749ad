/* The booking desk's functions of the library desk. A model file is handed over as its bytes and their number; nothing of it is
 * written, and any bytes get an answer. What each answer means is proved in crates/desk_c; the words are document 01's. */
#ifndef BUNGALISTOR_DESK_H
#define BUNGALISTOR_DESK_H

#include <stddef.h>
#include <stdint.h>

/* Check: 0 if the model is accepted. Otherwise the refusal: its number, 1 to 10, times 65,536, plus the byte place of the record
 * (0 to 65,535; a file of over 65,535 bytes is refused with 4 at place 0). */
uint32_t desk_check(const uint8_t *file, size_t length);

#define DESK_REFUSAL_NUMBER(answer) ((uint32_t)(answer) >> 16)
#define DESK_REFUSAL_PLACE(answer) ((uint32_t)(answer) & 65535u)

/* Read a text (docs/TEXT.md) into a model file, for which `room` bytes are lent, that may not overlap the text. 0: its records
 * stand in the first `*place` of them, and desk_check accepts those; no byte behind them is changed. Otherwise the refusal's number,
 * 51 to 55, and `*place` is how many bytes of the text stand before what is refused; then nothing lent but `*place` is changed. No
 * text of any length has records of over 65,534 bytes. */
uint32_t desk_text(const uint8_t *text, size_t length, uint8_t *records, size_t room, size_t *place);

/* Bound: below 2^32 the number of steps that no run of the model passes. Otherwise the high 32 bits are DESK_NONE, for a model
 * that has a WHILE or a START of a body that isn't later; DESK_OVER, for a bound over 4,294,967,295; or DESK_REFUSED, and then
 * the low 32 bits are what desk_check answers. */
uint64_t desk_bound(const uint8_t *file, size_t length);

#define DESK_NONE 1u
#define DESK_OVER 2u
#define DESK_REFUSED 3u
#define DESK_BOUND_KIND(answer) ((uint32_t)((uint64_t)(answer) >> 32))

/* Run whole: at most `limit` steps from fresh. The high 32 bits are DESK_CLOSED, DESK_IDLE, DESK_LIMIT or a fault's number (20
 * to 30; a fresh run never gives 20), and then the low 32 bits are the steps done. Or the high ones are DESK_REFUSED, and then
 * the low ones are what desk_check answers.
 *
 * The journal is `room` bytes, lent to be written, and may not overlap the file. A line takes 16 of them, little-endian: u16 14,
 * u16 kind, u32 time, u32 process, i32 value. A step whose lines don't fit is fault 30. The lines stand one after the other from
 * the first byte on; no byte behind them is changed, and a refusal changes none. So the desk should set the journal to 0 before:
 * its lines are then those up to the first that doesn't begin with 14. */
uint64_t desk_run(const uint8_t *file, size_t length, uint32_t limit, uint8_t *journal, size_t room);

#define DESK_CLOSED 0u
#define DESK_IDLE 1u
#define DESK_LIMIT 2u
#define DESK_RUN_ANSWER(answer) ((uint32_t)((uint64_t)(answer) >> 32))
#define DESK_RUN_STEPS(answer) ((uint32_t)(answer))

/* An open run is a row of DESK_WORDS words that the desk keeps between calls, and may copy. Its meaning is the library's own; a
 * desk reads of it what is named below, and hands it back as it got it. It belongs to its file: both are handed over at each
 * call.
 *
 * Open: 0, and the row holds the fresh run. Otherwise what desk_check answers; or 20 times 65,536, if `words` isn't DESK_WORDS.
 * Then the row is as it was. */
uint32_t desk_open(const uint8_t *file, size_t length, uint64_t *run, size_t words);

/* Move on: at most `limit` steps more. The high 32 bits are DESK_CLOSED, DESK_IDLE, DESK_LIMIT or a fault's number, and the low
 * ones the steps done in this call. 20 is the answer if the file is refused, or the row is not one that a sound run of it has:
 * then nothing is changed. The journal is as with desk_run, and begins anew at each call. After 30 the run stands before the step
 * whose lines didn't fit: with an empty journal, or a longer one, it goes on. File, row and journal may not overlap. */
uint64_t desk_move(const uint8_t *file, size_t length, uint64_t *run, size_t words, uint32_t limit, uint8_t *journal,
                   size_t room);

#define DESK_WORDS 10712u

/* What a desk may read of a row that desk_open or desk_move left; where it stands is crates/base_numbers' to say. The clock; and
 * by its number, below DESK_THINGS, how much of a resource is free, how much is in a bin, the value of a variable, and how many
 * wait at a sync. */
#define DESK_THINGS 32u
#define DESK_CLOCK(run) ((run)[0])
#define DESK_FREE(run, resource) ((run)[8 + (resource)])
#define DESK_BIN(run, bin) ((run)[40 + (bin)])
#define DESK_VARIABLE(run, variable) ((int64_t)(run)[72 + (variable)] - 2147483648)
#define DESK_WAITING(run, sync) ((run)[104 + (sync)])

/* How many are blocked, and the place of each, k from 0 in the order of the list. A living process has a place, below
 * DESK_PLACES; there are its number, which is 0 where nobody is, and in how many blocks it is, 1 to DESK_DEEPEST. Of the
 * depth-th of these, 1 for the outermost: which block it is, and at which of its actions the process stands, both from 0. */
#define DESK_PLACES 64u
#define DESK_DEEPEST 8u
#define DESK_BLOCKED(run) ((run)[6])
#define DESK_BLOCKED_PLACE(run, k) ((run)[136 + (k)] % DESK_PLACES)
#define DESK_PROCESS(run, place) ((run) + 2504 + 128 * (place))
#define DESK_NUMBER(run, place) (DESK_PROCESS(run, place)[0])
#define DESK_DEPTH(run, place) (DESK_PROCESS(run, place)[2])
#define DESK_BLOCK(run, place, depth) (DESK_PROCESS(run, place)[43 + (depth)] % 65536)
#define DESK_ACTION(run, place, depth) (DESK_PROCESS(run, place)[43 + (depth)] / 65536 % 65536)

#endif
