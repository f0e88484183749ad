/* A run that is kept open and moved on, and the command `desk moves`. */
#ifndef BUNGALISTOR_MOVES_H
#define BUNGALISTOR_MOVES_H

#include <stdbool.h>

#include "desk.h"
#include "words.h"

/* Room for more lines than one step can write, so that an emptied journal always lets the run move on. */
#define JOURNAL_LINES 4096u

/* A run that is kept open between calls, its file, and the lines of its last call. */
struct open_run {
    const uint8_t *file;
    size_t length;
    uint64_t row[DESK_WORDS];
    uint8_t journal[JOURNAL_LINES * LINE_BYTES];
};

/* Opens a run of the file. False, and the refusal is told, if it is refused. */
bool opens(struct open_run *run, const uint8_t *file, size_t length);

/* One call of at most so many steps, with room for so many lines, up to JOURNAL_LINES; the answer is desk_move's. */
uint64_t call(struct open_run *run, uint32_t steps, size_t lines);

/* The next of the calls that make `steps` steps together. When the journal is full, the next call begins an empty one: 30 is no
 * end. `answer` is that of the calls so far, and NO_CALL before the first. False, and nothing is done, after the last. */
bool moves_on(struct open_run *run, uint32_t steps, uint64_t *answer);

#define NO_CALL ((uint64_t)FAULT_JOURNAL << 32)

/* Opens a run of the file and moves it on `steps` steps at a time, until it ends or has made `most` steps. After each time its
 * lines are told, the answer, and the clock. */
enum status moves(const uint8_t *file, size_t length, uint32_t steps, uint32_t most);

#endif
