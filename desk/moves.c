/* A run that is kept open between calls, and the command `desk moves`, which moves it on so many steps at a time. */
#include "moves.h"

#include <inttypes.h>
#include <stdio.h>
#include <string.h>

#include "waits.h"

bool opens(struct open_run *run, const uint8_t *file, size_t length)
{
    uint32_t refusal = desk_open(file, length, run->row, DESK_WORDS);

    if (refusal != 0)
        tell_refusal(refusal, length);
    run->file = file;
    run->length = length;
    return refusal == 0;
}

uint64_t call(struct open_run *run, uint32_t steps, size_t lines)
{
    memset(run->journal, 0, lines * LINE_BYTES);
    return desk_move(run->file, run->length, run->row, DESK_WORDS, steps, run->journal, lines * LINE_BYTES);
}

bool moves_on(struct open_run *run, uint32_t steps, uint64_t *answer)
{
    uint32_t done = DESK_RUN_STEPS(*answer);

    if (DESK_RUN_ANSWER(*answer) != FAULT_JOURNAL)
        return false;
    *answer = call(run, steps - done, JOURNAL_LINES);
    done += DESK_RUN_STEPS(*answer);
    *answer = (uint64_t)DESK_RUN_ANSWER(*answer) << 32 | done;
    return true;
}

enum status moves(const uint8_t *file, size_t length, uint32_t steps, uint32_t most)
{
    static struct open_run run;
    static struct follower follower;

    if (!opens(&run, file, length))
        return REFUSED_OR_FAULT;
    follow(&follower, file, length);
    for (;;) {
        uint64_t answer = NO_CALL;
        while (moves_on(&run, steps < most ? steps : most, &answer))
            tell_lines(&follower, run.journal, sizeof run.journal);
        most -= DESK_RUN_STEPS(answer);
        tell_answer(answer);
        printf(", clock %" PRIu64 "\n", DESK_CLOCK(run.row));
        if (DESK_RUN_ANSWER(answer) != DESK_LIMIT || most == 0)
            return status_of(answer);
    }
}
