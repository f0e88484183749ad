/* Why a job waits, in words: in each line that says so, and of all who wait when a run stops (the command `desk waits`). */
#ifndef BUNGALISTOR_WAITS_H
#define BUNGALISTOR_WAITS_H

#include "moves.h"

/* In so many lines of a run it is told what the lacking item is; in later ones its number alone. Each takes a call of desk_move,
 * some 0.1 ms, and a run of a million steps can have nearly a million of them. */
#define ITEMS_TOLD 10000u

/* A second run of the file, behind the one whose lines are told. Before a line is told that says what a job lacks, it is moved
 * on and stands right before the step which wrote that line: there the job is at its REQ or TRY, and there is as much of
 * everything as the claim was tested with. */
struct follower {
    struct open_run run;
    size_t behind; /* so many lines were told that it hasn't written */
    uint32_t told; /* so many items were told */
};

/* Makes it fresh. The file was accepted. */
void follow(struct follower *follower, const uint8_t *file, size_t length);

/* The next lines of the run that is followed, in a journal that was all 0 before it was lent. */
void tell_lines(struct follower *follower, const uint8_t *journal, size_t room);

/* Runs the file for at most so many steps. Of all who are blocked then, in the order of the blocked list, it tells since when
 * and why, and how much there is now of what was lacking; then the answer. */
enum status waits(const uint8_t *file, size_t length, uint32_t steps);

#endif
