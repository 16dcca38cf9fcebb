/* Judges two traces of a drop counter at location 9, to which task 0 and two children add with no order
 * between them. At the end task 0 reads it: in the one it has joined both children, in the other it
 * reads something else in place of the second join. Prints
 *
 *     both joined: clean, 4 sums of location 9
 *     one joined: race 1 10
 *
 * `examples/c/run` builds and runs it. */

#include <inttypes.h>
#include <stdio.h>

#include "racejudge.h"

enum { EVENTS = 11, CELLS = RACEJUDGE_WORKSPACE + EVENTS, COUNTER = 9, SECOND_JOIN = 9 };
enum {
    READ = RACEJUDGE_READ,
    FORK = RACEJUDGE_FORK,
    JOIN = RACEJUDGE_JOIN,
    HALT = RACEJUDGE_HALT,
    SUM = RACEJUDGE_SUM
};

static uint8_t kinds[EVENTS] = {FORK, SUM, HALT, FORK, SUM, SUM, HALT, SUM, JOIN, JOIN, READ};
static const uint16_t tasks[EVENTS] = {0, 1, 1, 0, 2, 2, 2, 0, 0, 0, 0};
static uint16_t operands[EVENTS] = {1, COUNTER, 0, 2, COUNTER, COUNTER, 0, COUNTER, 2, 1, COUNTER};

static uint16_t workspace[CELLS], first[EVENTS], second[EVENTS];
static racejudge_card cards[RACEJUDGE_CARDS];

static void judge(const char *name)
{
    uint64_t values[3];
    switch (racejudge_judge_cards(kinds, EVENTS, tasks, EVENTS, operands, EVENTS, workspace, CELLS,
                                  first, EVENTS, second, EVENTS, cards, RACEJUDGE_CARDS, values)) {
    case RACEJUDGE_CLEAN:
        printf("%s: clean, %u sums of location %d\n", name, cards[COUNTER].sums, COUNTER);
        break;
    case RACEJUDGE_RACE:
        printf("%s: race %" PRIu64 " %" PRIu64 "\n", name, values[0], values[1]);
        break;
    default:
        printf("%s: refused %" PRIu64 " %" PRIu64 "\n", name, values[0], values[1]);
    }
}

int main(void)
{
    judge("both joined");
    kinds[SECOND_JOIN] = READ;
    operands[SECOND_JOIN] = 0;
    judge("one joined");
    if (fflush(stdout) != 0) {
        perror("counter: standard output");
        return 1;
    }
    return 0;
}
