/* Judges a trace of four events, in which task 0 reads what its child wrote and has not joined it:
 *
 *     0 fork 1
 *     1 write 5
 *     1 halt 0
 *     0 read 5
 *
 * and asks whether the write reaches the read. Prints
 *
 *     race 1 3
 *     0 1 3 2
 *     0 3 1 2
 *     does 1 reach 3: no
 *
 * `examples/c/run` builds and runs it. */

#include <inttypes.h>
#include <stdio.h>

#include "racejudge.h"

enum { EVENTS = 4, CELLS = RACEJUDGE_WORKSPACE + EVENTS };

static const uint8_t kinds[EVENTS] = {RACEJUDGE_FORK, RACEJUDGE_WRITE, RACEJUDGE_HALT,
                                      RACEJUDGE_READ};
static const uint16_t tasks[EVENTS] = {0, 1, 1, 0};
static const uint16_t operands[EVENTS] = {1, 5, 0, 5};

static uint16_t workspace[CELLS], first[EVENTS], second[EVENTS];

static void print_order(const uint16_t *order, uint64_t count)
{
    for (uint64_t i = 0; i < count; i++)
        printf("%s%u", i == 0 ? "" : " ", order[i]);
    printf("\n");
}

int main(void)
{
    /* A program with this call does not link with an archive of another version. */
    if (racejudge_version() != RACEJUDGE_VERSION)
        return 2;
    uint64_t values[3];
    uint64_t said = racejudge_judge(kinds, EVENTS, tasks, EVENTS, operands, EVENTS, workspace, CELLS,
                                    first, EVENTS, second, EVENTS, values);
    switch (said) {
    case RACEJUDGE_CLEAN:
        printf("clean\n");
        break;
    case RACEJUDGE_RACE:
        printf("race %" PRIu64 " %" PRIu64 "\n", values[0], values[1]);
        print_order(first, values[1] + 1);
        print_order(second, values[1] + 1);
        break;
    default:
        printf("refused %" PRIu64 " %" PRIu64 "\n", values[0], values[1]);
    }
    said = racejudge_ordering(kinds, EVENTS, tasks, EVENTS, operands, EVENTS, workspace, CELLS, 1, 3,
                              values);
    if (said == RACEJUDGE_REFUSED)
        printf("refused %" PRIu64 " %" PRIu64 "\n", values[0], values[1]);
    else
        printf("does 1 reach 3: %s\n", said == RACEJUDGE_YES ? "yes" : "no");
    if (fflush(stdout) != 0) {
        perror("example: standard output");
        return 1;
    }
    return 0;
}
