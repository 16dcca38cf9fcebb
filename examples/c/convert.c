/* Brings a trace over that was stored for version 4, in which each halt has the operand 0, and judges it.
 * Task 0 forks task 1, which forks task 2. Each is joined before what it wrote is read. Prints
 *
 *     as stored: refused 12 3
 *     event 3: task 2 halts, task 1 resumes
 *     event 7: task 1 halts, task 0 resumes
 *     converted: clean
 *
 * `examples/c/run` builds and runs it. */

#include <inttypes.h>
#include <stdio.h>

#include "racejudge.h"

enum { EVENTS = 10, CELLS = RACEJUDGE_WORKSPACE + EVENTS };
enum {
    READ = RACEJUDGE_READ,
    WRITE = RACEJUDGE_WRITE,
    FORK = RACEJUDGE_FORK,
    JOIN = RACEJUDGE_JOIN,
    HALT = RACEJUDGE_HALT
};

static const uint8_t kinds[EVENTS] = {FORK, FORK, WRITE, HALT, JOIN, READ, WRITE, HALT, JOIN, READ};
static const uint16_t tasks[EVENTS] = {0, 1, 2, 2, 1, 1, 1, 1, 0, 0};
static uint16_t operands[EVENTS] = {1, 2, 5, 0, 2, 5, 6, 0, 1, 6};

static uint16_t workspace[CELLS], first[EVENTS], second[EVENTS];

static void judge(const char *name)
{
    uint64_t values[3];
    switch (racejudge_judge(kinds, EVENTS, tasks, EVENTS, operands, EVENTS, workspace, CELLS, first,
                            EVENTS, second, EVENTS, values)) {
    case RACEJUDGE_CLEAN:
        printf("%s: clean\n", name);
        break;
    case RACEJUDGE_RACE:
        printf("%s: race %" PRIu64 " %" PRIu64 "\n", name, values[0], values[1]);
        break;
    default:
        printf("%s: refused %" PRIu64 " %" PRIu64 "\n", name, values[0], values[1]);
    }
}

static void print_halts(void)
{
    for (int p = 0; p < EVENTS; p++)
        if (kinds[p] == HALT)
            printf("event %d: task %u halts, task %u resumes\n", p, tasks[p], operands[p]);
}

int main(void)
{
    uint64_t values[2];
    judge("as stored");
    /* The operands alone are written. */
    if (racejudge_convert(kinds, EVENTS, tasks, EVENTS, operands, EVENTS, workspace, CELLS, values)
        == RACEJUDGE_CONVERTED)
        print_halts();
    else
        printf("refused %" PRIu64 " %" PRIu64 "\n", values[0], values[1]);
    judge("converted");
    if (fflush(stdout) != 0) {
        perror("convert: standard output");
        return 1;
    }
    return 0;
}
