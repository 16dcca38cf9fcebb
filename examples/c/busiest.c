/* Judges a trace of 15 events with cards, in which two children read a table at location 3 and leave
 * a result each at 7 and 8, and prints the two locations that are touched most and how long the
 * chains of joins are:
 *
 *     location 3: reads 3, writes 1, sums 0, first at event 0, last at event 7
 *     location 7: reads 2, writes 1, sums 0, first at event 4, last at event 14
 *     links in the longest chain of joins: 1
 *
 * `examples/c/run` builds and runs it. */

#include <inttypes.h>
#include <stdio.h>

#include "racejudge.h"

enum { EVENTS = 15, CELLS = RACEJUDGE_WORKSPACE + EVENTS, SHOWN = 2 };
enum {
    READ = RACEJUDGE_READ,
    WRITE = RACEJUDGE_WRITE,
    FORK = RACEJUDGE_FORK,
    JOIN = RACEJUDGE_JOIN,
    HALT = RACEJUDGE_HALT
};

/* Task 0 writes the table and forks task 1, then task 2; it joins both and reads what they left. Their
 * halts name task 0, which resumes. */
static const uint8_t kinds[EVENTS] = {WRITE, FORK, READ, READ, WRITE, HALT, FORK, READ,
                                      WRITE, HALT, JOIN, JOIN, READ,  READ, READ};
static const uint16_t tasks[EVENTS] = {0, 0, 1, 1, 1, 1, 0, 2, 2, 2, 0, 0, 0, 0, 0};
static const uint16_t operands[EVENTS] = {3, 1, 3, 3, 7, 0, 2, 3, 8, 0, 2, 1, 7, 8, 7};

static uint16_t workspace[CELLS], first[EVENTS], second[EVENTS];
static racejudge_card cards[RACEJUDGE_CARDS];

static uint32_t accesses(size_t location)
{
    return cards[location].reads + cards[location].writes + cards[location].sums;
}

/* The first of those that are touched most. */
static size_t busiest(void)
{
    size_t found = 0;
    for (size_t location = 1; location < RACEJUDGE_CARDS; location++)
        if (accesses(location) > accesses(found))
            found = location;
    return found;
}

static void print_busiest(void)
{
    for (int shown = 0; shown < SHOWN; shown++) {
        size_t location = busiest();
        racejudge_card *card = &cards[location];
        if (card->first == RACEJUDGE_NOWHERE)
            return;
        printf("location %zu: reads %u, writes %u, sums %u, first at event %u, last at event %u\n",
               location, card->reads, card->writes, card->sums, card->first, card->last);
        /* The next is the busiest of the others. */
        card->reads = card->writes = card->sums = 0;
    }
}

int main(void)
{
    uint64_t values[3];
    switch (racejudge_judge_cards(kinds, EVENTS, tasks, EVENTS, operands, EVENTS, workspace, CELLS,
                                  first, EVENTS, second, EVENTS, cards, RACEJUDGE_CARDS, values)) {
    case RACEJUDGE_CLEAN:
        print_busiest();
        printf("links in the longest chain of joins: %" PRIu64 "\n", values[2]);
        break;
    case RACEJUDGE_RACE:
        printf("race %" PRIu64 " %" PRIu64 ", no cards\n", values[0], values[1]);
        break;
    default:
        printf("refused %" PRIu64 " %" PRIu64 ", no cards\n", values[0], values[1]);
    }
    if (fflush(stdout) != 0) {
        perror("busiest: standard output");
        return 1;
    }
    return 0;
}
