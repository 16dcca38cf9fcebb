/* Lists every close pair of accesses that race, of a trace text that stands on standard input: `pairs k`,
 * then `race s t` for each, in the order of t and then of s; or `refused number position`. The exit
 * status is 0 where there is no pair, 1 where there is one, 2 for a refusal, and 3 where the text could
 * not be read, there is no memory, or the answer could not be written.
 *
 * Most runs have few pairs, so it first lends room for a few. Where that does not do, the call says so by
 * row 20 and writes nothing; then it lends as much as suffices for any trace of that length.
 *
 * `examples/c/run` builds and runs it. */

#include <inttypes.h>
#include <stdio.h>
#include <stdlib.h>

#include "racejudge.h"

/* So many bytes decide, whatever follows. */
enum { BYTES = 53274, EVENTS = RACEJUDGE_TEXT_EVENTS, CELLS = RACEJUDGE_WORKSPACE + EVENTS };

enum { FEW = 8, TOO_SHORT = 20 };

static uint8_t text[BYTES], kinds[EVENTS];
static uint16_t tasks[EVENTS], operands[EVENTS], workspace[CELLS];

/* The exit status, once the answer is written. */
static int written(int status)
{
    if (fflush(stdout) != 0) {
        perror("pairs: standard output");
        return 3;
    }
    return status;
}

static int refused(const uint64_t *values)
{
    printf("refused %" PRIu64 " %" PRIu64 "\n", values[0], values[1]);
    return written(2);
}

static int listed(const uint16_t *earlier, const uint16_t *later, uint64_t pairs)
{
    printf("pairs %" PRIu64 "\n", pairs);
    for (uint64_t i = 0; i < pairs; i++)
        printf("race %u %u\n", earlier[i], later[i]);
    return written(pairs > 0);
}

/* Asks with slices of so many cells. */
static uint64_t ask(size_t n, uint16_t *earlier, uint16_t *later, size_t cells, uint64_t *values)
{
    return racejudge_pairs(kinds, n, tasks, n, operands, n, workspace, CELLS, earlier, cells, later,
                           cells, values);
}

/* Asks with as much as suffices. */
static int ask_again(size_t n)
{
    size_t cells = RACEJUDGE_MAX_PAIRS(n);
    uint16_t *earlier = malloc(2 * cells * sizeof *earlier);
    if (earlier == NULL) {
        perror("pairs");
        return 3;
    }
    uint16_t *later = earlier + cells;
    uint64_t values[2];
    int status = ask(n, earlier, later, cells, values) == RACEJUDGE_LISTED
                     ? listed(earlier, later, values[0])
                     : refused(values);
    free(earlier);
    return status;
}

int main(void)
{
    size_t length = fread(text, 1, BYTES, stdin);
    if (ferror(stdin)) {
        perror("pairs: standard input");
        return 3;
    }
    uint64_t values[2];
    if (racejudge_translate(text, length, kinds, EVENTS, tasks, EVENTS, operands, EVENTS, values)
        != RACEJUDGE_TRANSLATED)
        return refused(values);
    size_t n = values[0];
    uint16_t earlier[FEW], later[FEW];
    if (ask(n, earlier, later, FEW, values) == RACEJUDGE_LISTED)
        return listed(earlier, later, values[0]);
    return values[0] == TOO_SHORT ? ask_again(n) : refused(values);
}
