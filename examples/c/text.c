/* Judges a trace text that stands on standard input, as `racejudge` does: translated, then judged.
 * Prints `clean N`, `race s t` or `refused number position`; the exit status is 0, 1 or 2, and 3 where
 * the text could not be read or the answer not written.
 *
 * `examples/c/run` builds and runs it. */

#include <inttypes.h>
#include <stdio.h>

#include "racejudge.h"

/* So many bytes decide, whatever follows. */
enum { BYTES = 53274, EVENTS = RACEJUDGE_TEXT_EVENTS, CELLS = RACEJUDGE_WORKSPACE + EVENTS };

static uint8_t text[BYTES], kinds[EVENTS];
static uint16_t tasks[EVENTS], operands[EVENTS];
static uint16_t workspace[CELLS], first[EVENTS], second[EVENTS];

/* The exit status, once the answer is written. */
static int written(int status)
{
    if (fflush(stdout) != 0) {
        perror("text: standard output");
        return 3;
    }
    return status;
}

static int refused(const uint64_t *values)
{
    printf("refused %" PRIu64 " %" PRIu64 "\n", values[0], values[1]);
    return written(2);
}

int main(void)
{
    size_t length = fread(text, 1, BYTES, stdin);
    if (ferror(stdin)) {
        perror("text: standard input");
        return 3;
    }
    uint64_t values[3];
    if (racejudge_translate(text, length, kinds, EVENTS, tasks, EVENTS, operands, EVENTS, values)
        != RACEJUDGE_TRANSLATED)
        return refused(values);
    size_t n = values[0];
    switch (racejudge_judge(kinds, n, tasks, n, operands, n, workspace, CELLS, first, EVENTS, second,
                            EVENTS, values)) {
    case RACEJUDGE_CLEAN:
        printf("clean %zu\n", n);
        return written(0);
    case RACEJUDGE_RACE:
        printf("race %" PRIu64 " %" PRIu64 "\n", values[0], values[1]);
        return written(1);
    default:
        return refused(values);
    }
}
