/* Judges a plan that stands on standard input, with or without a line feed behind it: read, then judged.
 * Prints `clean N`, `race s t` and where the two leaves stand in the plan, or `refused number position`;
 * the exit status is 0, 1 or 2, and 3 where the plan could not be read or the answer not written.
 *
 * `examples/c/run` builds and runs it. */

#include <inttypes.h>
#include <stdbool.h>
#include <stdio.h>

#include "racejudge.h"

/* No plan of that many events is longer: each leaf takes 5 bytes, each S 4, and so the line feed fits. */
enum { EVENTS = RACEJUDGE_MAX_EVENTS, BYTES = 9 * EVENTS, CELLS = RACEJUDGE_WORKSPACE + EVENTS };

static uint8_t text[BYTES + 1], kinds[EVENTS];
static uint16_t tasks[EVENTS], operands[EVENTS];
static uint16_t workspace[CELLS], first[EVENTS], second[EVENTS];

/* The exit status, once the answer is written. */
static int written(int status)
{
    if (fflush(stdout) != 0) {
        perror("plan: standard output");
        return 3;
    }
    return status;
}

static int refused(const uint64_t *values)
{
    printf("refused %" PRIu64 " %" PRIu64 "\n", values[0], values[1]);
    return written(2);
}

static bool is_access(uint8_t kind)
{
    return kind == RACEJUDGE_READ || kind == RACEJUDGE_WRITE || kind == RACEJUDGE_SUM;
}

static bool is_leaf(uint8_t byte)
{
    return byte == 'r' || byte == 'w' || byte == 's';
}

/* The byte of the leaf that made an access: leaves and accesses stand in one order. */
static size_t byte_of(size_t event)
{
    size_t leaves = 0, byte = 0;
    for (size_t p = 0; p < event; p++)
        leaves += is_access(kinds[p]);
    while (leaves > 0 || !is_leaf(text[byte]))
        leaves -= is_leaf(text[byte++]);
    return byte;
}

static void print_leaf(size_t event)
{
    size_t byte = byte_of(event);
    printf("event %zu is %c%u at byte %zu\n", event, text[byte], operands[event], byte);
}

int main(void)
{
    size_t length = fread(text, 1, BYTES + 1, stdin);
    if (ferror(stdin)) {
        perror("plan: standard input");
        return 3;
    }
    if (length > BYTES) {
        fprintf(stderr, "plan: standard input is too long for a plan\n");
        return 3;
    }
    if (length > 0 && text[length - 1] == '\n')
        length--;
    uint64_t values[3];
    if (racejudge_plan(text, length, kinds, EVENTS, tasks, EVENTS, operands, EVENTS, values)
        != RACEJUDGE_TRANSLATED)
        return refused(values);
    size_t n = values[0];
    switch (racejudge_judge(kinds, n, tasks, n, operands, n, workspace, CELLS, first, EVENTS, second,
                            EVENTS, values)) {
    case RACEJUDGE_CLEAN:
        printf("clean %zu\n", n);
        return written(0);
    case RACEJUDGE_RACE:
        printf("race %" PRIu64 " %" PRIu64 "\n", values[0], values[1]);
        print_leaf(values[0]);
        print_leaf(values[1]);
        return written(1);
    default:
        return refused(values);
    }
}
