/* The conversion of stored traces by hand, as one writes it in C: one pass over the events with a
 * stack of the active tasks and one of those that have halted and are not joined. The measure for the
 * proved conversion. */

#include <stddef.h>
#include <stdint.h>
#include <string.h>

#include "answer.h"
#include "hints.h"
#include "kinds.h"

/* The compiler holds the call to the prototype of racejudge.h. */
__typeof__(racejudge_convert) resume_convert;

/* Tables in the workspace. */
enum {
    USED = 0,      /* 1: number used */
    ACTIVE = 1024, /* the running task is the last */
    LEFT = 2048    /* the halted tasks that are not joined */
};

/* The first event from i on that is no access of task x to a location. */
static inline size_t accesses(const uint8_t *kinds, const uint16_t *tasks, const uint16_t *operands,
                              size_t n, uint16_t x, size_t i)
{
    while (i < n && LIKELY(!is_move(kinds[i]) & (kinds[i] <= SUM) & (tasks[i] == x) &
                           (operands[i] < LOCATIONS)))
        i++;
    return i;
}

/* All events up to the first that breaks a rule, for which a halt's operand is 0. */
static void convert_events(const uint8_t *kinds, const uint16_t *tasks, uint16_t *operands, size_t n,
                           uint16_t *ws)
{
    memset(ws + USED, 0, TASKS * sizeof *ws);
    ws[USED] = 1;
    ws[ACTIVE] = 0;
    size_t active = 1, left = 0;
    for (size_t i = 0; active != 0; i++) {
        uint16_t x = ws[ACTIVE + active - 1];
        i = accesses(kinds, tasks, operands, n, x, i);
        if (i == n || tasks[i] != x)
            return;
        uint16_t operand = operands[i];
        switch (kinds[i]) {
        case FORK:
            if (operand >= TASKS || ws[USED + operand])
                return;
            ws[USED + operand] = 1;
            ws[ACTIVE + active++] = operand;
            break;
        case JOIN:
            if (left == 0 || ws[LEFT + left - 1] != operand)
                return;
            left--;
            break;
        case HALT:
            if (operand != 0)
                return;
            ws[LEFT + left++] = x;
            active--;
            operands[i] = active == 0 ? 0 : ws[ACTIVE + active - 1];
            break;
        default:
            return;
        }
    }
}

uint64_t resume_convert(const uint8_t *kinds, size_t n, const uint16_t *tasks, size_t tasks_len,
                        uint16_t *operands, size_t operands_len, uint16_t *ws, size_t ws_len,
                        uint64_t values[2])
{
    uint64_t row = size_row(n, tasks_len, operands_len, ws_len);
    if (row != 0)
        return say(values, RACEJUDGE_REFUSED, row, 0);
    convert_events(kinds, tasks, operands, n, ws);
    memset(ws, 0, (WORKSPACE + n) * sizeof *ws);
    return say(values, RACEJUDGE_CONVERTED, 0, 0);
}
