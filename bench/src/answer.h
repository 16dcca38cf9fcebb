/* The limits, the size checks, and how an answer is handed back. */

#ifndef ANSWER_H
#define ANSWER_H

#include <stddef.h>
#include <stdint.h>

#include "racejudge.h"

enum { TASKS = 1024, LOCATIONS = 1024, WORKSPACE = RACEJUDGE_WORKSPACE };

/* Rows 1 to 3, or 0. */
static inline uint64_t size_row(size_t n, size_t tasks_len, size_t operands_len, size_t ws_len)
{
    if (tasks_len != n || operands_len != n)
        return 1;
    if (n > RACEJUDGE_MAX_EVENTS)
        return 2;
    if (ws_len < WORKSPACE + n)
        return 3;
    return 0;
}

static inline uint64_t say(uint64_t *values, uint64_t code, uint64_t a, uint64_t b)
{
    values[0] = a;
    values[1] = b;
    return code;
}

#endif
