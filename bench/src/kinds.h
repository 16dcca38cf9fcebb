/* The kinds of event, as the peers in C tell them apart. */

#ifndef KINDS_H
#define KINDS_H

#include <stdint.h>

#include "racejudge.h"

enum {
    READ = RACEJUDGE_READ,
    WRITE = RACEJUDGE_WRITE,
    FORK = RACEJUDGE_FORK,
    JOIN = RACEJUDGE_JOIN,
    HALT = RACEJUDGE_HALT,
    SUM = RACEJUDGE_SUM
};

/* Forks, joins and halts move the line; all others that are known are accesses. */
static inline int is_move(uint8_t kind)
{
    return (uint8_t)(kind - FORK) <= HALT - FORK;
}

/* The kinds of access in a row, and behind them the moves. */
static const uint8_t IN_ROW[] = {
    [READ] = 0, [WRITE] = 1, [SUM] = 2, [FORK] = 3, [JOIN] = 3, [HALT] = 3};

#endif
