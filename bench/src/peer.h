/* What the judges in C share: the names of the calls, a trace, and how the judge's answer is handed
 * back. */

#ifndef PEER_H
#define PEER_H

#include <stddef.h>
#include <stdint.h>
#include <string.h>

#include "answer.h"
#include "hints.h"
#include "kinds.h"

#define GLUED(name, call) name##_##call
#define EXPORTED(name, call) GLUED(name, call)

/* Whatever the name, the compiler holds the calls to the prototypes of racejudge.h. */
__typeof__(racejudge_judge) EXPORTED(NAME, judge);
__typeof__(racejudge_ordering) EXPORTED(NAME, ordering);

/* A location has four cells side by side: one for each kind of access, in their row, which tells what
 * an access of that kind conflicts with; the fourth is spare. */
enum { OF_LOCATION = 4 };

/* For a kind, ones in the cells of those that it conflicts with; none for a move. */
static const uint64_t CONFLICTS[] = {
    [READ] = 0x0000ffffffff0000, [WRITE] = 0x0000ffffffffffff, [SUM] = 0x00000000ffffffff};

/* Whether an event of any kind and an access to the same location conflict. */
static inline int conflict(uint8_t kind, uint8_t access)
{
    return CONFLICTS[kind] >> 16 * IN_ROW[access] & 1;
}

typedef struct {
    const uint8_t *kinds;
    const uint16_t *tasks, *operands;
    size_t n;
} Trace;

/* As `say`, for the judge, which has a third value. */
static inline uint64_t say_judged(uint64_t *values, uint64_t code, uint64_t a, uint64_t b,
                                  uint64_t links)
{
    values[2] = links;
    return say(values, code, a, b);
}

/* The longest chain of the tree that a join makes, from that of the joiner's and that of the joined
 * task's tree. The lower of the two gets a link more; `under` is 1 where that is the joiner's. */
static inline uint32_t joined_chain(uint32_t mine, uint32_t other, uint32_t under)
{
    mine += under;
    other += 1 - under;
    return mine < other ? other : mine;
}

#endif
