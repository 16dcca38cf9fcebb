/* The judge's algorithm by hand, as fast as we can make it, with no index checked: the measure for
 * the proved judge. Its answers and buffers are exactly the same. How a race is found by two orders,
 * and what is tuned there, stands in ranks.h.
 *
 * Each tree of the table of joins has one task in the line, and is known by it: how many tasks it
 * has, and how long its longest chain is.
 *
 * What is tuned beside that: the orders are written many cells at a time; everything is cleared once
 * at the end.
 *
 * Compiled more than once, under the names NAME_judge and NAME_ordering. */

#include "ranks.h"

/* Tables in the workspace once the stacks are done with. */
enum {
    TREE = PAUSED, /* 2 cells for a task: how many tasks its tree has beside it, and its longest
                      chain */
    JOINS = LEFT   /* the position of each join */
};

/* Cells of an order that are written together. */
enum { CHUNK = 16 };

/* Whether one of the operands of a block is the location. */
static inline int in_block(const uint16_t *operands, uint16_t location)
{
    uint16_t found = 0;
    for (size_t j = 0; j < BLOCK; j++)
        found |= operands[j] == location;
    return found;
}

/* The earliest access that the one at `race` races with. */
static Place partner(Trace trace, const uint16_t *ws, Place race)
{
    uint8_t kind = trace.kinds[race.at];
    uint16_t location = trace.operands[race.at];
    uint16_t own = ws[NEXT + race.segment];
    size_t segment = 0;
    for (size_t p = 0;; p += BLOCK) {
        if (p + BLOCK <= race.at && !in_block(trace.operands + p, location))
            continue;
        for (size_t s = p; s < p + BLOCK; s++) {
            if (trace.operands[s] != location || !conflict(trace.kinds[s], kind))
                continue;
            while (segment < race.segment && ws[MOVES + segment] < s)
                segment++;
            if (ws[NEXT + segment] > own)
                return (Place){s, segment};
        }
    }
}

/* An order buffer: cells that are written, and cells that may be. */
typedef struct {
    uint16_t *cells;
    size_t length, room;
} Order;

/* Appends the positions from p up to q, a chunk at a time while there is room. */
static inline void append(Order *order, size_t p, size_t q)
{
    size_t at = order->length;
    order->length += q - p;
    for (; p < q && at + CHUNK <= order->room; p += CHUNK, at += CHUNK)
        for (size_t j = 0; j < CHUNK; j++)
            order->cells[at + j] = p + j;
    for (; p < q; p++, at++)
        order->cells[at] = p;
}

/* Appends the positions from `from` up to `to`, those whose number is at most `limit` to orders[1]
 * and the others to orders[0]. */
static void split(Trace trace, const uint16_t *ws, Order *orders, Place from, Place to,
                  uint16_t limit)
{
    size_t p = from.at;
    for (size_t i = from.segment; i < to.segment; i++) {
        size_t move = ws[MOVES + i], q = move + (trace.kinds[move] != JOIN);
        append(&orders[ws[NEXT + i] <= limit], p, q);
        p = q;
    }
    append(&orders[ws[NEXT + to.segment] <= limit], p, to.at);
}

/* Writes the orders for a race; its partner's position. The first buffer takes D, the second for a
 * while the others. Before s, what reaches t has a number below that of s and reaches s too. */
__attribute__((noinline)) static size_t report(Trace trace, const uint16_t *ws, uint16_t *first,
                                               uint16_t *second, Place race)
{
    Place other = partner(trace, ws, race), next = {other.at + 1, other.segment};
    size_t s = other.at, t = race.at;
    Order orders[2] = {{second, 0, t + 1}, {first, 0, t + 1}};
    split(trace, ws, orders, (Place){0, 0}, other, ws[NEXT + other.segment]);
    split(trace, ws, orders, next, race, ws[NEXT + race.segment]);
    size_t in_d = orders[1].length;
    first[in_d] = s;
    first[in_d + 1] = t;
    memcpy(first + in_d + 2, second, orders[0].length * sizeof *second);
    memcpy(second, first, (t + 1) * sizeof *first);
    second[in_d] = t;
    second[in_d + 1] = s;
    return s;
}

/* The longest chain of the table of joins after the first `moves` moves. */
static uint32_t links_after(Trace trace, uint16_t *ws, size_t moves)
{
    size_t joins = 0;
    for (size_t i = 0; i < moves; i++) {
        size_t p = ws[MOVES + i];
        ws[JOINS + joins] = p;
        joins += trace.kinds[p] == JOIN;
    }
    memset(ws + TREE, 0, 2 * TASKS * sizeof *ws);
    uint32_t longest = 0;
    for (size_t i = 0; i < joins; i++) {
        size_t p = ws[JOINS + i];
        uint16_t *mine = ws + TREE + 2 * trace.tasks[p], *other = ws + TREE + 2 * trace.operands[p];
        uint32_t chain = joined_chain(mine[1], other[1], mine[0] < other[0]);
        mine[0] += other[0] + 1;
        mine[1] = chain;
        longest = longest < chain ? chain : longest;
    }
    return longest;
}

/* A race among the events that keep the rules decides; if there is none, a broken rule. */
static inline uint64_t judge_events(Trace trace, uint16_t *ws, uint16_t *first, uint16_t *second,
                                    uint64_t *values)
{
    Kept kept = rank(trace, ws);
    number(ws);
    Place race = scan(trace, ws, kept);
    if (race.at == kept.events && kept.row != 0)
        return say_judged(values, RACEJUDGE_REFUSED, kept.row, kept.events, 0);
    uint32_t links = links_after(trace, ws, race.segment);
    if (race.at == kept.events)
        return say_judged(values, RACEJUDGE_CLEAN, 0, 0, links);
    return say_judged(values, RACEJUDGE_RACE, report(trace, ws, first, second, race), race.at,
                      links);
}

uint64_t EXPORTED(NAME, judge)(const uint8_t *kinds, size_t n, const uint16_t *tasks,
                               size_t tasks_len, const uint16_t *operands, size_t operands_len,
                               uint16_t *ws, size_t ws_len, uint16_t *first, size_t first_len,
                               uint16_t *second, size_t second_len, uint64_t values[3])
{
    uint64_t row = size_row(n, tasks_len, operands_len, ws_len);
    if (row == 0 && (first_len < n || second_len < n))
        row = 4;
    if (row != 0)
        return say_judged(values, RACEJUDGE_REFUSED, row, 0, 0);
    uint64_t said = judge_events((Trace){kinds, tasks, operands, n}, ws, first, second, values);
    memset(ws, 0, (WORKSPACE + n) * sizeof *ws);
    return said;
}

/* The segment of event p: moves before it open one each, and so does a join itself. */
static size_t segment_of(Trace trace, const uint16_t *ws, size_t moves, size_t p)
{
    size_t segment = trace.kinds[p] == JOIN;
    for (size_t i = 0; i < moves; i++)
        segment += ws[MOVES + i] < p;
    return segment;
}

/* Whether event p is q or reaches it. Of their segments, the list shows which comes first. */
static int reaches(Trace trace, const uint16_t *ws, size_t moves, size_t p, size_t q)
{
    size_t of_p = segment_of(trace, ws, moves, p), of_q = segment_of(trace, ws, moves, q);
    size_t segment = 0;
    while (segment != of_p && segment != of_q)
        segment = ws[NEXT + segment];
    return p <= q && segment == of_p;
}

uint64_t EXPORTED(NAME, ordering)(const uint8_t *kinds, size_t n, const uint16_t *tasks,
                                  size_t tasks_len, const uint16_t *operands, size_t operands_len,
                                  uint16_t *ws, size_t ws_len, size_t p, size_t q,
                                  uint64_t values[2])
{
    uint64_t row = size_row(n, tasks_len, operands_len, ws_len);
    if (row != 0)
        return say(values, RACEJUDGE_REFUSED, row, 0);
    const Trace trace = {kinds, tasks, operands, n};
    Kept kept = rank(trace, ws);
    uint64_t said;
    if (kept.row != 0)
        said = say(values, RACEJUDGE_REFUSED, kept.row, kept.events);
    else if (p >= n || q >= n)
        said = say(values, RACEJUDGE_REFUSED, 13, 0);
    else if (reaches(trace, ws, kept.moves, p, q))
        said = say(values, RACEJUDGE_YES, 0, 0);
    else
        said = say(values, RACEJUDGE_NO, 0, 0);
    memset(ws, 0, (WORKSPACE + n) * sizeof *ws);
    return said;
}
