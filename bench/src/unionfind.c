/* The judge by another algorithm, by hand, as fast as we can make it, with no index checked: a peer
 * of the proved judge. Its answers and buffers are exactly the same.
 *
 * Two stacks (halted tasks left of the running one; the running task over its paused ancestors), a
 * union-find forest by size with no path compression, which is the table of joins, a flag at each
 * top (the group is in left), and for each location three tasks C(read), C(write) and C(sum): for
 * each kind of access one of the leftmost group with an access that it conflicts with.
 *
 * What is tuned: the cells of a location lie side by side, are read and written as one word, and
 * name the top of the accessing task's group, so that the next search is short; the flag sits
 * in the top's own link cell; the stacks hold each task's top, so that halt and join search
 * nothing; the longest chain of a tree stands at its top, so that none is climbed for the number of
 * links; that kinds are known is tested for many events at once, before all else; accesses have a
 * loop of their own; the orders are written in one pass with no branch; everything is cleared once
 * at the end.
 *
 * Compiled under the names NAME_judge and NAME_ordering. */

#include "peer.h"

/* Tables in the workspace. */
enum {
    LEFTMOST = 0,      /* 4 cells for a location: C(read), C(write), C(sum), 0 */
    LIVE_T = 0,        /* on a race: 1 where the task's group is not in left, before t */
    LIVE_S = 1024,     /* the same before s */
    SIZE = 4096,       /* 0: number never used */
    LINK = 5120,       /* 0: top, not in left; IN_LEFT: top, in left; else parent + 1 */
    ACTIVE = 6144,     /* the running task is the last */
    ACTIVE_TOP = 7168, /* the top of its group */
    LEFT = 8192,
    LEFT_TOP = 9216,
    CHAIN = 10240 /* at a top: the most links from a task to it */
};
enum { IN_LEFT = 0xffff };

/* Kinds that are tested together. */
enum { BLOCK = 128 };

/* The depths of the two stacks, and the longest chain. */
typedef struct {
    uint32_t active, left, links;
} Line;

/* The first event of no known kind, or n. The compiler makes vectors of the loop over a block. */
static size_t first_unknown(const uint8_t *kinds, size_t n)
{
    size_t i = 0;
    for (; i + BLOCK <= n; i += BLOCK) {
        uint8_t unknown = 0;
        for (size_t j = 0; j < BLOCK; j++)
            unknown |= kinds[i + j] > SUM;
        if (unknown)
            break;
    }
    while (i < n && kinds[i] <= SUM)
        i++;
    return i;
}

static inline uint64_t cells_at(const uint16_t *ws, uint32_t l)
{
    uint64_t cells;
    memcpy(&cells, ws + LEFTMOST + OF_LOCATION * l, sizeof cells);
    return cells;
}

static inline void put_cells(uint16_t *ws, uint32_t l, uint64_t cells)
{
    memcpy(ws + LEFTMOST + OF_LOCATION * l, &cells, sizeof cells);
}

/* A task in the cell of a kind of access. */
static inline uint64_t in_cell(uint64_t task, uint32_t kind)
{
    return task << 16 * IN_ROW[kind];
}

/* The top of a task's group; *in_left is its flag. */
static inline uint32_t find(const uint16_t *ws, uint32_t task, int *in_left)
{
    uint32_t link = ws[LINK + task];
    while ((uint16_t)(link - 1) < IN_LEFT - 1) {
        task = link - 1;
        link = ws[LINK + task];
    }
    *in_left = link != 0;
    return task;
}

static inline Line start(uint16_t *ws)
{
    memset(ws + SIZE, 0, TASKS * sizeof *ws);
    ws[SIZE] = 1;
    ws[LINK] = 0;
    ws[CHAIN] = 0;
    ws[ACTIVE] = 0;
    ws[ACTIVE_TOP] = 0;
    return (Line){1, 0, 0};
}

/* Fork, join and halt by the running task: the row that turns it back, or 0. */

static inline uint32_t fork_task(uint16_t *ws, Line *line, uint32_t child)
{
    if (child >= TASKS)
        return 9;
    if (ws[SIZE + child] != 0)
        return 10;
    ws[SIZE + child] = 1;
    ws[LINK + child] = 0;
    ws[CHAIN + child] = 0;
    ws[ACTIVE + line->active] = child;
    ws[ACTIVE_TOP + line->active] = child;
    line->active++;
    return 0;
}

static inline uint32_t join_task(uint16_t *ws, Line *line, uint32_t joined)
{
    if (line->left == 0 || ws[LEFT + line->left - 1] != joined)
        return 11;
    uint32_t here = line->active - 1;
    uint32_t mine = ws[ACTIVE_TOP + here];
    uint32_t other = ws[LEFT_TOP + --line->left];
    uint32_t sum = ws[SIZE + mine] + ws[SIZE + other];
    uint32_t under = ws[SIZE + mine] < ws[SIZE + other];
    uint32_t chain = joined_chain(ws[CHAIN + mine], ws[CHAIN + other], under);
    line->links = line->links < chain ? chain : line->links;
    if (under) {
        ws[LINK + mine] = other + 1;
        ws[LINK + other] = 0;
        ws[SIZE + other] = sum;
        ws[CHAIN + other] = chain;
        ws[ACTIVE_TOP + here] = other;
    } else {
        ws[LINK + other] = mine + 1;
        ws[SIZE + mine] = sum;
        ws[CHAIN + mine] = chain;
    }
    return 0;
}

static inline uint32_t halt_task(uint16_t *ws, Line *line, uint32_t operand)
{
    uint32_t here = line->active - 1;
    uint32_t resumed = here == 0 ? 0 : ws[ACTIVE + here - 1];
    if (operand != resumed)
        return 12;
    line->active = here;
    uint32_t top = ws[ACTIVE_TOP + here];
    ws[LINK + top] = IN_LEFT;
    ws[LEFT + line->left] = ws[ACTIVE + here];
    ws[LEFT_TOP + line->left] = top;
    line->left++;
    return 0;
}

static inline uint32_t move_line(uint16_t *ws, Line *line, uint32_t kind, uint32_t operand)
{
    if (kind == FORK)
        return fork_task(ws, line, operand);
    if (kind == JOIN)
        return join_task(ws, line, operand);
    return halt_task(ws, line, operand);
}

/* Holds event i, whose kind is known, to the rules, x being the running task, and moves the line: the
 * row that turns it back, or 0. */
static inline uint32_t step(Trace trace, uint16_t *ws, Line *line, uint32_t x, size_t i)
{
    uint32_t kind = trace.kinds[i], operand = trace.operands[i];
    if (UNLIKELY(line->active == 0))
        return 6;
    if (UNLIKELY(trace.tasks[i] != x))
        return 7;
    if (LIKELY(is_move(kind)))
        return move_line(ws, line, kind, operand);
    return operand < LOCATIONS ? 0 : 8;
}

/* For each number used, whether its group is not in left. */
static void survey(const uint16_t *ws, uint16_t *live)
{
    for (uint32_t task = 0; task < TASKS; task++) {
        int in_left = 0;
        if (ws[SIZE + task] != 0)
            find(ws, task, &in_left);
        live[task] = !in_left;
    }
}

/* The line again up to s, which holds no failure: accesses are passed over. */
static void rerun(Trace trace, uint16_t *ws, size_t s)
{
    Line line = start(ws);
    for (size_t i = 0; i < s; i++)
        if (is_move(trace.kinds[i]))
            move_line(ws, &line, trace.kinds[i], trace.operands[i]);
}

/* The smallest position that t races with. */
static size_t partner(Trace trace, const uint16_t *live, size_t t)
{
    size_t s = 0;
    while (trace.operands[s] != trace.operands[t] || !conflict(trace.kinds[s], trace.kinds[t]) ||
           live[trace.tasks[s]])
        s++;
    return s;
}

/* Where the next position goes that is in D, and the next that is not. */
typedef struct {
    size_t in_d, others;
} Ends;

/* Writes p to both ends, of which one moves on. */
static inline Ends place(uint16_t *first, uint16_t *second, Ends at, size_t p, uint32_t reaches)
{
    first[at.in_d] = p;
    second[at.others] = p;
    return (Ends){at.in_d + reaches, at.others + (reaches ^ 1)};
}

/* Both order buffers. The first takes D, the second for a while the others. */
static void orders(const uint16_t *tasks, const uint16_t *live_t, const uint16_t *live_s,
                   uint16_t *restrict first, uint16_t *restrict second, size_t s, size_t t)
{
    Ends at = {0, 0};
    for (size_t p = 0; p < s; p++)
        at = place(first, second, at, p, live_t[tasks[p]] | live_s[tasks[p]]);
    for (size_t p = s + 1; p < t; p++)
        at = place(first, second, at, p, live_t[tasks[p]]);
    first[at.in_d] = s;
    first[at.in_d + 1] = t;
    memcpy(first + at.in_d + 2, second, at.others * sizeof *second);
    memcpy(second, first, (t + 1) * sizeof *first);
    second[at.in_d] = t;
    second[at.in_d + 1] = s;
}

/* Writes the orders for a race at t; its partner. Apart, so that the loop over the events has the
 * registers for itself. */
__attribute__((noinline)) static size_t report(Trace trace, uint16_t *ws, uint16_t *first,
                                               uint16_t *second, size_t t)
{
    survey(ws, ws + LIVE_T);
    size_t s = partner(trace, ws + LIVE_T, t);
    rerun(trace, ws, s);
    survey(ws, ws + LIVE_S);
    orders(trace.tasks, ws + LIVE_T, ws + LIVE_S, first, second, s, t);
    return s;
}

/* The position of the first event from i on that is no passed access of task x. The cells of a
 * passed access name `top`, the top of x's group. */
static inline size_t accesses(Trace trace, uint16_t *ws, uint32_t x, uint32_t top, size_t i)
{
    uint64_t everywhere = in_cell(top, READ) | in_cell(top, WRITE) | in_cell(top, SUM);
    for (; i < trace.n; i++) {
        uint32_t kind = trace.kinds[i], l = trace.operands[i];
        if (UNLIKELY(is_move(kind) | (trace.tasks[i] != x) | (l >= LOCATIONS)))
            return i;
        uint64_t cells = cells_at(ws, l);
        if (cells == everywhere)
            continue;
        uint32_t any = cells >> 16 & 0xffff;
        if (any != top) {
            int in_left;
            any = find(ws, any, &in_left);
            if (UNLIKELY(in_left)) {
                if (kind == WRITE)
                    return i;
                /* If it passes, only accesses of its own kind are in left: the cells of the other
                 * kinds name groups there, further left than the running one, and stay. */
                uint32_t other = find(ws, cells >> 16 * IN_ROW[kind] & 0xffff, &in_left);
                if (UNLIKELY(in_left))
                    return i;
                uint64_t found = in_cell(0xffff, WRITE) | in_cell(0xffff, kind);
                put_cells(ws, l, (cells & ~found) | in_cell(any, WRITE) | in_cell(other, kind));
                continue;
            }
        }
        /* A read leaves C(read) as it is, a sum C(sum). */
        uint64_t change = CONFLICTS[kind];
        put_cells(ws, l, (cells & ~change) | (everywhere & change));
    }
    return i;
}

/* All events, up to the first that breaks a rule or races. */
static inline uint64_t judge_events(Trace trace, uint16_t *ws, uint16_t *first, uint16_t *second,
                                    uint64_t *values)
{
    memset(ws + LEFTMOST, 0, OF_LOCATION * LOCATIONS * sizeof *ws);
    Line line = start(ws);
    for (size_t i = 0; i < trace.n; i++) {
        uint32_t x = 0;
        if (LIKELY(line.active != 0)) {
            x = ws[ACTIVE + line.active - 1];
            i = accesses(trace, ws, x, ws[ACTIVE_TOP + line.active - 1], i);
            if (i == trace.n)
                break;
            /* Event i is read again: else the loop above keeps the outcome of each of its tests. */
            __asm__("" : "+r"(i));
        }
        uint32_t row = step(trace, ws, &line, x, i);
        if (UNLIKELY(row != 0))
            return say_judged(values, RACEJUDGE_REFUSED, row, i, 0);
        if (UNLIKELY(!is_move(trace.kinds[i])))
            return say_judged(values, RACEJUDGE_RACE, report(trace, ws, first, second, i), i,
                              line.links);
    }
    return say_judged(values, RACEJUDGE_CLEAN, 0, 0, line.links);
}

uint64_t EXPORTED(NAME, judge)(const uint8_t *kinds, size_t n, const uint16_t *tasks,
                               size_t tasks_len, const uint16_t *operands, size_t operands_len,
                               uint16_t *ws, size_t ws_len, uint16_t *first, size_t first_len,
                               uint16_t *second, size_t second_len, uint64_t values[3])
{
    uint64_t row = size_row(n, tasks_len, operands_len, ws_len);
    if (row == 0 && (first_len < n || second_len < n))
        row = 4;
    if (row != 0)
        return say_judged(values, RACEJUDGE_REFUSED, row, 0, 0);
    const Trace known = {kinds, tasks, operands, first_unknown(kinds, n)};
    uint64_t said = say_judged(values, RACEJUDGE_CLEAN, 0, 0, 0);
    if (known.n != 0)
        said = judge_events(known, ws, first, second, values);
    if (said == RACEJUDGE_CLEAN && known.n < n)
        said = say_judged(values, RACEJUDGE_REFUSED, 5, known.n, 0);
    memset(ws, 0, (WORKSPACE + n) * sizeof *ws);
    return said;
}

/* The rules alone from *at on, to `end` or the first refusal, whose row is the result. */
static inline uint32_t walk(Trace trace, uint16_t *ws, Line *line, size_t *at, size_t end)
{
    size_t i = *at;
    uint32_t row = 0;
    for (; i < end; i++) {
        uint32_t x = 0;
        if (LIKELY(line->active != 0)) {
            x = ws[ACTIVE + line->active - 1];
            while (i < end && LIKELY(!is_move(trace.kinds[i]) & (trace.tasks[i] == x) &
                                     (trace.operands[i] < LOCATIONS)))
                i++;
            if (i == end)
                break;
        }
        row = step(trace, ws, line, x, i);
        if (UNLIKELY(row != 0))
            break;
    }
    *at = i;
    return row;
}

uint64_t EXPORTED(NAME, ordering)(const uint8_t *kinds, size_t n, const uint16_t *tasks,
                                  size_t tasks_len, const uint16_t *operands, size_t operands_len,
                                  uint16_t *ws, size_t ws_len, size_t p, size_t q,
                                  uint64_t values[2])
{
    uint64_t row = size_row(n, tasks_len, operands_len, ws_len);
    if (row != 0)
        return say(values, RACEJUDGE_REFUSED, row, 0);
    const Trace trace = {kinds, tasks, operands, first_unknown(kinds, n)};
    Line line = start(ws);
    size_t at = 0;
    int yes = p == q;
    if (p < q && q < trace.n) {
        /* A join is tested after its merge, any other event before its step. */
        row = walk(trace, ws, &line, &at, kinds[q] == JOIN ? q + 1 : q);
        if (row == 0) {
            int in_left;
            find(ws, tasks[p], &in_left);
            yes = !in_left;
        }
    }
    if (row == 0)
        row = walk(trace, ws, &line, &at, trace.n);
    if (row == 0 && at < n)
        row = 5;
    if (row == 0 && (p >= n || q >= n)) {
        row = 13;
        at = 0;
    }
    memset(ws, 0, (WORKSPACE + n) * sizeof *ws);
    if (row != 0)
        return say(values, RACEJUDGE_REFUSED, row, at);
    return say(values, yes ? RACEJUDGE_YES : RACEJUDGE_NO, 0, 0);
}
