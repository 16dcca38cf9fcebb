/* The rules and the first race by two orders, by hand: what the judge and the call for pairs in C
 * share. No index is checked.
 *
 * Position order keeps all arcs, and so does a second order: put each event right after the last
 * event that its arcs come from. For p < q, p reaches q exactly if it stands before q in the second
 * order as well.
 *
 * A fork, join or halt is a move. What a task does between two moves stands together in the second
 * order, which is therefore a list of segments: a fork or a halt ends its segment, a join opens
 * one. Move i opens segment i + 1. The number of a segment is its place in the list, that of an
 * event the number of its segment.
 *
 * What is tuned: what an event and the one before it show is tested for many events at once, so
 * that only moves are looked at one by one; neither moves nor accesses are told apart by a branch,
 * which would be guessed wrong too often; a number is looked up where it is needed, and not written
 * down for each event; the cells of a location lie side by side and are written as one vector; events
 * before the first move, which race with none, are passed over. */

#ifndef RANKS_H
#define RANKS_H

#include <emmintrin.h>

#include "peer.h"

/* Tables in the workspace. */
enum {
    USED = 0,         /* 1: number used */
    LARGEST = 0,      /* once the rules are done with, 4 cells for a location: the largest number of an
                         access that conflicts with a read, with a write, with a sum; 0 */
    PAUSED = 4096,    /* entries of 2 cells: the running task's ancestors */
    LEFT = 6160,      /* entries of 2 cells: the halted tasks that are not joined */
    NEXT = 8224,      /* the segment after each, 0 at the end of the list; then each one's number */
    MOVES = WORKSPACE /* the position of each move */
};

/* The running task where none runs; at the bottom of each stack, a task that no event names. Its low
 * bits, as many as a task has, are 0: that is what task 0's own halt names. */
enum { NOBODY = 0xfc00, TASK_BITS = TASKS - 1 };

/* Events that are tested together; accesses in a row with no test of the end. */
enum { BLOCK = 128, ROW = 8 };

/* An event, and its segment. */
typedef struct {
    size_t at, segment;
} Place;

/* The events that keep the rules, the moves among them, and the row that turns the next event back,
 * 0 at the end of the trace. */
typedef struct {
    size_t events, moves;
    uint32_t row;
} Kept;

/* Whether event p breaks a rule, if none before it does, by what it is and what is just before. */
static inline int flawed(Trace trace, size_t p)
{
    int other = p > 0 && !is_move(trace.kinds[p - 1]) && trace.tasks[p] != trace.tasks[p - 1];
    return other || trace.kinds[p] > SUM || (trace.tasks[p] | trace.operands[p]) >= TASKS;
}

/* The first event that is flawed, or n. The compiler makes vectors of the loops over a block. */
static size_t first_flawed(Trace trace)
{
    const uint8_t *kinds = trace.kinds;
    const uint16_t *tasks = trace.tasks, *operands = trace.operands;
    if (trace.n == 0 || flawed(trace, 0))
        return 0;
    size_t p = 1;
    for (; p + BLOCK <= trace.n; p += BLOCK) {
        uint8_t unknown = 0;
        uint16_t other = 0, all = 0;
        for (size_t j = 0; j < BLOCK; j++)
            unknown |= kinds[p + j] > SUM;
        for (size_t j = 0; j < BLOCK; j++)
            other |= !is_move(kinds[p + j - 1]) & (tasks[p + j] != tasks[p + j - 1]);
        for (size_t j = 0; j < BLOCK; j++)
            all |= tasks[p + j] | operands[p + j];
        if (unknown | other | (all >= TASKS))
            break;
    }
    while (p < trace.n && !flawed(trace, p))
        p++;
    return p;
}

/* For 64 kinds, none above SUM: bit j is 1 where kinds[j] is a move. */
static inline uint64_t moves_of_64(const uint8_t *kinds)
{
    uint64_t moves = 0;
    for (size_t j = 0; j < 64; j += 16) {
        __m128i bytes = _mm_loadu_si128((const __m128i *)(kinds + j));
        __m128i from_fork = _mm_cmpgt_epi8(bytes, _mm_set1_epi8(FORK - 1));
        __m128i to_halt = _mm_cmplt_epi8(bytes, _mm_set1_epi8(HALT + 1));
        moves |= (uint64_t)_mm_movemask_epi8(_mm_and_si128(from_fork, to_halt)) << j;
    }
    return moves;
}

/* Writes the positions of the moves among the first `end` events; their number. */
static size_t collect(const uint8_t *restrict kinds, size_t end, uint16_t *restrict moves)
{
    size_t count = 0, p = 0;
    for (; p + 64 <= end; p += 64) {
        uint64_t bits = moves_of_64(kinds + p);
        size_t more = __builtin_popcountll(bits);
        /* 8 at a time; those in excess are overwritten by the next. */
        for (size_t at = count; bits != 0; at += 8)
            for (size_t j = 0; j < 8; j++) {
                moves[at + j] = p + __builtin_ctzll(bits | (uint64_t)1 << 63);
                bits &= bits - 1;
            }
        count += more;
    }
    for (; p < end; p++) {
        moves[count] = p;
        count += is_move(kinds[p]);
    }
    return count;
}

/* The row that turns event i back, which is known to break a rule. */
static uint32_t row_of(Trace trace, uint32_t running, size_t i)
{
    uint32_t kind = trace.kinds[i];
    if (kind > SUM)
        return 5;
    if (running == NOBODY)
        return 6;
    if (trace.tasks[i] != running)
        return 7;
    if (!is_move(kind))
        return 8;
    if (kind == FORK)
        return trace.operands[i] < TASKS ? 10 : 9;
    return kind == JOIN ? 11 : 12;
}

/* What is kept, where the first i moves keep the rules and event p does not or is the end. From the
 * last of these moves to p there are accesses by one task: they come first if it does not run. */
static Kept kept_before(Trace trace, const uint16_t *ws, size_t i, uint32_t running, size_t p)
{
    size_t since = i == 0 ? 0 : ws[MOVES + i - 1] + 1;
    size_t at = since < p && trace.tasks[since] != running ? since : p;
    return (Kept){at, i, at < trace.n ? row_of(trace, running, at) : 0};
}

static inline uint32_t entry_at(const uint16_t *ws, size_t cell)
{
    uint32_t entry;
    memcpy(&entry, ws + cell, sizeof entry);
    return entry;
}

static inline void put_entry(uint16_t *ws, size_t cell, uint32_t segment, uint32_t task)
{
    uint32_t entry = segment | task << 16;
    memcpy(ws + cell, &entry, sizeof entry);
}

/* Holds the moves, `count` in number, to the rules and links the segments. They are the moves
 * before event `end`, the first that is flawed.
 *
 * An entry of a stack names a task and its last segment: that of its fork where it is paused, that
 * of its halt where it has halted. The next segment goes behind the one that ends with this fork;
 * behind the fork of the task that halts; behind the halt of the task that is joined. The entry of
 * the move is put on both stacks, and one of them or none grows by it. */
static Kept walk(Trace trace, uint16_t *ws, size_t count, size_t end)
{
    memset(ws + USED, 0, TASKS * sizeof *ws);
    ws[USED] = 1;
    ws[NEXT] = 0;
    put_entry(ws, PAUSED, 0, NOBODY);
    put_entry(ws, LEFT, 0, NOBODY);
    size_t paused = PAUSED, left = LEFT;
    uint32_t running = 0;
    for (size_t i = 0; i < count; i++) {
        size_t p = ws[MOVES + i];
        uint32_t kind = trace.kinds[p], operand = trace.operands[p];
        size_t fork = kind == FORK, join = kind == JOIN, halt = kind == HALT;
        put_entry(ws, paused + 2, i, running);
        put_entry(ws, left + 2, i, running);
        size_t cell = join ? left : paused + 2 * fork;
        HIDE(cell);
        uint32_t entry = entry_at(ws, cell), task = entry >> 16;
        /* A fork names a new number, a join the entry's task, and so does a halt. */
        uint32_t used = ws[USED + operand], wrong = operand ^ (join ? task : task & TASK_BITS);
        HIDE(wrong);
        wrong = fork ? used : wrong;
        if (UNLIKELY(wrong | (trace.tasks[p] ^ running)))
            return kept_before(trace, ws, i, running, p);
        ws[USED + operand] = 1;
        paused = paused + 2 * fork - 2 * halt;
        left = left + 2 * halt - 2 * join;
        task = fork ? operand : task;
        HIDE(task);
        running = join ? running : task;
        size_t before = entry & 0xffff;
        ws[NEXT + i + 1] = ws[NEXT + before];
        ws[NEXT + before] = i + 1;
    }
    return kept_before(trace, ws, count, running, end);
}

/* Holds the trace to the rules and links the segments of what keeps them. */
static Kept rank(Trace trace, uint16_t *ws)
{
    size_t end = first_flawed(trace);
    size_t count = collect(trace.kinds, end, ws + MOVES);
    return walk(trace, ws, count, end);
}

/* Writes each segment's number in the place of its link. */
static void number(uint16_t *ws)
{
    size_t segment = 0;
    uint16_t place = 0;
    do {
        size_t next = ws[NEXT + segment];
        ws[NEXT + segment] = place++;
        segment = next;
    } while (segment != 0);
}

/* Whether event p races with an earlier one. One that does not has its number put in the cells of
 * what it conflicts with, where it is larger. *segment is that of the event before p. A move goes to
 * the cells of a location too, but is held to none and leaves them as they are. */
static inline int races(Trace trace, uint16_t *ws, size_t *segment, size_t p)
{
    size_t kind = trace.kinds[p];
    *segment += is_move(kind);
    uint16_t *cells = ws + LARGEST + OF_LOCATION * trace.operands[p];
    uint16_t own = ws[NEXT + *segment];
    if (UNLIKELY(own < cells[IN_ROW[kind]]))
        return 1;
    __m128i mine = _mm_shufflelo_epi16(_mm_cvtsi32_si128(own), 0);
    mine = _mm_and_si128(mine, _mm_cvtsi64_si128(CONFLICTS[kind]));
    __m128i largest = _mm_max_epi16(_mm_loadl_epi64((const __m128i *)cells), mine);
    _mm_storel_epi64((__m128i *)cells, largest);
    return 0;
}

/* The first of the events kept that races, or the end of them. */
static Place scan(Trace trace, uint16_t *ws, Kept kept)
{
    if (kept.moves == 0)
        return (Place){kept.events, 0};
    memset(ws + LARGEST, 0, OF_LOCATION * LOCATIONS * sizeof *ws);
    size_t segment = 1, p = ws[MOVES] + 1;
    for (; p + ROW <= kept.events; p += ROW)
        for (size_t j = 0; j < ROW; j++)
            if (races(trace, ws, &segment, p + j))
                return (Place){p + j, segment};
    while (p < kept.events && !races(trace, ws, &segment, p))
        p++;
    return (Place){p, segment};
}

#endif
