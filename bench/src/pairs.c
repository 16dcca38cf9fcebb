/* Every close pair by hand, as fast as we can make it, with no index checked: the measure for the
 * proved call for pairs. Its answers and buffers are exactly the same.
 *
 * The rules, the numbers and the first race are the judge's (ranks.h); where nothing races, that is
 * all. From the first race on each access is held to the largest number of what it conflicts with, as
 * before it. Where its own is smaller it races, and where its location has been touched among the
 * events that are close, these are looked at. They are counted so; then, if there is room, those that
 * have partners look once more, and write them.
 *
 * What is tuned beside that: 16 events are looked at together, and nothing is chosen by what one of
 * them is; which of 8 events are partners makes a number, for which a table has their places in a row,
 * so that they are written as one vector. */

#include "ranks.h"

/* The compiler holds the call to the prototype of racejudge.h. */
__typeof__(racejudge_pairs) pairs_list;

/* Tables in the workspace from the first race on. */
enum {
    KEPT_MOVES = PAUSED, /* the position of each move, until the numbers stand in their place */
    MARKS = PAUSED,      /* then 1 bit for each event: whether it is the later of a pair */
    PLACES = LARGEST,    /* once all are counted, 8 cells for each set of 8 places: which they are */
    SIZES = 2048,        /* and how many */
    NUMBERS = WORKSPACE  /* the number of each event from the first on that can be of a pair */
};

/* The spare cell of a location: where it was touched last, 0 if nowhere. A move touches one too. */
enum { LAST = 3 };

/* Close; events that are looked at together; places of a set, and sets. */
enum { CLOSE = RACEJUDGE_CLOSE, ABREAST = 16, SET = 8, SETS = 1 << SET };

/* What the header's bound comes to: each event has all before it close by, or as many as are close. */
_Static_assert(RACEJUDGE_MAX_PAIRS(0) == 0 && RACEJUDGE_MAX_PAIRS(1) == 0 &&
                   RACEJUDGE_MAX_PAIRS(2) == 1 && RACEJUDGE_MAX_PAIRS(1 | 2) == 3 &&
                   RACEJUDGE_MAX_PAIRS(200) == 19900 && RACEJUDGE_MAX_PAIRS(CLOSE) == 32640 &&
                   RACEJUDGE_MAX_PAIRS(CLOSE + 1) == 32640 + CLOSE &&
                   RACEJUDGE_MAX_PAIRS(RACEJUDGE_MAX_EVENTS) == 8355712,
               "RACEJUDGE_MAX_PAIRS");

/* The number of a move. Without a sign it is the largest, so that a move races with nothing; with one
 * it is the smallest, so that nothing races with it. */
enum { OF_MOVE = 0xffff };

/* Two slices of one length, and how many cells of each are written. */
typedef struct {
    uint16_t *earlier, *later;
    size_t length, written;
} List;

/* What tells the partners of an access: the location, a larger number, and not this kind. */
typedef struct {
    uint16_t location, own;
    uint8_t spared;
} Sought;

static inline Sought sought_by(Trace trace, const uint16_t *ws, size_t t)
{
    uint8_t kind = trace.kinds[t];
    return (Sought){trace.operands[t], ws[NUMBERS + t], kind == WRITE ? SUM + 1 : kind};
}

static inline size_t first_close(size_t t)
{
    return t < CLOSE ? 0 : t - CLOSE;
}

/* Writes down the number of each event from `from` on, which is not behind the race. */
static void spread(Trace trace, uint16_t *ws, Kept kept, Place race, size_t from)
{
    memcpy(ws + KEPT_MOVES, ws + MOVES, kept.moves * sizeof *ws);
    size_t segment = race.segment;
    while (segment > 0 && ws[KEPT_MOVES + segment - 1] >= from)
        segment--;
    for (size_t p = from; p < trace.n; segment++) {
        size_t end = segment < kept.moves ? ws[KEPT_MOVES + segment] : trace.n;
        uint16_t own = ws[NEXT + segment];
        for (; p < end; p++)
            ws[NUMBERS + p] = own;
        if (p < trace.n)
            ws[NUMBERS + p++] = OF_MOVE;
    }
}

static inline int is_partner(Trace trace, const uint16_t *ws, size_t s, Sought sought)
{
    return trace.operands[s] == sought.location && trace.kinds[s] != sought.spared &&
           (int16_t)ws[NUMBERS + s] > (int16_t)sought.own;
}

static inline __m128i eight(const uint16_t *cells)
{
    return _mm_loadu_si128((const __m128i *)cells);
}

static inline void put_eight(uint16_t *cells, __m128i all)
{
    _mm_storeu_si128((__m128i *)cells, all);
}

/* Ones in the cells of those events, of 8 from s on, that have the location and a larger number. */
static inline __m128i racing_of_8(Trace trace, const uint16_t *ws, size_t s, Sought sought)
{
    __m128i there = _mm_cmpeq_epi16(eight(trace.operands + s), _mm_set1_epi16(sought.location));
    __m128i larger = _mm_cmpgt_epi16(eight(ws + NUMBERS + s), _mm_set1_epi16(sought.own));
    return _mm_and_si128(there, larger);
}

/* Ones in the bytes of the partners among the events from s on that are looked at together. */
static inline __m128i partners(Trace trace, const uint16_t *ws, size_t s, Sought sought)
{
    __m128i low = racing_of_8(trace, ws, s, sought), high = racing_of_8(trace, ws, s + 8, sought);
    __m128i kinds = _mm_loadu_si128((const __m128i *)(trace.kinds + s));
    __m128i spared = _mm_cmpeq_epi8(kinds, _mm_set1_epi8(sought.spared));
    return _mm_andnot_si128(spared, _mm_packs_epi16(low, high));
}

static inline size_t count_partners(Trace trace, const uint16_t *ws, size_t t)
{
    Sought sought = sought_by(trace, ws, t);
    size_t count = 0;
    if (UNLIKELY(t < CLOSE)) {
        for (size_t s = 0; s < t; s++)
            count += is_partner(trace, ws, s, sought);
        return count;
    }
    __m128i counts = _mm_setzero_si128();
    for (size_t s = t - CLOSE; s < t; s += ABREAST)
        counts = _mm_sub_epi8(counts, partners(trace, ws, s, sought));
    counts = _mm_sad_epu8(counts, _mm_setzero_si128());
    return _mm_extract_epi16(counts, 0) + _mm_extract_epi16(counts, 4);
}

/* Whether event t races, and its location was touched close before it. Its number and itself are put in
 * the cells of the location. */
static inline int may_have_partners(Trace trace, uint16_t *ws, size_t t)
{
    size_t kind = trace.kinds[t];
    uint16_t *cells = ws + LARGEST + OF_LOCATION * trace.operands[t];
    uint16_t own = ws[NUMBERS + t];
    int may = (own < cells[IN_ROW[kind]]) & (t - cells[LAST] <= CLOSE);
    uint64_t mine = ((uint64_t)own * 0x0000000100010001 & CONFLICTS[kind]) | (uint64_t)t << 48;
    __m128i held = _mm_loadl_epi64((const __m128i *)cells);
    _mm_storel_epi64((__m128i *)cells, _mm_max_epi16(held, _mm_cvtsi64_si128(mine)));
    return may;
}

/* The number of pairs. `race` is the first event that races, `from` the first that is close to it.
 * Those that are the later of a pair are marked. */
static size_t count_pairs(Trace trace, uint16_t *ws, size_t from, size_t race)
{
    memset(ws + MARKS, 0, (trace.n / 16 + 1) * sizeof *ws);
    for (size_t p = from; p < race; p++)
        ws[LARGEST + OF_LOCATION * trace.operands[p] + LAST] = p;
    size_t pairs = 0;
    for (size_t t = race; t < trace.n; t++)
        if (may_have_partners(trace, ws, t)) {
            size_t count = count_partners(trace, ws, t);
            ws[MARKS + t / 16] |= (count != 0) << t % 16;
            pairs += count;
        }
    return pairs;
}

/* Makes the table of all sets: each is a smaller one and a last place. */
static void make_sets(uint16_t *ws)
{
    ws[SIZES] = 0;
    for (size_t place = 0, set = 1; place < SET; place++)
        for (size_t all = 2 * set; set < all; set++) {
            size_t smaller = set ^ 1 << place, size = ws[SIZES + smaller];
            memcpy(ws + PLACES + SET * set, ws + PLACES + SET * smaller, SET * sizeof *ws);
            ws[PLACES + SET * set + size] = place;
            ws[SIZES + set] = size + 1;
        }
}

/* Writes a set of the 8 events from s on as the earlier ones of pairs. Cells in excess are overwritten
 * by what comes next; at the end of the list there are none. */
static inline void put_set(List *list, const uint16_t *ws, size_t s, uint32_t set)
{
    const uint16_t *places = ws + PLACES + SET * set;
    size_t size = ws[SIZES + set], at = list->written;
    if (LIKELY(at + SET <= list->length))
        put_eight(list->earlier + at, _mm_add_epi16(eight(places), _mm_set1_epi16(s)));
    else
        for (size_t i = 0; i < size; i++)
            list->earlier[at + i] = s + places[i];
    list->written = at + size;
}

static inline void put_earlier(Trace trace, const uint16_t *ws, size_t t, List *list)
{
    Sought sought = sought_by(trace, ws, t);
    if (UNLIKELY(t < CLOSE)) {
        for (size_t s = 0; s < t; s++)
            if (is_partner(trace, ws, s, sought))
                list->earlier[list->written++] = s;
        return;
    }
    for (size_t s = t - CLOSE; s < t; s += ABREAST) {
        uint32_t found = _mm_movemask_epi8(partners(trace, ws, s, sought));
        put_set(list, ws, s, found % SETS);
        put_set(list, ws, s + SET, found / SETS);
    }
}

/* Writes the later one of the pairs from `at` on, as often as there are earlier ones. */
static inline void put_later(const List *list, size_t at, size_t t)
{
    for (; at < list->written && at + SET <= list->length; at += SET)
        put_eight(list->later + at, _mm_set1_epi16(t));
    for (; at < list->written; at++)
        list->later[at] = t;
}

static void write_pairs(Trace trace, uint16_t *ws, size_t race, List list)
{
    make_sets(ws);
    for (size_t word = race / 16; list.written < list.length; word++)
        for (uint32_t marks = ws[MARKS + word]; marks != 0; marks &= marks - 1) {
            size_t t = 16 * word + __builtin_ctz(marks), at = list.written;
            put_earlier(trace, ws, t, &list);
            put_later(&list, at, t);
        }
}

/* Only a trace that keeps the rules is listed. */
static inline uint64_t list_events(Trace trace, uint16_t *ws, List list, uint64_t *values)
{
    Kept kept = rank(trace, ws);
    if (kept.row != 0)
        return say(values, RACEJUDGE_REFUSED, kept.row, kept.events);
    number(ws);
    Place race = scan(trace, ws, kept);
    if (race.at == trace.n)
        return say(values, RACEJUDGE_LISTED, 0, 0);
    size_t from = first_close(race.at);
    spread(trace, ws, kept, race, from);
    size_t pairs = count_pairs(trace, ws, from, race.at);
    if (list.length < pairs)
        return say(values, RACEJUDGE_REFUSED, 20, 0);
    list.length = pairs;
    write_pairs(trace, ws, race.at, list);
    return say(values, RACEJUDGE_LISTED, pairs, 0);
}

uint64_t pairs_list(const uint8_t *kinds, size_t n, const uint16_t *tasks, size_t tasks_len,
                    const uint16_t *operands, size_t operands_len, uint16_t *ws, size_t ws_len,
                    uint16_t *earlier, size_t earlier_len, uint16_t *later, size_t later_len,
                    uint64_t values[2])
{
    uint64_t row = size_row(n, tasks_len, operands_len, ws_len);
    if (row != 0)
        return say(values, RACEJUDGE_REFUSED, row, 0);
    List list = {earlier, later, earlier_len < later_len ? earlier_len : later_len, 0};
    uint64_t said = list_events((Trace){kinds, tasks, operands, n}, ws, list, values);
    memset(ws, 0, (WORKSPACE + n) * sizeof *ws);
    return said;
}
