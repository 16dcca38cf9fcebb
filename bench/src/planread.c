/* The plan reader by hand, as one writes it in C: by recursion, once over the text to check and to
 * count, and once more to write what is known to fit. The measure for the proved reader. */

#include <stddef.h>
#include <stdint.h>

#include "answer.h"
#include "hints.h"
#include "kinds.h"

/* The compiler holds the call to the prototype of racejudge.h. */
__typeof__(racejudge_plan) planread_plan;

static inline int is_digit(uint8_t byte)
{
    return (uint8_t)(byte - '0') <= 9;
}

/* What the first pass finds: what the plan needs, or the row and the byte that it stops at. */
typedef struct {
    const uint8_t *end;
    size_t leaves, forks;
    const uint8_t *stop;
    uint64_t row;
} Check;

static const uint8_t *stop(Check *c, const uint8_t *at, uint64_t row)
{
    c->stop = at;
    c->row = row;
    return NULL;
}

/* The byte must stand there. */
static inline const uint8_t *check_byte(Check *c, const uint8_t *at, uint8_t byte)
{
    if (UNLIKELY(at == c->end || *at != byte))
        return stop(c, at, 17);
    return at + 1;
}

/* A location with no leading zero. A digit too many is left for what follows to stop at. */
static inline const uint8_t *check_location(Check *c, const uint8_t *at)
{
    if (UNLIKELY(at == c->end || !is_digit(*at)))
        return stop(c, at, 17);
    unsigned location = *at++ - '0';
    while (location != 0 && at < c->end && is_digit(*at)) {
        location = 10 * location + (*at - '0');
        if (location >= LOCATIONS)
            break;
        at++;
    }
    return at;
}

/* A plan within so many levels. The byte behind it, or NULL. */
static const uint8_t *check_plan(Check *c, const uint8_t *at, unsigned levels)
{
    if (UNLIKELY(at == c->end))
        return stop(c, at, 17);
    switch (*at) {
    case 'r':
    case 'w':
    case 's':
        c->leaves++;
        return check_location(c, at + 1);
    case 'S':
    case 'P':
        if (UNLIKELY(levels == 0))
            return stop(c, at, 18);
        c->forks += *at == 'P';
        if (!(at = check_byte(c, at + 1, '(')) || !(at = check_plan(c, at, levels - 1)) ||
            !(at = check_byte(c, at, ',')) || !(at = check_plan(c, at, levels - 1)))
            return NULL;
        return check_byte(c, at, ')');
    default:
        return stop(c, at, 17);
    }
}

/* Where the second pass writes. */
typedef struct {
    const uint8_t *end;
    uint8_t *kinds;
    uint16_t *tasks, *operands;
    size_t n;
    uint16_t forked;
} Writer;

static inline void put(Writer *w, uint16_t task, uint8_t kind, uint16_t operand)
{
    w->kinds[w->n] = kind;
    w->tasks[w->n] = task;
    w->operands[w->n] = operand;
    w->n++;
}

static inline const uint8_t *write_leaf(Writer *w, const uint8_t *at, uint16_t task, uint8_t kind)
{
    unsigned location = 0;
    while (at < w->end && is_digit(*at))
        location = 10 * location + (*at++ - '0');
    put(w, task, kind, location);
    return at;
}

/* A plan that this task runs; the check has passed it. The byte behind it. */
static const uint8_t *write_plan(Writer *w, const uint8_t *at, uint16_t task)
{
    switch (*at++) {
    case 'r':
        return write_leaf(w, at, task, READ);
    case 'w':
        return write_leaf(w, at, task, WRITE);
    case 's':
        return write_leaf(w, at, task, SUM);
    case 'S':
        at = write_plan(w, at + 1, task);
        return write_plan(w, at + 1, task) + 1;
    default: {
        uint16_t child = ++w->forked;
        put(w, task, FORK, child);
        at = write_plan(w, at + 1, child);
        put(w, child, HALT, task);
        at = write_plan(w, at + 1, task);
        put(w, task, JOIN, child);
        return at + 1;
    }
    }
}

uint64_t planread_plan(const uint8_t *text, size_t text_len, uint8_t *kinds, size_t kinds_len,
                       uint16_t *tasks, size_t tasks_len, uint16_t *operands, size_t operands_len,
                       uint64_t *values)
{
    Check c = {.end = text + text_len};
    const uint8_t *at = check_plan(&c, text, RACEJUDGE_MAX_DEPTH);
    if (at && at != c.end)
        stop(&c, at, 17);
    if (c.row)
        return say(values, RACEJUDGE_REFUSED, c.row, c.stop - text);
    size_t n = c.leaves + 3 * c.forks;
    if (kinds_len < n || tasks_len < n || operands_len < n || c.forks >= TASKS ||
        n > RACEJUDGE_MAX_EVENTS)
        return say(values, RACEJUDGE_REFUSED, 19, 0);
    Writer w = {.end = c.end, .kinds = kinds, .tasks = tasks, .operands = operands};
    write_plan(&w, text, 0);
    return say(values, RACEJUDGE_TRANSLATED, n, 0);
}
