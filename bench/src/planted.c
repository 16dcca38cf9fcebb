/* The library's calls once more, under the names planted_*. Each may exchange two of its parameters
 * and then calls the library: so does a C function whose parameters stand in another order than the
 * header has them. The test must notice every such exchange. A slice goes with its length, so only
 * what is lent is read and written. Where no exchange is chosen, a call is the library's own. */

#include "racejudge.h"
#include <string.h>

/* A slice and its length; or a number, with no length. */
typedef struct {
    uintptr_t at;
    size_t cells;
} parameter;

static const char *chosen = "";
static size_t chosen_one, chosen_other;

/* Chooses a call, by its name behind racejudge_, and two of its parameters, by their places in the
 * header: a slice and its length are one. The name must stay where it is. */
void planted_exchange(const char *call, size_t one, size_t other)
{
    chosen = call;
    chosen_one = one;
    chosen_other = other;
}

static void exchange(const char *call, parameter *all, size_t count)
{
    if (strcmp(call, chosen) != 0 || chosen_one >= count || chosen_other >= count)
        return;
    parameter one = all[chosen_one];
    all[chosen_one] = all[chosen_other];
    all[chosen_other] = one;
}

#define EXCHANGE(call) exchange(call, all, sizeof all / sizeof *all)
#define SLICE(name) {(uintptr_t)(name), name##_len}
#define NUMBER(name) {name, 0}
#define BYTES(i) (uint8_t *)all[i].at, all[i].cells
#define CELLS(i) (uint16_t *)all[i].at, all[i].cells
#define CARDS(i) (racejudge_card *)all[i].at, all[i].cells

uint64_t planted_judge(const uint8_t *kinds, size_t kinds_len, const uint16_t *tasks,
                       size_t tasks_len, const uint16_t *operands, size_t operands_len,
                       uint16_t *workspace, size_t workspace_len, uint16_t *first,
                       size_t first_len, uint16_t *second, size_t second_len, uint64_t values[3])
{
    parameter all[] = {SLICE(kinds),     SLICE(tasks), SLICE(operands),
                       SLICE(workspace), SLICE(first), SLICE(second)};
    EXCHANGE("judge");
    return racejudge_judge(BYTES(0), CELLS(1), CELLS(2), CELLS(3), CELLS(4), CELLS(5), values);
}

uint64_t planted_judge_cards(const uint8_t *kinds, size_t kinds_len, const uint16_t *tasks,
                             size_t tasks_len, const uint16_t *operands, size_t operands_len,
                             uint16_t *workspace, size_t workspace_len, uint16_t *first,
                             size_t first_len, uint16_t *second, size_t second_len,
                             racejudge_card *cards, size_t cards_len, uint64_t values[3])
{
    parameter all[] = {SLICE(kinds), SLICE(tasks),  SLICE(operands), SLICE(workspace),
                       SLICE(first), SLICE(second), SLICE(cards)};
    EXCHANGE("judge_cards");
    return racejudge_judge_cards(BYTES(0), CELLS(1), CELLS(2), CELLS(3), CELLS(4), CELLS(5),
                                 CARDS(6), values);
}

uint64_t planted_pairs(const uint8_t *kinds, size_t kinds_len, const uint16_t *tasks,
                       size_t tasks_len, const uint16_t *operands, size_t operands_len,
                       uint16_t *workspace, size_t workspace_len, uint16_t *earlier,
                       size_t earlier_len, uint16_t *later, size_t later_len, uint64_t values[2])
{
    parameter all[] = {SLICE(kinds),     SLICE(tasks),   SLICE(operands),
                       SLICE(workspace), SLICE(earlier), SLICE(later)};
    EXCHANGE("pairs");
    return racejudge_pairs(BYTES(0), CELLS(1), CELLS(2), CELLS(3), CELLS(4), CELLS(5), values);
}

uint64_t planted_ordering(const uint8_t *kinds, size_t kinds_len, const uint16_t *tasks,
                          size_t tasks_len, const uint16_t *operands, size_t operands_len,
                          uint16_t *workspace, size_t workspace_len, size_t p, size_t q,
                          uint64_t values[2])
{
    parameter all[] = {SLICE(kinds),     SLICE(tasks), SLICE(operands),
                       SLICE(workspace), NUMBER(p),    NUMBER(q)};
    EXCHANGE("ordering");
    return racejudge_ordering(BYTES(0), CELLS(1), CELLS(2), CELLS(3), all[4].at, all[5].at, values);
}

uint64_t planted_convert(const uint8_t *kinds, size_t kinds_len, const uint16_t *tasks,
                         size_t tasks_len, uint16_t *operands, size_t operands_len,
                         uint16_t *workspace, size_t workspace_len, uint64_t values[2])
{
    parameter all[] = {SLICE(kinds), SLICE(tasks), SLICE(operands), SLICE(workspace)};
    EXCHANGE("convert");
    return racejudge_convert(BYTES(0), CELLS(1), CELLS(2), CELLS(3), values);
}

uint64_t planted_translate(const uint8_t *text, size_t text_len, uint8_t *kinds, size_t kinds_len,
                           uint16_t *tasks, size_t tasks_len, uint16_t *operands,
                           size_t operands_len, uint64_t values[2])
{
    parameter all[] = {SLICE(text), SLICE(kinds), SLICE(tasks), SLICE(operands)};
    EXCHANGE("translate");
    return racejudge_translate(BYTES(0), BYTES(1), CELLS(2), CELLS(3), values);
}

uint64_t planted_plan(const uint8_t *text, size_t text_len, uint8_t *kinds, size_t kinds_len,
                      uint16_t *tasks, size_t tasks_len, uint16_t *operands, size_t operands_len,
                      uint64_t values[2])
{
    parameter all[] = {SLICE(text), SLICE(kinds), SLICE(tasks), SLICE(operands)};
    EXCHANGE("plan");
    return racejudge_plan(BYTES(0), BYTES(1), CELLS(2), CELLS(3), values);
}
