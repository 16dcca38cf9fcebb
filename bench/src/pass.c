/* The cards of a clean trace by one pass over it, by hand, as fast as we can make it, with nothing
 * checked: with the judge before it, the measure for the proved judge with cards.
 *
 * What is tuned: forks, joins and halts are told from accesses by no branch, which would be guessed
 * wrong too often, but put on a spare card; that a location is touched for the first time is told
 * by one, which is guessed wrong once a location; which count goes up is looked up by the kind. */

#include <stddef.h>
#include <stdint.h>

#include "hints.h"
#include "kinds.h"

/* Events in a row with no test of the end. */
enum { ROW = 4 };

/* Puts event p on its card. A move, which comes behind the accesses, spoils the spare card. */
static inline void put(racejudge_card *cards, racejudge_card *spare, size_t kind, size_t location,
                       size_t p)
{
    size_t count = IN_ROW[kind];
    racejudge_card *card = &cards[location];
    HIDE(card);
    card = count > IN_ROW[SUM] ? spare : card;
    HIDE(card);
    if (UNLIKELY(card->first == RACEJUDGE_NOWHERE))
        card->first = p;
    card->last = p;
    uint16_t *counts = &card->reads;
    counts[count]++;
}

void pass_call(const uint8_t *restrict kinds, const uint16_t *restrict operands, size_t n,
               racejudge_card *restrict cards)
{
    racejudge_card spare = {0};
    for (size_t l = 0; l < RACEJUDGE_CARDS; l++)
        cards[l] = (racejudge_card){.first = RACEJUDGE_NOWHERE, .last = RACEJUDGE_NOWHERE};
    size_t p = 0;
    for (; p + ROW <= n; p += ROW)
        for (size_t j = 0; j < ROW; j++)
            put(cards, &spare, kinds[p + j], operands[p + j], p + j);
    for (; p < n; p++)
        put(cards, &spare, kinds[p], operands[p], p);
}
