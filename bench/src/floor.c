/* The floor: reads every entry of a trace once and clears its workspace once. */

#include <stddef.h>
#include <stdint.h>
#include <string.h>

#include "racejudge.h"

uint64_t floor_call(const uint8_t *kinds, const uint16_t *tasks, const uint16_t *operands, size_t n,
                    uint16_t *ws)
{
    uint32_t sum = 0;
    for (size_t i = 0; i < n; i++)
        sum += kinds[i] ^ tasks[i] ^ operands[i];
    memset(ws, 0, (RACEJUDGE_WORKSPACE + n) * sizeof *ws);
    return sum;
}
