/*
 * A word of levels of 1e-40, subnormal numbers: the word of card B's position 7 is read once the default floating-point settings are
 * asked for, in whichever way the program was linked. tests/c/run links it with -ffast-math, which starts a program with others.
 */
#include <fenv.h>
#include <stdio.h>

#include "dunnavish.h"

int main(void)
{
    /* Card B: n 3, k 1, track 14, row 7, check 145. Position 7 has ones in its first seven of fifteen places. */
    static uint8_t card[DUNNAVISH_CARD_BYTES] = {3, 1, 0, 14, 0, 0, 0, 0, 0, 0, 0, 7};
    uint32_t values[DUNNAVISH_READ_VALUES] = {0}, status, i;
    float levels[15], strength[DUNNAVISH_STRENGTH_VALUES];

    card[511] = 145;
    for (i = 0; i < 15; i++)
        levels[i] = i < 7 ? -1e-40f : 1e-40f;
    fesetenv(FE_DFL_ENV);
    status = dunnavish_read_levels(card, sizeof card, levels, 15, values, DUNNAVISH_READ_VALUES, strength, DUNNAVISH_STRENGTH_VALUES);
    if (status != DUNNAVISH_OK || values[DUNNAVISH_READ_POSITION] != 7) {
        printf("subnormal_levels: status %u, position %u\n", (unsigned)status, (unsigned)values[DUNNAVISH_READ_POSITION]);
        return 1;
    }
    return 0;
}
