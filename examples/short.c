/*
 * The example of README's "Use from C": what stands between the two marks is printed there, and the test compares both.
 */
#include <stdio.h>

#include "quimdoral.h"

int main(void)
{
    /* README */
    uint64_t head[6], octets[4], figures[7];
    uint8_t marks[8], frame[64];
    uint32_t elapsed[8], firsts[4], counts[4];
    uint16_t sizes[8];
    uint64_t written = quimdoral_write_data(4200, 1, 13, (const uint8_t *)"River Dove", 10, frame, 64); /* refusal + 256 x octets */
    unsigned refused = QUIMDORAL_REFUSAL(written); /* 0, or the number of the first refusal */
    if (refused == 0)
        refused = quimdoral_fresh(7, 3, 4200, head, 6, marks, 8, elapsed, 8, sizes, 8);
    if (refused == 0)
        refused = QUIMDORAL_REFUSAL(quimdoral_hear(head, 6, marks, 8, elapsed, 8, sizes, 8, 7, 3, frame, QUIMDORAL_VALUE(written)));
    if (refused == 0)
        refused = quimdoral_report(head, 6, marks, 8, elapsed, 8, sizes, 8, firsts, 4, counts, 4, octets, 4, figures, 7);
    if (refused == 0)
        printf("missing: %u packet of %u octets\n", (unsigned)figures[4], (unsigned)figures[5]); /* missing: 1 packet of 13 octets */
    /* README */
    return (int)refused;
}
