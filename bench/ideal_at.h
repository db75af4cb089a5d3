// What the contenders of bench/ideal_at share: ticket and distances from standard input, the clock.
// Each is called as  NAME what turns  with what one of
//   answers   prints the answer for each distance: Q and P after their sizes, the distance, the next one; turns has
//             no effect
//   counts    for each distance, giant steps, single steps, and the most single steps after one giant step; FLINT
//             alone
//   time      each call turns times over; prints processor seconds for each distance
#include "ticket.h"

static uint32_t count;
static uint64_t distances[64];

// q, n, D, how many distances, the distances
static void input(void) {
    input_ticket();
    count = number();
    if (count > 64) exit(2);
    for (uint32_t k = 0; k < count; k++) distances[k] = number();
}
