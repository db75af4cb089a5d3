// What the contenders of bench/ideals share: ticket and couples of ideals from standard input, the clock.
// Each is called as  NAME what turns  with what one of
//   answers   prints every answer; turns has no effect
//   product   turns times over, the product of each couple of ideals; prints processor seconds
//   giant     the same for the giant step
//   refused   the same for the call that reads ticket and pairs and then refuses them; the library alone
// A couple's turns follow each other, so that all contenders have the same repetition.
#include "ticket.h"

struct pair {
    uint32_t q[32], p[31];
    uint64_t distance;
};

static uint32_t count;
static struct pair couples[64][2];

// q, n, D, how many couples; a pair is n/2 numbers of Q, n/2 - 1 of P, the distance
static void input(void) {
    input_ticket();
    count = number();
    if (count > 64) exit(2);
    for (uint32_t k = 0; k < 2 * count; k++) {
        struct pair *x = &couples[k / 2][k % 2];
        for (uint32_t i = 0; i < n / 2; i++) x->q[i] = number();
        for (uint32_t i = 0; i < n / 2 - 1; i++) x->p[i] = number();
        x->distance = number();
    }
}
