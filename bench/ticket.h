// What the contenders of bench/ideals and bench/ideal_at have in common: q, n and D from standard input, the
// ticket, the clock.
#include "clock.h"

static uint32_t q, n, D[65];
static uint32_t ticket[70], words;

static uint64_t number(void) {
    unsigned long long x;
    if (scanf("%llu", &x) != 1) exit(2);
    return x;
}

// q, n, D
static void input_ticket(void) {
    q = number(), n = number();
    if (n < 4 || n > 64) exit(2);
    for (uint32_t i = 0; i <= n; i++) D[i] = number();
    ticket[0] = 1u << 28 | q, ticket[1] = 2u << 28 | n, words = 2;
    for (uint32_t i = 0; i <= n; i++) ticket[words++] = 3u << 28 | D[i];
    ticket[words++] = 4u << 28;
    ticket[words] = 15u << 28 | words;
    words++;
}
