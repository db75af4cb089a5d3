// A call at sixteen primes beside sixteen single calls with the reduced coefficients, in turns; the best of each
// counts.  cc -O2 -o several bench/several.c target/staticlib/libfoskadoin.a
#include "../include/foskadoin.h"
#include "clock.h"

enum { PRIMES = 16, MOST = 64, TURNS = 25 };

static const uint32_t primes[PRIMES] = {3,    5,    7,    11,   101,  103,  107,  109,
                                        1009, 1013, 1019, 1021, 4073, 4079, 4091, 4093};
static uint32_t several[MOST + 4 + PRIMES], single[PRIMES][MOST + 5];
static uint64_t outcomes[4 * PRIMES];

static uint32_t word(uint32_t kind, int64_t value) { return kind << 28 | ((uint32_t)value & ((1u << 28) - 1)); }

static void write_tickets(int n, const int32_t *D, uint32_t budget) {
    several[0] = word(2, n), several[n + 2] = word(4, budget), several[n + 3 + PRIMES] = word(15, n + 3 + PRIMES);
    for (int i = 0; i <= n; i++) several[1 + i] = word(12, D[i]);
    for (int k = 0; k < PRIMES; k++) {
        int64_t q = primes[k];
        uint32_t *w = single[k];
        several[n + 3 + k] = w[0] = word(1, q);
        w[1] = word(2, n), w[n + 3] = word(4, budget), w[n + 4] = word(15, n + 4);
        for (int i = 0; i <= n; i++) w[2 + i] = word(3, (D[i] % q + q) % q);
    }
}

// Seconds of one of COUNT calls at sixteen primes, and of sixteen single ones.
static double time_several(int n, int count) {
    double start = seconds();
    for (int i = 0; i < count; i++) foskadoin_regulators(several, n + 4 + PRIMES, outcomes);
    return (seconds() - start) / count;
}

static double time_single(int n, int count) {
    double start = seconds();
    for (int i = 0; i < count; i++)
        for (int k = 0; k < PRIMES; k++) foskadoin_regulator(single[k], n + 5);
    return (seconds() - start) / count;
}

static void measure(int n, uint32_t budget) {
    int count = budget ? 200000 / (int)budget : 2000;
    double best_several = 1e9, best_single = 1e9;
    for (int t = 0; t < TURNS; t++) {
        double x = time_several(n, count), y = time_single(n, count);
        if (x < best_several) best_several = x;
        if (y < best_single) best_single = y;
    }
    printf("%4d%8u%20.2f%20.2f%8.3f\n", n, budget, 1e6 * best_several, 1e6 * best_single, best_several / best_single);
}

// With each budget, for a D with large random coefficients.
static void measure_degree(int n, uint32_t seed) {
    int32_t D[MOST + 1];
    for (int i = 0; i < n; i++) D[i] = (int32_t)((seed = seed * 1664525 + 1013904223) >> 4) - (1 << 27);
    D[n] = 1;
    const uint32_t budgets[] = {0, 100, 10000};
    for (int b = 0; b < 3; b++) {
        write_tickets(n, D, budgets[b]);
        measure(n, budgets[b]);
    }
}

int main(void) {
    printf("%4s%8s%20s%20s%8s\n", "n", "b", "one call, us", "sixteen, us", "ratio");
    measure_degree(4, 1);
    measure_degree(16, 2);
    measure_degree(64, 3);
}
