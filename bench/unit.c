// What the unit costs as R grows: for each q the D of degree 6 with the largest R of a few, its regulator and
// its unit.  cc -O2 -o unit bench/unit.c target/staticlib/libfoskadoin.a
#include <stdio.h>
#include <stdlib.h>
#include <time.h>
#include "../include/foskadoin.h"

enum { N = 6, WORDS = N + 5, TRIES = 40 };

static double seconds(void) {
    struct timespec t;
    clock_gettime(CLOCK_PROCESS_CPUTIME_ID, &t);
    return t.tv_sec + 1e-9 * t.tv_nsec;
}

int main(void) {
    const uint32_t qs[] = {13, 23, 43, 83, 163, 251};
    uint64_t seed = 1;
    printf("%6s%10s%10s%16s%12s%16s\n", "q", "R", "m", "regulator, ms", "unit, ms", "unit, ns/(m R)");
    for (size_t k = 0; k < sizeof qs / sizeof *qs; k++) {
        uint32_t q = qs[k], best[WORDS];
        struct foskadoin_numbers most = {0};
        for (int t = 0; t < TRIES; t++) {
            uint32_t ticket[WORDS] = {1u << 28 | q, 2u << 28 | N};
            for (int i = 0; i < N; i++) ticket[2 + i] = 3u << 28 | (uint32_t)((seed = seed * 6364136223846793005u + 1442695040888963407u) >> 33) % q;
            ticket[2 + N] = 3u << 28 | 1, ticket[3 + N] = 4u << 28 | ((1u << 28) - 1), ticket[4 + N] = 15u << 28 | (N + 4);
            struct foskadoin_numbers a = foskadoin_regulator(ticket, WORDS);
            if (a.number == FOSKADOIN_FOUND && a.regulator > most.regulator) {
                most = a;
                for (int i = 0; i < WORDS; i++) best[i] = ticket[i];
            }
        }
        size_t places = most.regulator + 1;
        uint32_t *l[4];
        for (int i = 0; i < 4; i++) l[i] = malloc(places * sizeof *l[i]);
        double start = seconds();
        foskadoin_regulator(best, WORDS);
        double middle = seconds();
        foskadoin_unit(best, WORDS, l[0], places, l[1], places, l[2], places, l[3], places);
        double end = seconds();
        printf("%6u%10lu%10lu%16.3f%12.3f%16.2f\n", q, most.regulator, most.quasi_period, (middle - start) * 1e3,
               (end - middle) * 1e3, (end - middle) * 1e9 / ((double)most.regulator * most.quasi_period));
        fflush(stdout);
        for (int i = 0; i < 4; i++) free(l[i]);
    }
}
