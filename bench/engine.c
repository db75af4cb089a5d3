// The walk by the engine itself, linked from target/staticlib/libbench_walk.a: a proved run of the walk's step
// that does not stop at constants. -DHALF: each step with the tests of half the walk, past every middle.
#include <stddef.h>
#include "common.h"

struct tried {
    uint64_t degree, stops;
};

// product stands for that of 2/lc Q_j, which a run keeps.
struct made {
    uint64_t degree, product;
};

// The degree of p_{steps-1}, the sum of deg a_0 .. a_{steps-1}; 0 where the ticket is refused. bench_half also
// counts how often the tests say that half the walk stops. An earlier engine's bench_walk returns the degree alone, in
// the same register.
extern struct made bench_walk(const uint32_t *ticket, size_t words, uint64_t steps);
extern struct tried bench_half(const uint32_t *ticket, size_t words, uint64_t steps);

int main(int argc, char **argv) {
    arguments(argc, argv);
    uint32_t ticket[80] = {1u << 28 | q, 2u << 28 | n}, words = 2;
    for (uint32_t i = 0; i <= n; i++) ticket[words++] = 3u << 28 | D[i];
    ticket[words++] = 4u << 28;
    ticket[words] = 15u << 28 | words;
    words++;
    double start = seconds();
#ifdef HALF
    struct tried a = bench_half(ticket, words, steps);
    report((long)a.degree, (long)a.stops, seconds() - start);
#else
    uint64_t degree = bench_walk(ticket, words, steps).degree;
    // it does not count constants
    report((long)degree, -1, seconds() - start);
#endif
}
