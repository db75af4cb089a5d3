// Product and giant step by the engine below the ticket, target/staticlib/libbench_ideals.a: ticket and pairs are
// read once for all turns, and the time of that is taken off.
#include <stddef.h>
#include "ideals.h"

// The size of P, made `times` times over.
typedef uint64_t made(const uint32_t *ticket, size_t words, const uint32_t *q1, size_t q1_length,
                      const uint32_t *p1, size_t p1_length, const uint32_t *q2, size_t q2_length,
                      const uint32_t *p2, size_t p2_length, uint64_t times);
extern made bench_product, bench_giant_step;

int main(int argc, char **argv) {
    if (argc != 3) exit(2);
    input();
    long turns = atol(argv[2]), sizes = 0;
    double time = 0;
    made *call = *argv[1] == 'g' ? bench_giant_step : bench_product;
    for (uint32_t k = 0; k < count; k++) {
        struct pair *x = &couples[k][0], *y = &couples[k][1];
        // the reading, which is taken off, and then the reading with all turns
        for (int all = 0; all < 2; all++) {
            double start = seconds();
            sizes += call(ticket, words, x->q, n / 2, x->p, n / 2 - 1, y->q, n / 2, y->p, n / 2 - 1,
                          all ? turns : 0);
            time += all ? seconds() - start : start - seconds();
        }
    }
    printf("%.6f %ld\n", time, sizes);
}
