// Product and giant step by the library's calls, target/staticlib/libfoskadoin.a: each call reads the ticket and
// the pairs.
#include "../include/foskadoin.h"
#include "ideals.h"

static uint32_t s[129], first[129], second[129];

static struct foskadoin_product_numbers product(const struct pair *x, const struct pair *y) {
    return foskadoin_product(ticket, words, x->q, n / 2, x->p, n / 2 - 1, y->q, n / 2, y->p, n / 2 - 1,
                             s, first, second);
}

static struct foskadoin_giant_step_numbers giant(const struct pair *x, const struct pair *y) {
    return foskadoin_giant_step(ticket, words, x->q, n / 2, x->p, n / 2 - 1, x->distance,
                                y->q, n / 2, y->p, n / 2 - 1, y->distance, first, second);
}

static void print(const uint32_t *x, uint64_t size) {
    printf("%lu", size);
    for (uint64_t i = 0; i < size; i++) printf(" %u", x[i]);
    printf(" ");
}

int main(int argc, char **argv) {
    if (argc != 3) exit(2);
    input();
    long turns = atol(argv[2]), sizes = 0, wanted = 0;
    int which = *argv[1] != 'p';
    if (!strcmp(argv[1], "answers")) {
        for (uint32_t k = 0; k < count; k++) {
            struct foskadoin_product_numbers u = product(&couples[k][0], &couples[k][1]);
            print(s, u.s_size), print(first, u.q_size), print(second, u.p_size);
            struct foskadoin_giant_step_numbers v = giant(&couples[k][0], &couples[k][1]);
            print(first, v.q_size), print(second, v.p_size);
            printf("%ld %ld\n", v.f, v.distance);
        }
        return 0;
    }
    if (!strcmp(argv[1], "refused")) {
        // a distance is the last that is tested
        wanted = FOSKADOIN_WRONG_DISTANCE;
        for (uint32_t k = 0; k < count; k++) couples[k][1].distance = UINT64_MAX;
    }
    double start = seconds();
    for (uint32_t k = 0; k < count; k++) {
        for (long i = 0; i < turns; i++) {
            if (which) {
                struct foskadoin_giant_step_numbers v = giant(&couples[k][0], &couples[k][1]);
                if (v.number != wanted) exit(3);
                if (!i) sizes += v.p_size;
            } else {
                struct foskadoin_product_numbers u = product(&couples[k][0], &couples[k][1]);
                if (u.number) exit(3);
                if (!i) sizes += u.p_size;
            }
        }
    }
    printf("%.6f %ld\n", seconds() - start, sizes);
}
