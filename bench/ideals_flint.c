// Product and giant step of ideals by FLINT's nmod_poly.
#include "ideals.h"
#include "ideals_flint.h"

static struct ideal given[64][2];

static void setup(void) {
    setup_polynomials();
    for (uint32_t k = 0; k < 2 * count; k++) {
        load(given[k / 2][k % 2].q, couples[k / 2][k % 2].q, n / 2);
        load(given[k / 2][k % 2].p, couples[k / 2][k % 2].p, n / 2 - 1);
    }
}

static void reduce(void) {
    descend();
    settle();
}

static void giant(struct ideal *x, struct ideal *y) {
    product(x, y);
    reduce();
}

int main(int argc, char **argv) {
    if (argc != 3) exit(2);
    input();
    setup();
    long turns = atol(argv[2]), sizes = 0;
    int which = *argv[1] == 'g';
    if (!strcmp(argv[1], "answers")) {
        for (uint32_t k = 0; k < count; k++) {
            product(&given[k][0], &given[k][1]);
            print(S), print(Q), print(P);
            reduce();
            print(Q), print(P);
            printf("%ld %ld\n", (long)f, (long)(couples[k][0].distance + couples[k][1].distance) + (long)f);
        }
        return 0;
    }
    double start = seconds();
    for (uint32_t k = 0; k < count; k++) {
        for (long i = 0; i < turns; i++) {
            if (which) giant(&given[k][0], &given[k][1]);
            else product(&given[k][0], &given[k][1]);
        }
        sizes += P->length;
    }
    printf("%.6f %ld\n", seconds() - start, sizes);
}
