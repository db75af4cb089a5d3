// What the contenders share: arguments, clock and report.
// Each is called as  NAME q n steps c_0 .. c_n  and walks from index 0 for `steps` steps, past constants.
// It prints the degree of the last p, the number of constants among Q_1 .. Q_steps, and the walk's processor seconds.
#include "clock.h"

static uint32_t q, n, D[80];
static long steps;

static void arguments(int argc, char **argv) {
    if (argc < 4) exit(2);
    q = atoi(argv[1]), n = atoi(argv[2]), steps = atol(argv[3]);
    if (n > 64 || argc != 5 + (int)n) exit(2);
    for (uint32_t i = 0; i <= n; i++) D[i] = atoi(argv[4 + i]);
}

static void report(long degree, long constants, double time) {
    printf("%ld %ld %.6f\n", degree, constants, time);
}
