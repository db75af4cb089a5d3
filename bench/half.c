// The call foskadoin_half with budget b beside foskadoin_regulator with budget 2b, in turns, at four places of the
// stack 16 bytes apart, since the times may depend on it. The best time at each counts. They also differ between copies
// of the program in other files.
//     cc -O2 -o half bench/half.c target/staticlib/libfoskadoin.a
//     cat bench/jobs.txt bench/half_jobs.txt | ./half
// -DPLACES=256 is a whole page of the stack. The times are those of the place with the least ratio; then come the
// greatest ratio, and at how many places it is below the goal of 1.8.
// b is half the steps of a line, or, where its D has a quasi-period m of at most these, the least b that finds it:
// both calls then make their whole walk. In jobs.txt m is 3 at q = 3, n = 4 and 148 at q = 3, n = 16; half_jobs.txt
// has a D with m = 11,280 for the second. For the first no D has a large m, here 6: the ticket and the table of
// inverses, which both calls have, are nearly all of the time.
#include <alloca.h>
#include "../include/foskadoin.h"
#include "clock.h"

#ifndef PLACES
#define PLACES 4
#endif
enum { TURNS = 9, MOST = 64 };
typedef struct foskadoin_numbers call(const uint32_t *ticket, size_t words);

static uint32_t ticket[MOST + 5], n;

static struct foskadoin_numbers with_budget(call *make, uint32_t budget) {
    ticket[n + 3] = 4u << 28 | budget;
    return make(ticket, n + 5);
}

// Seconds of one of COUNT calls, with the stack lowered by so many bytes.
static __attribute__((noinline)) double time_call(call *make, uint32_t budget, long count, size_t lowered) {
    volatile char *space = alloca(lowered + 1);
    *space = 0;
    double start = seconds();
    for (long i = 0; i < count; i++) with_budget(make, budget);
    return (seconds() - start) / count;
}

// The next line: the ticket, and b.
static int next_job(uint32_t *b) {
    uint32_t q, steps, c;
    if (scanf("%u %u %u", &q, &n, &steps) != 3 || n > MOST) return 0;
    ticket[0] = 1u << 28 | q, ticket[1] = 2u << 28 | n, ticket[n + 4] = 15u << 28 | (n + 4);
    for (uint32_t i = 0; i <= n; i++) {
        if (scanf("%u", &c) != 1) return 0;
        ticket[i + 2] = 3u << 28 | c;
    }
    struct foskadoin_numbers a = with_budget(foskadoin_regulator, steps);
    *b = a.number == FOSKADOIN_FOUND ? (a.quasi_period + 1) / 2 : steps / 2;
    return 1;
}

// The best times of both calls at one place of the stack.
struct times {
    double whole, half;
};

static struct times at_place(uint32_t b, long count, size_t lowered) {
    struct times best = {1e9, 1e9};
    for (int t = 0; t < TURNS; t++) {
        double x = time_call(foskadoin_regulator, 2 * b, count, lowered), y = time_call(foskadoin_half, b, count, lowered);
        if (x < best.whole) best.whole = x;
        if (y < best.half) best.half = y;
    }
    return best;
}

int main(void) {
    printf("%6s%4s%9s%10s%18s%18s%8s%8s%8s\n", "q", "n", "b", "m", "whole 2b, us", "half b, us", "ratio", "most", "below");
    for (uint32_t b; next_job(&b);) {
        struct foskadoin_numbers whole = with_budget(foskadoin_regulator, 2 * b), half = with_budget(foskadoin_half, b);
        if (whole.number != half.number) return 1;
        struct times least = {1, 1e-9};
        double most = 0;
        int below = 0;
        for (int place = 0; place < PLACES; place++) {
            struct times t = at_place(b, 1 + 200000 / (b + 100), 16 * place);
            double ratio = t.whole / t.half;
            if (ratio < least.whole / least.half) least = t;
            if (ratio > most) most = ratio;
            below += ratio < 1.8;
        }
        char m[24] = "above 2b";
        if (whole.number == FOSKADOIN_FOUND) snprintf(m, sizeof m, "%lu", whole.quasi_period);
        printf("%6u%4u%9u%10s%18.2f%18.2f%8.2f%8.2f%8d\n", ticket[0] & 0xfffffff, n, b, m, 1e6 * least.whole, 1e6 * least.half, least.whole / least.half, most, below);
        fflush(stdout);
    }
}
