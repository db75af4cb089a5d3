// The last ideal of the walk with a distance of at most y, by FLINT's nmod_poly. The ideal for y comes from the one
// for y div 2 by a giant step with itself and then single steps, from the top bit of y down. D and its root are at
// hand: neither their setting up nor any test of the ticket is in the time.
// The single steps go on from the last step of the reduction, by (2-7) of source 000.
// CARRIED: (D - P^2)/Q is kept from the last step for the next square, whose own comes from it by a division by Q
// and not by Q^2; Q is made monic at the very end alone. Else each ideal is made monic and reduced after its single
// steps, and the square and the first step of the reduction divide D - P^2.
#include "ideal_at.h"
#include "ideals_flint.h"

static uint64_t distance, next;
static uint64_t giant_steps, single_steps, most;

// The product of (Q, P) with itself: as Q_1 = Q_2, S is gcd(Q, 2P), and U and V are not needed.
static void square(void) {
    if (Q->length == 1) {
        nmod_poly_one(S);
        return;
    }
#ifdef CARRIED
    if (!known) cofactor(before, Q, P);
    if (P->length >= Q->length) {
        // P = aQ + r: (D - r^2)/Q = before + a(P + r)
        nmod_poly_divrem(a, r, P, Q);
        nmod_poly_add(t, P, r);
        nmod_poly_mul(b, a, t);
        nmod_poly_add(before, before, b);
        nmod_poly_swap(P, r);
    }
#else
    cofactor(before, Q, P);
#endif
    nmod_poly_add(c, P, P);
    if (c->length) {
        nmod_poly_gcdinv(S, W, c, Q);
    } else {
        nmod_poly_make_monic(S, Q);
        nmod_poly_zero(W);
    }
    nmod_poly_mul(b, W, before);
    known = 0;
    if (S->length == 1) {
        nmod_poly_rem(t, b, Q);
#ifdef CARRIED
        // P' = P + Qt: (D - P'^2)/Q^2 = (before - 2Pt)/Q - t^2
        nmod_poly_mul(b, c, t);
        nmod_poly_sub(b, before, b);
        nmod_poly_div(before, b, Q);
        nmod_poly_mul(b, t, t);
        nmod_poly_sub(before, before, b);
        known = 1;
#endif
        nmod_poly_mul(b, Q, t);
        nmod_poly_add(P, P, b);
        nmod_poly_mul(b, Q, Q);
        nmod_poly_swap(Q, b);
        return;
    }
    nmod_poly_div(a, Q, S);
    nmod_poly_rem(t, b, a);
    nmod_poly_mul(Q, a, a);
    nmod_poly_mul(b, a, t);
    nmod_poly_add(b, b, P);
    nmod_poly_rem(P, b, Q);
}

static void ideal_at(uint64_t y) {
    nmod_poly_one(Q);
    nmod_poly_zero(P);
    known = 0;
    distance = 0;
    next = n / 2;
    for (int bit = y ? 64 - __builtin_clzll(y) : 0; bit--;) {
        uint64_t single = 0;
        square();
        descend();
        distance += distance + f;
        giant_steps++;
        // the partial quotient (P + d) div Q of a reduced ideal has the degree n/2 - deg Q
        while (next = distance + n / 2 + 1 - Q->length, next <= y >> bit) {
            nmod_poly_add(t, P, d);
            step();
            distance = next;
            single++;
        }
        single_steps += single;
        if (single > most) most = single;
#ifndef CARRIED
        settle();
#endif
    }
#ifdef CARRIED
    settle();
#endif
}

int main(int argc, char **argv) {
    if (argc != 3) exit(2);
    input();
    setup_polynomials();
    long turns = atol(argv[2]);
    for (uint32_t k = 0; k < count; k++) {
        if (!strcmp(argv[1], "time")) {
            double start = seconds();
            for (long i = 0; i < turns; i++) ideal_at(distances[k]);
            printf("%.9f\n", seconds() - start);
            continue;
        }
        giant_steps = single_steps = most = 0;
        ideal_at(distances[k]);
        if (!strcmp(argv[1], "counts")) {
            printf("%lu %lu %lu\n", giant_steps, single_steps, most);
        } else {
            print(Q), print(P);
            printf("%lu %lu\n", distance, next);
        }
    }
}
