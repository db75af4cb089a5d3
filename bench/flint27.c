// The walk by FLINT's nmod_poly with source 000's (2-7): P + d = aQ + r, P' = d - r, Q' = Q_before + a(r - r_before).
#include "flint_root.h"
#include "common.h"

int main(int argc, char **argv) {
    arguments(argc, argv);
    nmod_poly_t DD, d, P, Q, before, a, t, r, rbefore;
    nmod_poly_init(DD, q), nmod_poly_init(d, q), nmod_poly_init(P, q), nmod_poly_init(Q, q), nmod_poly_init(before, q);
    nmod_poly_init(a, q), nmod_poly_init(t, q), nmod_poly_init(r, q), nmod_poly_init(rbefore, q);
    for (uint32_t i = 0; i <= n; i++) nmod_poly_set_coeff_ui(DD, i, D[i]);
    root_of(d, DD, n);
    double start = seconds();
    // index 0 by itself: a = d, r = 0, P' = d, Q' = D - d^2
    nmod_poly_set(P, d);
    nmod_poly_mul(t, d, d);
    nmod_poly_sub(Q, DD, t);
    nmod_poly_set_coeff_ui(before, 0, 1);
    long degree = n / 2, constants = nmod_poly_degree(Q) == 0;
    for (long i = 1; i < steps; i++) {
        nmod_poly_add(t, P, d);
        nmod_poly_divrem(a, r, t, Q);
        degree += nmod_poly_degree(a);
        nmod_poly_sub(P, d, r);
        nmod_poly_sub(t, r, rbefore);
        nmod_poly_mul(t, a, t);
        nmod_poly_add(before, before, t);
        nmod_poly_swap(before, Q);
        nmod_poly_swap(rbefore, r);
        constants += nmod_poly_degree(Q) == 0;
    }
    report(degree, constants, seconds() - start);
}
