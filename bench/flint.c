// The walk by FLINT's nmod_poly with document 01's formulas.
#include "flint_root.h"
#include "common.h"

int main(int argc, char **argv) {
    arguments(argc, argv);
    nmod_poly_t DD, d, P, Q, a, t, u;
    nmod_poly_init(DD, q), nmod_poly_init(d, q), nmod_poly_init(P, q), nmod_poly_init(Q, q);
    nmod_poly_init(a, q), nmod_poly_init(t, q), nmod_poly_init(u, q);
    for (uint32_t i = 0; i <= n; i++) nmod_poly_set_coeff_ui(DD, i, D[i]);
    root_of(d, DD, n);
    nmod_poly_set_coeff_ui(Q, 0, 1);
    long degree = 0, constants = 0;
    double start = seconds();
    for (long i = 0; i < steps; i++) {
        nmod_poly_add(t, P, d);
        nmod_poly_div(a, t, Q);
        degree += nmod_poly_degree(a);
        nmod_poly_mul(t, a, Q);
        nmod_poly_sub(P, t, P);
        nmod_poly_mul(t, P, P);
        nmod_poly_sub(t, DD, t);
        nmod_poly_div(u, t, Q);
        nmod_poly_swap(Q, u);
        constants += nmod_poly_degree(Q) == 0;
    }
    report(degree, constants, seconds() - start);
}
