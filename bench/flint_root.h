// The root d of D, for the contenders by FLINT.
#include <flint/nmod_poly.h>

// d, which is 0 before, becomes the root of the polynomial D, of degree n, from its top coefficient down.
static void root_of(nmod_poly_t d, const nmod_poly_t D, int n) {
    ulong half = (D->mod.n + 1) / 2;
    nmod_poly_t t;
    nmod_poly_init_mod(t, D->mod);
    int h = n / 2;
    nmod_poly_set_coeff_ui(d, h, 1);
    for (int k = h - 1; k >= 0; k--) {
        nmod_poly_mul(t, d, d);
        nmod_poly_sub(t, D, t);
        nmod_poly_set_coeff_ui(d, k, nmod_poly_get_coeff_ui(t, k + h) * half % D->mod.n);
    }
    nmod_poly_clear(t);
}
