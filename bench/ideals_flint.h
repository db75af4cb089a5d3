// The giant step of ideals by FLINT's nmod_poly, for bench/ideals and bench/ideal_at. Include what has q, n and D
// first.
// LITERAL: document 01's formulas as they are written. Else what need not be computed is left out: V; W and the
// second greatest common divisor where the first is 1; P by a remainder modulo Q_2/S in place of Q; Q by (2-7) of
// source 000 after the first division. In both, of the last partial quotient the degree is enough.
#include "flint_root.h"

struct ideal {
    nmod_poly_t q, p;
};

// (Q, P) is what is being made, S the greatest common divisor of its product
static nmod_poly_t DD, d, S, Q, P, G, U, V, W, X, a, b, c, r, t, before;
static slong f;
// whether before is (D - P^2)/Q
static int known;

static void load(nmod_poly_t x, const uint32_t *list, uint32_t length) {
    nmod_poly_init2(x, q, 2 * n + 2);
    for (uint32_t i = 0; i < length; i++) nmod_poly_set_coeff_ui(x, i, list[i]);
}

static void setup_polynomials(void) {
    nmod_poly_struct *all[] = {S, Q, P, G, U, V, W, X, a, b, c, r, t, before};
    for (size_t i = 0; i < sizeof all / sizeof *all; i++) load(all[i], 0, 0);
    load(DD, D, n + 1);
    load(d, 0, 0);
    root_of(d, DD, n);
}

static void print(const nmod_poly_t x) {
    printf("%ld", (long)x->length);
    for (slong i = 0; i < x->length; i++) printf(" %lu", nmod_poly_get_coeff_ui(x, i));
    printf(" ");
}

#ifdef LITERAL
static inline void product(struct ideal *x, struct ideal *y) {
    nmod_poly_xgcd(G, b, V, x->q, y->q);
    nmod_poly_add(t, x->p, y->p);
    nmod_poly_xgcd(S, X, W, G, t);
    nmod_poly_mul(U, X, b);
    nmod_poly_mul(t, x->q, y->q);
    nmod_poly_mul(b, S, S);
    nmod_poly_div(Q, t, b);
    nmod_poly_mul(t, x->p, x->p);
    nmod_poly_sub(t, DD, t);
    nmod_poly_div(c, t, x->q);
    nmod_poly_sub(t, y->p, x->p);
    nmod_poly_mul(b, U, t);
    nmod_poly_mul(t, W, c);
    nmod_poly_add(b, b, t);
    nmod_poly_div(c, x->q, S);
    nmod_poly_mul(t, c, b);
    nmod_poly_add(t, t, x->p);
    nmod_poly_rem(P, t, Q);
}
#else
// (D - P^2) / Q
static inline void cofactor(nmod_poly_t result, const nmod_poly_t q, const nmod_poly_t p) {
    nmod_poly_mul(r, p, p);
    nmod_poly_sub(r, DD, r);
    nmod_poly_div(result, r, q);
}

static inline void product(struct ideal *x, struct ideal *y) {
    known = 0;
    // the first Q is the one of lower degree: the product is the same
    if (y->q->length < x->q->length) {
        struct ideal *z = x;
        x = y, y = z;
    }
    if (x->q->length == 1) {
        nmod_poly_one(G);
        nmod_poly_one(U);
    } else if (x->q->length < y->q->length) {
        nmod_poly_gcdinv(G, U, x->q, y->q);
    } else {
        nmod_poly_sub(t, x->q, y->q);
        if (t->length) {
            nmod_poly_gcdinv(G, U, t, y->q);
        } else {
            nmod_poly_set(G, y->q);
            nmod_poly_zero(U);
        }
    }
    if (G->length == 1) {
        nmod_poly_one(S);
        nmod_poly_mul(Q, x->q, y->q);
        nmod_poly_sub(t, y->p, x->p);
        nmod_poly_mul(b, U, t);
        nmod_poly_rem(t, b, y->q);
        nmod_poly_mul(P, x->q, t);
        nmod_poly_add(P, P, x->p);
        return;
    }
    nmod_poly_add(t, x->p, y->p);
    nmod_poly_xgcd(S, X, W, G, t);
    cofactor(c, x->q, x->p);
    nmod_poly_mul(t, X, U);
    nmod_poly_sub(b, y->p, x->p);
    nmod_poly_mul(a, t, b);
    nmod_poly_mul(t, W, c);
    nmod_poly_add(b, a, t);
    nmod_poly_div(a, x->q, S);
    nmod_poly_div(c, y->q, S);
    nmod_poly_mul(Q, a, c);
    nmod_poly_rem(t, b, c);
    nmod_poly_mul(b, a, t);
    nmod_poly_add(b, b, x->p);
    nmod_poly_rem(P, b, Q);
}
#endif

// a step of the walk from (Q, P), with t = P + d
static inline void step(void) {
#ifdef LITERAL
    nmod_poly_div(a, t, Q);
    nmod_poly_mul(t, a, Q);
    nmod_poly_sub(P, t, P);
    nmod_poly_mul(t, P, P);
    nmod_poly_sub(t, DD, t);
    nmod_poly_div(r, t, Q);
    nmod_poly_swap(Q, r);
#else
    if (!known) cofactor(before, Q, P);
    known = 1;
    // P + d = aQ + r: P' = d - r, Q' = before + a(P - P')
    if (t->length < Q->length) {
        nmod_poly_neg(P, P);
    } else {
        nmod_poly_divrem(a, r, t, Q);
        nmod_poly_sub(r, d, r);
        nmod_poly_sub(t, P, r);
        nmod_poly_mul(b, a, t);
        nmod_poly_add(before, before, b);
        nmod_poly_swap(P, r);
    }
    nmod_poly_swap(before, Q);
#endif
}

// the pair (Q, P) of a product with S walked to deg Q <= g, and f
static inline void descend(void) {
    slong half = n / 2;
    f = 1 - (slong)S->length - (Q->length - 1);
    int first = 1;
    while (Q->length > half) {
        nmod_poly_add(t, P, d);
        if (!first) f += t->length - Q->length;
        step();
        first = 0;
    }
    if (!first) {
        nmod_poly_add(t, P, d);
        f += t->length - Q->length;
    }
    f += Q->length - 1;
}

// Q monic, P modulo it
static inline void settle(void) {
    nmod_poly_make_monic(Q, Q);
    nmod_poly_rem(t, P, Q);
    nmod_poly_swap(P, t);
    known = 0;
}
