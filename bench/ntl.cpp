// The walk by NTL's zz_pX with document 01's formulas.
#include <NTL/lzz_pX.h>
#include "common.h"
using namespace NTL;

int main(int argc, char **argv) {
    arguments(argc, argv);
    zz_p::init(q);
    zz_pX DD, d, P, Q, a, t, u;
    for (uint32_t i = 0; i <= n; i++) SetCoeff(DD, i, (long)D[i]);
    int h = n / 2;
    SetCoeff(d, h, 1);
    zz_p half = inv(to_zz_p(2));
    for (int k = h - 1; k >= 0; k--) {
        t = DD - d * d;
        SetCoeff(d, k, coeff(t, k + h) * half);
    }
    P = 0, Q = 1;
    long degree = 0, constants = 0;
    double start = seconds();
    for (long i = 0; i < steps; i++) {
        add(t, P, d);
        div(a, t, Q);
        degree += deg(a);
        mul(t, a, Q);
        sub(P, t, P);
        sqr(t, P);
        sub(t, DD, t);
        div(u, t, Q);
        swap(Q, u);
        constants += deg(Q) == 0;
    }
    report(degree, constants, seconds() - start);
}
