// The walk in plain C with (2-7): fixed arrays, a table of inverses, reduction once a place, a path of its own for quotients of degree 1.
#include "common.h"
#define PLACES 40

static uint64_t reciprocal;
static uint32_t inverse[4096];

// x mod q for x below 2^28
static inline uint32_t reduce(uint32_t x) {
    uint32_t r = x - (uint32_t)((x * reciprocal) >> 40) * q;
    return r >= q ? r - q : r;
}

static int top(const uint32_t *Q, int g) {
    while (g > 0 && !Q[g]) g--;
    return g;
}

// r = 2d - r_before - aQ and Z = Q_before + a(r - r_before), with a = a1 x + a0
static void linear(int g, uint32_t a1, uint32_t a0, const uint32_t *restrict d2, const uint32_t *restrict Q, const uint32_t *restrict rbefore,
                   uint32_t *restrict r, uint32_t *restrict Z) {
    uint32_t n1 = q - a1, n0 = a0 ? q - a0 : 0, t[PLACES];
    r[0] = reduce(d2[0] + q - rbefore[0] + n0 * Q[0]);
    for (int j = 1; j < g; j++) r[j] = reduce(d2[j] + q - rbefore[j] + n1 * Q[j - 1] + n0 * Q[j]);
    r[g] = 0;
    for (int j = 0; j <= g; j++) t[j] = r[j] + q - rbefore[j];
    Z[0] = reduce(Z[0] + a0 * t[0]);
    for (int j = 1; j <= g; j++) Z[j] = reduce(Z[j] + a1 * t[j - 1] + a0 * t[j]);
}

// the same for a quotient of degree k, Q of degree e
static void general(int g, int k, int e, uint32_t unit, const uint32_t *d2, const uint32_t *Q, const uint32_t *rbefore, uint32_t *r, uint32_t *Z) {
    uint32_t s[PLACES], a[PLACES], t[PLACES];
    uint64_t sum[2 * PLACES] = {0};
    for (int j = 0; j <= g + 1; j++) s[j] = reduce(d2[j] + q - (j <= g ? rbefore[j] : 0));
    for (int i = k; i >= 0; i--) {
        a[i] = reduce(s[i + e] * unit);
        uint32_t minus = a[i] ? q - a[i] : 0;
        for (int j = 0; j <= e; j++) s[i + j] = reduce(s[i + j] + minus * Q[j]);
    }
    for (int j = 0; j <= g; j++) r[j] = j < e ? s[j] : 0;
    for (int j = 0; j <= g; j++) t[j] = r[j] + q - rbefore[j];
    for (int i = 0; i <= k; i++)
        for (int j = 0; i + j <= g; j++) sum[i + j] += (uint64_t)a[i] * t[j];
    for (int j = 0; j <= g; j++) Z[j] = (uint32_t)((Z[j] + sum[j]) % q);
}

int main(int argc, char **argv) {
    arguments(argc, argv);
    int h = n / 2, g = h - 1;
    reciprocal = (1ull << 40) / q;
    inverse[1] = 1;
    for (uint32_t a = 2; a < q; a++) inverse[a] = (q - q / a) * inverse[q % a] % q;
    static uint32_t d[PLACES], d2[PLACES], array[4][PLACES];
    d[h] = 1;
    for (int k = h - 1; k >= 0; k--) {
        uint64_t sum = 0;
        for (int i = k; i <= h; i++) sum += (uint64_t)d[i] * d[k + h - i];
        d[k] = (D[k + h] + q - (uint32_t)(sum % q)) % q * ((q + 1) / 2) % q;
    }
    for (int i = 0; i <= h; i++) d2[i] = 2 * d[i] % q;
    uint32_t *Q = array[0], *Z = array[1], *r = array[2], *rbefore = array[3], *swap;
    double start = seconds();
    for (int k = 0; k <= g; k++) {
        uint64_t sum = 0;
        for (int i = 0; i <= k; i++) sum += (uint64_t)d[i] * d[k - i];
        Q[k] = (D[k] + q - (uint32_t)(sum % q)) % q;
    }
    Z[0] = 1;
    int e = top(Q, g);
    long degree = h, constants = e == 0;
    for (long i = 1; i < steps; i++) {
        uint32_t unit = inverse[Q[e]];
        int k = h - e;
        degree += k;
        if (k == 1) {
            uint32_t a1 = reduce(2 * unit), part = g ? reduce(Q[g - 1] * unit) : 0;
            uint32_t a0 = reduce((d2[g] + q) * unit + (q - a1) * part);
            linear(g, a1, a0, d2, Q, rbefore, r, Z);
        } else {
            general(g, k, e, unit, d2, Q, rbefore, r, Z);
        }
        swap = Q, Q = Z, Z = swap;
        swap = r, r = rbefore, rbefore = swap;
        e = top(Q, g);
        constants += e == 0;
    }
    report(degree, constants, seconds() - start);
}
