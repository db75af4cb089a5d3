// Product and giant step in plain C: arrays by reference with their sizes, a coefficient reduced once, a table of
// inverses, what need not be computed left out as in ideals_flint.c. A model of what the engine could do: with
// CLEAR it clears all 129 places of each result first, with NO_TABLE each inverse is computed where it is needed.
#include "ideals.h"
#define PLACES 129

typedef struct {
    uint32_t c[PLACES];
    int size;
} poly;

static uint32_t reciprocal, inverses[4096];
static poly DD, d, given[64][2][2], S, Q, P;
static long f;

// x mod q
static inline uint32_t reduce(uint32_t x) {
    uint32_t r = x - (uint32_t)((uint64_t)x * reciprocal >> 32) * q;
    return r >= q ? r - q : r;
}

static uint32_t inverse(uint32_t a) {
#ifdef NO_TABLE
    return a < 2 ? a : reduce((q - q / a) * inverse(q % a));
#else
    return inverses[a];
#endif
}

static inline void start(poly *z) {
#ifdef CLEAR
    memset(z->c, 0, sizeof z->c);
#else
    (void)z;
#endif
}

static inline void trim(poly *z, int size) {
    while (size && !z->c[size - 1]) size--;
    z->size = size;
}

static inline void set(poly *z, const poly *x) {
    start(z);
    for (int i = 0; i < x->size; i++) z->c[i] = x->c[i];
    z->size = x->size;
}

static inline int most(int a, int b) { return a < b ? b : a; }

static inline uint32_t at(const poly *x, int i) { return i < x->size ? x->c[i] : 0; }

static void add(poly *z, const poly *x, const poly *y) {
    if (x->size < y->size) {
        const poly *w = x;
        x = y, y = w;
    }
    start(z);
    int m = x->size, k = y->size;
    for (int i = 0; i < k; i++) {
        uint32_t s = x->c[i] + y->c[i];
        z->c[i] = s >= q ? s - q : s;
    }
    for (int i = k; i < m; i++) z->c[i] = x->c[i];
    trim(z, m);
}

static void sub(poly *z, const poly *x, const poly *y) {
    int m = x->size, k = y->size, both = m < k ? m : k;
    start(z);
    for (int i = 0; i < both; i++) z->c[i] = x->c[i] >= y->c[i] ? x->c[i] - y->c[i] : x->c[i] + q - y->c[i];
    for (int i = both; i < m; i++) z->c[i] = x->c[i];
    for (int i = both; i < k; i++) z->c[i] = y->c[i] ? q - y->c[i] : 0;
    trim(z, most(m, k));
}

// the sums of products of x y, or with minus of -x y, added to s and not reduced: 129 * 4095^2 is below 2^32
static inline void rows(uint32_t *restrict s, const poly *x, const poly *y, int minus) {
    if (x->size > y->size) {
        const poly *w = x;
        x = y, y = w;
    }
    for (int i = 0; i < x->size; i++) {
        uint32_t m = minus && x->c[i] ? q - x->c[i] : x->c[i], *restrict to = s + i;
        for (int j = 0; j < y->size; j++) to[j] += m * y->c[j];
    }
}

// z = w + x y, or w - x y; w may be null
static void fused(poly *z, const poly *w, const poly *x, const poly *y, int minus) {
    uint32_t s[2 * PLACES];
    int own = x->size && y->size ? x->size + y->size - 1 : 0;
    int length = w ? most(own, w->size) : own, k = w ? w->size : 0;
    for (int i = 0; i < k; i++) s[i] = w->c[i];
    for (int i = k; i < length; i++) s[i] = 0;
    rows(s, x, y, minus);
    start(z);
    for (int i = 0; i < length; i++) z->c[i] = reduce(s[i]);
    trim(z, length);
}

static void mul(poly *z, const poly *x, const poly *y) { fused(z, 0, x, y, 0); }

// x = a y + r; a or r may be null, r may be x
static void divide(poly *a, poly *r, const poly *x, const poly *y) {
    uint32_t s[PLACES];
    int k = y->size, t = x->size - k + 1;
    if (t < 0) t = 0;
    memcpy(s, x->c, x->size * sizeof *s);
    uint32_t u = inverse(y->c[k - 1]);
    if (a) start(a);
    for (int i = t - 1; i >= 0; i--) {
        uint32_t c = reduce(reduce(s[i + k - 1]) * u), m = c ? q - c : 0, *restrict to = s + i;
        if (a) a->c[i] = c;
        for (int j = 0; j < k - 1; j++) to[j] += m * y->c[j];
    }
    if (a) a->size = t;
    if (r) {
        int end = t ? k - 1 : x->size;
        start(r);
        for (int i = 0; i < end; i++) r->c[i] = reduce(s[i]);
        trim(r, end);
    }
}

// z = k x; z may be x
static void scale(poly *z, const poly *x, uint32_t k) {
    if (z != x) start(z);
    for (int i = 0; i < x->size; i++) z->c[i] = reduce(x->c[i] * k);
    z->size = x->size;
}

// the monic greatest common divisor g = u x + .. y, with u; v too unless it is null
static void bezout(poly *g, poly *u, poly *v, const poly *x, const poly *y) {
    static poly a[2], b[2], c[2], t;
    // a[k] = b[k] x + c[k] y
    const poly *top = x, *low = y;
    int k = 0;
    b[0].size = 1, b[0].c[0] = 1, b[1].size = 0;
    c[0].size = 0, c[1].size = 1, c[1].c[0] = 1;
    while (low->size) {
        divide(&t, &a[k], top, low);
        fused(&b[k], &b[k], &t, &b[1 - k], 1);
        if (v) fused(&c[k], &c[k], &t, &c[1 - k], 1);
        top = low, low = &a[k], k = 1 - k;
    }
    uint32_t w = top->size ? inverse(top->c[top->size - 1]) : 0;
    scale(g, top, w), scale(u, &b[k], w);
    if (v) scale(v, &c[k], w);
}

static void product(poly *x, poly *y) {
    static poly g, u, v, w, a, b, c, t, one = {{1}, 1};
    if (y[0].size < x[0].size) {
        poly *z = x;
        x = y, y = z;
    }
    if (x[0].size == 1) {
        set(&g, &one), set(&u, &one);
    } else {
        bezout(&g, &u, 0, &x[0], &y[0]);
    }
    if (g.size == 1) {
        set(&S, &one);
        mul(&Q, &x[0], &y[0]);
        sub(&t, &y[1], &x[1]);
        mul(&b, &u, &t);
        divide(0, &t, &b, &y[0]);
        fused(&P, &x[1], &x[0], &t, 0);
        return;
    }
    add(&t, &x[1], &y[1]);
    bezout(&S, &v, &w, &g, &t);
    fused(&t, &DD, &x[1], &x[1], 1);
    divide(&c, 0, &t, &x[0]);
    mul(&t, &v, &u);
    sub(&b, &y[1], &x[1]);
    mul(&a, &t, &b);
    fused(&b, &a, &w, &c, 0);
    divide(&a, 0, &x[0], &S);
    divide(&c, 0, &y[0], &S);
    mul(&Q, &a, &c);
    divide(0, &t, &b, &c);
    fused(&b, &x[1], &a, &t, 0);
    divide(0, &P, &b, &Q);
}

// the pair (Q, P) walked to deg Q <= g, and f; the arrays take turns
static void walk(void) {
    static poly space[2], a, t, rest;
    poly *now = &Q, *before = &space[0], *p = &P, *r = &space[1], *swap;
    int half = n / 2, first = 1;
    f = 1 - S.size - (Q.size - 1);
    while (now->size > half) {
        add(&t, p, &d);
        if (first) {
            fused(r, &DD, p, p, 1);
            divide(before, 0, r, now);
        } else {
            f += t.size - now->size;
        }
        if (t.size < now->size) {
            for (int i = 0; i < p->size; i++) p->c[i] = p->c[i] ? q - p->c[i] : 0;
        } else {
            // P + d = aQ + r: P' = d - r, Q' = before + a(P - P')
            divide(&a, &rest, &t, now);
            sub(r, &d, &rest);
            sub(&t, p, r);
            fused(before, before, &a, &t, 0);
            swap = p, p = r, r = swap;
        }
        swap = now, now = before, before = swap;
        first = 0;
    }
    if (!first) {
        add(&t, p, &d);
        f += t.size - now->size;
    }
    f += now->size - 1;
    scale(&Q, now, inverse(now->c[now->size - 1]));
    divide(0, &P, p, &Q);
}

static void load(poly *x, const uint32_t *list, int length) {
    memcpy(x->c, list, length * sizeof *list);
    trim(x, length);
}

static void print(const poly *x) {
    printf("%d", x->size);
    for (int i = 0; i < x->size; i++) printf(" %u", x->c[i]);
    printf(" ");
}

int main(int argc, char **argv) {
    if (argc != 3) exit(2);
    input();
    reciprocal = 4294967295u / q;
    inverses[1] = 1;
    for (uint32_t a = 2; a < q; a++) inverses[a] = (q - q / a) * inverses[q % a] % q;
    load(&DD, D, n + 1);
    int h = n / 2;
    d.c[h] = 1, d.size = h + 1;
    for (int k = h - 1; k >= 0; k--) {
        uint64_t sum = 0;
        for (int i = k; i <= h; i++) sum += (uint64_t)d.c[i] * d.c[k + h - i];
        d.c[k] = (at(&DD, k + h) + q - (uint32_t)(sum % q)) % q * ((q + 1) / 2) % q;
    }
    for (uint32_t k = 0; k < 2 * count; k++) {
        load(&given[k / 2][k % 2][0], couples[k / 2][k % 2].q, h);
        load(&given[k / 2][k % 2][1], couples[k / 2][k % 2].p, h - 1);
    }
    long turns = atol(argv[2]), sizes = 0;
    if (!strcmp(argv[1], "answers")) {
        for (uint32_t k = 0; k < count; k++) {
            product(given[k][0], given[k][1]);
            print(&S), print(&Q), print(&P);
            walk();
            print(&Q), print(&P);
            printf("%ld %ld\n", f, (long)(couples[k][0].distance + couples[k][1].distance) + f);
        }
        return 0;
    }
    int which = *argv[1] == 'g';
    double begin = seconds();
    for (uint32_t k = 0; k < count; k++) {
        for (long i = 0; i < turns; i++) {
            product(given[k][0], given[k][1]);
            if (which) walk();
        }
        sizes += P.size;
    }
    printf("%.6f %ld\n", seconds() - begin, sizes);
}
