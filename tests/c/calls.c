// Calls the static library from C: every stored vector, every lent list to its last place, what a refusal leaves as
// it was, the sample answers, half the walk against the whole, the ideal at a distance against the listing, each record
// against the conjugate at its mirror, and the estimate against Euler's criterion.
#include <inttypes.h>
#include <string.h>
#include "../../include/foskadoin.h"
#include "vectors.h"

enum { MOST = 1 << 16, MARK = 0xA5A5A5A5 };
static uint32_t line[MOST];
static size_t count, at, jobs, compared, listed, looked, mirrored, estimated, exact, wrong;

// The numbers of the next line.
static int next_line(FILE *file) {
    count = at = 0;
    int c;
    while ((c = getc(file)) != EOF && c != '\n') {
        if (c == ' ') continue;
        ungetc(c, file);
        if (count == MOST || fscanf(file, "%" SCNu32, &line[count++]) != 1) exit(2);
    }
    return count > 0;
}

static uint32_t number(void) {
    if (at == count) exit(2);
    return line[at++];
}

// A list of its own, so that a read or a write outside it is seen; none has a pointer of null.
static uint32_t *list(size_t length, const uint32_t *from) {
    uint32_t *l = length ? malloc(length * sizeof *l) : NULL;
    for (size_t i = 0; i < length; i++) l[i] = from ? from[i] : MARK;
    return l;
}

static uint32_t *counted(size_t *length) {
    *length = number();
    uint32_t *l = list(*length, line + at);
    at += *length;
    return l;
}

static void expect(int holds, const char *what) {
    if (!holds && wrong++ < 20) printf("wrong: job %zu: %s\n", jobs, what);
}

static int marked(const uint32_t *l, size_t from, size_t to) {
    for (size_t i = from; i < to; i++)
        if (l[i] != MARK) return 0;
    return 1;
}

// The numbers of the answer, by their general names and by those of its case.
static int same(struct foskadoin_numbers a, uint64_t words, const uint32_t *four) {
    if (a.number == FOSKADOIN_FOUND && (a.regulator != four[1] || a.quasi_period != four[2] || a.constant != four[3])) return 0;
    if (a.number == FOSKADOIN_SPENT && (a.steps != four[1] || a.degree != four[2])) return 0;
    return a.words == words && a.number == four[0] && a.first == four[1] && a.second == four[2] && a.third == four[3];
}

static void regulators(FILE *file) {
    for (; next_line(file); jobs++) {
        size_t words;
        uint32_t *ticket = counted(&words);
        expect(same(foskadoin_regulator(ticket, words), words, line + at), "regulator");
        free(ticket);
    }
}

static void half(FILE *file) {
    for (; next_line(file); jobs++) {
        size_t words;
        uint32_t *ticket = counted(&words);
        expect(same(foskadoin_half(ticket, words), words, line + at), "half");
        free(ticket);
    }
}

// Half the walk with budget b, as the whole walk with budget 2b has it: the same R and m, the same refusal, or spent
// with b and the degree that the whole walk reaches with budget b. Answers the number.
static uint64_t compare(uint32_t *ticket, size_t words, uint32_t b) {
    uint32_t *budget = ticket + words - 2;
    *budget = 4u << 28 | b;
    struct foskadoin_numbers a = foskadoin_half(ticket, words), part = foskadoin_regulator(ticket, words);
    *budget = 4u << 28 | 2 * b;
    struct foskadoin_numbers whole = foskadoin_regulator(ticket, words);
    uint32_t want[4] = {whole.number, whole.first, whole.second, 0};
    if (whole.number == FOSKADOIN_SPENT) {
        expect(part.number == FOSKADOIN_SPENT, "the whole walk with the smaller budget");
        want[1] = b, want[2] = part.degree;
    }
    expect(same(a, words, want), "half against the whole");
    compared++;
    return a.number;
}

static uint32_t chance(uint32_t below) {
    static uint64_t state = 1;
    return ((state = state * 6364136223846793005u + 1442695040888963407u) >> 33) % below;
}

// A ticket with random coefficients, 1 for x^n; its last word but one is left for the budget.
static size_t random_ticket(uint32_t *ticket, uint32_t q, uint32_t n) {
    ticket[0] = 1u << 28 | q, ticket[1] = 2u << 28 | n, ticket[n + 2] = 3u << 28 | 1, ticket[n + 4] = 15u << 28 | (n + 4);
    for (uint32_t i = 0; i < n; i++) ticket[i + 2] = 3u << 28 | chance(q);
    return n + 5;
}

// The ticket of the monic D of degree n whose other coefficients are the digits of k to the base q.
static size_t numbered_ticket(uint32_t *ticket, uint32_t q, uint32_t n, uint32_t k) {
    size_t words = random_ticket(ticket, q, n);
    for (uint32_t i = 0; i < n; i++, k /= q) ticket[i + 2] = 3u << 28 | k % q;
    return words;
}

// Every monic D of degree 4 over F_3 with the budgets 0 to 12, and 2,000 tickets of other q and n.
static void halves(void) {
    uint32_t ticket[69], tally[16] = {0};
    for (uint32_t k = 0; k < 81; k++) {
        size_t words = numbered_ticket(ticket, 3, 4, k);
        for (uint32_t b = 0; b <= 12; b++) compare(ticket, words, b);
    }
    const uint32_t qs[] = {5, 7, 11, 13, 31, 101, 1009, 4093, 3, 9}, ns[] = {4, 6, 4, 2, 8, 16, 64};
    for (uint32_t k = 0; k < 2000; k++) {
        uint32_t q = qs[chance(chance(2) ? 3 : 10)], n = ns[chance(chance(2) ? 2 : 7)];
        size_t words = random_ticket(ticket, q, n);
        if (chance(50) == 0) ticket[chance(words - 2)] += 1;
        tally[compare(ticket, words, chance(1u << chance(9)))]++;
    }
    expect(tally[FOSKADOIN_FOUND] > 500 && tally[FOSKADOIN_SPENT] > 500 && tally[FOSKADOIN_NOT_SQUAREFREE] > 20, "some of each answer");
    expect(compared == 81 * 13 + 2000, "all are compared");
}

// The words of the single job at q: each integer of 28 bits is moved to the top of a number of 32, sign and all.
static size_t single(uint32_t *job, const uint32_t *ticket, uint32_t q) {
    uint32_t n = ticket[0] & 0xfffffff;
    job[0] = 1u << 28 | q, job[1] = 2u << 28 | n;
    for (uint32_t i = 0; i <= n; i++) {
        int64_t c = (int32_t)(ticket[i + 1] << 4) / 16, r = q ? c % (int64_t)q : 0;
        job[i + 2] = 3u << 28 | (uint32_t)(r < 0 ? r + q : r);
    }
    job[n + 3] = ticket[n + 2], job[n + 4] = 15u << 28 | (n + 4);
    return n + 5;
}

// All 64 numbers of the array, the words beside it, and each prime's outcome against the single job's.
static void several(FILE *file) {
    for (; next_line(file); jobs++) {
        size_t words;
        uint32_t *ticket = counted(&words), outcomes = number(), *want = line + at, job[69];
        uint64_t *room = malloc(66 * sizeof *room), *out = room + 1, n = words ? ticket[0] & 0xfffffff : 0;
        memset(room, 0xA5, 66 * sizeof *room);
        struct foskadoin_several a = foskadoin_regulators(ticket, words, out);
        expect(a.words == words && a.count == outcomes, "regulators");
        for (size_t i = 0; i < 64; i++) expect(out[i] == (i < 4 * outcomes ? want[i] : 0), "outcomes");
        expect(room[0] == room[65] && room[0] == 0xA5A5A5A5A5A5A5A5, "numbers beside the array");
        int refused = out[0] == FOSKADOIN_WRONG_SHAPE || out[0] == FOSKADOIN_WRONG_DEGREE;
        for (size_t i = 0; !refused && i < outcomes; i++) {
            size_t length = single(job, ticket, ticket[n + 3 + i] & 0xfffffff);
            expect(same(foskadoin_regulator(job, length), length, want + 4 * i), "the single job");
        }
        free(room), free(ticket);
    }
}

// In lists of R + 1 places and 3 more, and with one of the four a place too short.
static void units(FILE *file) {
    for (; next_line(file); jobs++) {
        size_t words;
        uint32_t *ticket = counted(&words), *four = line + at;
        size_t R = four[1], places = R + 1;
        const uint32_t *want[2] = {four + 4, four + 4 + places};
        for (int shorter = -1; shorter < 4; shorter++) {
            uint32_t *l[4];
            size_t length[4];
            for (int i = 0; i < 4; i++) l[i] = list(length[i] = i == shorter ? R : places + 3, NULL);
            struct foskadoin_numbers a = foskadoin_unit(ticket, words, l[0], length[0], l[1], length[1], l[2], length[2], l[3], length[3]);
            if (shorter < 0) {
                expect(same(a, words, four), "unit");
                for (int i = 0; i < 2; i++) expect(!memcmp(l[i], want[i], places * 4), "unit's coefficients");
                for (int i = 2; i < 4; i++)
                    for (size_t j = 0; j < places; j++) expect(l[i][j] == 0, "work list");
                for (int i = 0; i < 4; i++) expect(marked(l[i], places, length[i]), "places after the unit");
            } else {
                expect(same(a, words, (uint32_t[]){FOSKADOIN_SHORT_UNIT, 0, 0, 0}), "refusal 12");
                for (int i = 0; i < 4; i++) expect(marked(l[i], 0, length[i]), "lists after refusal 12");
            }
            for (int i = 0; i < 4; i++) free(l[i]);
        }
        free(ticket);
    }
}

// The sample answers of the calls that are lent lists, four for the unit and one for the listing: the line has the
// lists' lengths and the number in every place of them, then the answer and every place at the end.
static void lent(FILE *file, size_t lists) {
    for (; next_line(file); jobs++) {
        size_t words, length[4];
        uint32_t *ticket = counted(&words), *l[4], four[4];
        if (number() != lists) exit(2);
        for (size_t i = 0; i < lists; i++) l[i] = list(length[i] = number(), NULL);
        uint32_t fill = number();
        for (size_t i = 0; i < lists; i++)
            for (size_t j = 0; j < length[i]; j++) l[i][j] = fill;
        for (size_t i = 0; i < 4; i++) four[i] = number();
        struct foskadoin_numbers a =
            lists == 4 ? foskadoin_unit(ticket, words, l[0], length[0], l[1], length[1], l[2], length[2], l[3], length[3])
                       : foskadoin_listing(ticket, words, l[0], length[0]);
        expect(same(a, words, four), "the sample's answer");
        for (size_t i = 0; i < lists; i++) {
            for (size_t j = 0; j < length[i]; j++) expect(l[i][j] == number(), "the sample's list");
            free(l[i]);
        }
        expect(at == count, "the end of the line");
        free(ticket);
    }
}

static uint64_t distance(const uint32_t *record) {
    return (uint64_t)(record[1] & 0xfffffff) << 28 | (record[2] & 0xfffffff);
}

static uint64_t mirror(const uint32_t *record) {
    return (uint64_t)(record[3] & 0xfffffff) << 28 | (record[4] & 0xfffffff);
}

static int is(struct foskadoin_part part, uint64_t offset, uint64_t length) {
    return part.offset == offset && part.length == length;
}

// Every record by its own distance and by the last before the next one.
static void lookups(const uint32_t *l, size_t length, uint64_t n) {
    for (size_t o = 0; o < length; o += n + 4) {
        uint64_t y = distance(l + o), last = o + n + 4 < length ? distance(l + o + n + 4) - 1 : UINT64_MAX;
        expect(is(foskadoin_lookup(l, length, n, y), o, n + 4), "lookup");
        expect(is(foskadoin_lookup(l, length, n, last), o, n + 4), "lookup between records");
    }
    expect(is(foskadoin_lookup(l, length - 1, n, 0), 0, 0), "lookup in a cut list");
    expect(is(foskadoin_lookup(l, 0, n, 0), 0, 0), "lookup in no list");
    expect(is(foskadoin_lookup(l, length, 66, 0), 0, 0), "lookup with n = 66");
}

// P negated modulo Q: as P has a lower degree than Q, each coefficient is negated modulo q.
static int negated(const uint32_t *a, const uint32_t *b, size_t length, uint32_t q) {
    for (size_t i = 0; i < length; i++) {
        uint32_t c = a[i] & 0xfffffff;
        if ((b[i] & 0xfffffff) != (c ? q - c : 0)) return 0;
    }
    return 1;
}

// Request R-6. The mirror of record 1 alone is R, and that record is its own conjugate; lookup at R hands back the last
// record. Every other mirror is below R, and lookup at it hands back the conjugate: a record at just that distance, with
// the same Q and with P negated modulo Q, whose own mirror is the distance of the record that it is the conjugate of.
static void conjugates(const uint32_t *l, size_t length, uint64_t n, uint32_t q, uint64_t R) {
    uint64_t size = n + 4;
    for (const uint32_t *record = l; record < l + length; record += size, mirrored++) {
        uint64_t y = mirror(record);
        expect(y <= R && (y == R) == (record == l), "the mirror of record 1 alone is R");
        struct foskadoin_part part = foskadoin_lookup(l, length, n, y);
        expect(part.length == size && (y < R || part.offset == length - size), "lookup at the mirror");
        const uint32_t *other = y < R ? l + part.offset : l;
        expect(y >= R || (distance(other) == y && mirror(other) == distance(record)), "the conjugate's distance and mirror");
        expect(!memcmp(record + 5, other + 5, n / 2 * 4), "the conjugate's Q");
        expect(negated(record + 5 + n / 2, other + 5 + n / 2, n / 2 - 1, q), "the conjugate's P");
    }
}

static void listings(FILE *file) {
    for (; next_line(file); jobs++) {
        size_t words, length;
        uint32_t *ticket = counted(&words), *four = line + at;
        at += 4;
        uint32_t *want = counted(&length);
        uint32_t *l = list(length + 3, NULL);
        expect(same(foskadoin_listing(ticket, words, l, length + 3), words, four), "listing");
        expect(!length || !memcmp(l, want, length * 4), "the records");
        expect(marked(l, length, length + 3), "words after the records");
        if (four[0] == FOSKADOIN_FOUND) conjugates(l, length, ticket[1] & 0xfffffff, ticket[0] & 0xfffffff, four[1]);
        free(l);
        if (four[0] == FOSKADOIN_FOUND) {
            l = list(length - 1, NULL);
            expect(same(foskadoin_listing(ticket, words, l, length - 1), words, (uint32_t[]){FOSKADOIN_SHORT_LISTING, 0, 0, 0}), "refusal 13");
            expect(marked(l, 0, length - 1), "the list after refusal 13");
            free(l);
            lookups(want, length, line[2] & 0xfffffff);
        }
        free(want);
        free(ticket);
    }
}

// A polynomial in an array of 129 numbers, zeros above its degree.
static void polynomial(const uint32_t *l, uint64_t size, const char *what) {
    size_t length;
    uint32_t *want = counted(&length);
    expect(size == length && (!length || !memcmp(l, want, length * 4)), what);
    for (size_t i = length; i < 129; i++) expect(l[i] == 0, what);
    free(want);
}

static uint64_t wide(void) {
    uint64_t high = number();
    return high << 32 | number();
}

// The sample answers of lookup.
static void sample_lookups(FILE *file) {
    for (; next_line(file); jobs++) {
        size_t length;
        uint32_t *l = counted(&length), n = number();
        uint64_t y = wide(), offset = number();
        expect(is(foskadoin_lookup(l, length, n, y), offset, number()), "the sample's lookup");
        expect(at == count, "the end of the line");
        free(l);
    }
}

static void products(FILE *file) {
    for (; next_line(file); jobs++) {
        size_t words, nq[2], np[2];
        uint32_t *ticket = counted(&words), *q[2], *p[2];
        uint64_t d[2];
        for (int i = 0; i < 2; i++) q[i] = counted(&nq[i]), p[i] = counted(&np[i]), d[i] = wide();
        uint32_t *S = list(129, NULL), *Q = list(129, NULL), *P = list(129, NULL);
        struct foskadoin_product_numbers a = foskadoin_product(ticket, words, q[0], nq[0], p[0], np[0], q[1], nq[1], p[1], np[1], S, Q, P);
        expect(a.words == words && a.number == number(), "product");
        polynomial(S, a.s_size, "S"), polynomial(Q, a.q_size, "Q"), polynomial(P, a.p_size, "P");
        memset(Q, 0xA5, 129 * 4), memset(P, 0xA5, 129 * 4);
        struct foskadoin_giant_step_numbers b = foskadoin_giant_step(ticket, words, q[0], nq[0], p[0], np[0], d[0], q[1], nq[1], p[1], np[1], d[1], Q, P);
        expect(b.words == words && b.number == number(), "giant step");
        polynomial(Q, b.q_size, "Q of the giant step"), polynomial(P, b.p_size, "P of the giant step");
        expect(b.f == -(int64_t)number(), "f");
        int negative = number();
        int64_t distance = (int64_t)wide();
        expect(b.distance == (negative ? -distance : distance), "distance");
        for (int i = 0; i < 2; i++) free(q[i]), free(p[i]);
        free(S), free(Q), free(P), free(ticket);
    }
}

// Both arrays hold marks before the call, and every place of them is compared; after a refusal all are zeros.
static void ideals_at(FILE *file) {
    for (; next_line(file); jobs++) {
        size_t words;
        uint32_t *ticket = counted(&words), *Q = list(129, NULL), *P = list(129, NULL);
        struct foskadoin_ideal_numbers a = foskadoin_ideal_at(ticket, words, wide(), Q, P);
        expect(a.number == number() && a.words == words, "ideal at");
        polynomial(Q, a.q_size, "Q of the ideal at"), polynomial(P, a.p_size, "P of the ideal at");
        expect(a.distance == wide(), "distance of the ideal at");
        expect(a.next == wide(), "the next distance");
        expect(at == count, "the end of the line");
        free(Q), free(P), free(ticket);
    }
}

// An array of 129 numbers holds the values of these words and then zeros; the size is the degree and 1.
static int values(const uint32_t *l, uint64_t size, const uint32_t *words, size_t length) {
    size_t top = 0;
    for (size_t i = 0; i < 129; i++) {
        uint32_t want = i < length ? words[i] & 0xfffffff : 0;
        if (l[i] != want) return 0;
        if (want) top = i + 1;
    }
    return size == top;
}

// Every y from 0 to 2R against the listing: the ideal is the record that lookup finds at y modulo R, the next
// distance is the next record's, or R after the last, and from R on both are raised. The budget is 0, 1 or the largest.
// A D with a square factor is refused by 7 whatever y is. Each record of a listing is compared with its conjugate,
// whatever R is. Answers 1 if D is not refused and R is at most `most`.
static int whole_turns(uint32_t *ticket, size_t words, uint64_t most) {
    static uint32_t l[MOST];
    uint32_t *budget = ticket + words - 2, Q[129], P[129];
    uint64_t n = ticket[1] & 0xfffffff, size = n + 4;
    *budget = 4u << 28 | 4000;
    struct foskadoin_numbers a = foskadoin_listing(ticket, words, l, MOST);
    uint64_t R = a.regulator, length = a.quasi_period * size;
    if (a.number == FOSKADOIN_NOT_SQUAREFREE) {
        for (int i = 0; i < 2; i++) {
            memset(Q, 0xA5, sizeof Q), memset(P, 0xA5, sizeof P);
            struct foskadoin_ideal_numbers b = foskadoin_ideal_at(ticket, words, i ? UINT64_MAX : 1, Q, P);
            expect(b.words == words && b.number == a.number && !b.distance && !b.next, "refusal 7 of the ideal at");
            expect(values(Q, b.q_size, NULL, 0) && values(P, b.p_size, NULL, 0), "zeros in refusal 7");
        }
    }
    if (a.number == FOSKADOIN_FOUND) conjugates(l, length, n, ticket[0] & 0xfffffff, R);
    if (a.number != FOSKADOIN_FOUND || R > most) return 0;
    for (uint64_t y = 0; y <= 2 * R; y++, looked++) {
        const uint32_t *record = l + foskadoin_lookup(l, length, n, y % R).offset;
        uint64_t raise = y - y % R, next = record + size < l + length ? distance(record + size) : R;
        memset(Q, 0xA5, sizeof Q), memset(P, 0xA5, sizeof P);
        *budget = 4u << 28 | (y % 3 == 0 ? 0 : y % 3 == 1 ? 1 : 0xfffffff);
        struct foskadoin_ideal_numbers b = foskadoin_ideal_at(ticket, words, y, Q, P);
        expect(b.words == words && b.number == FOSKADOIN_FOUND, "ideal at every y");
        expect(values(Q, b.q_size, record + 5, n / 2), "the record's Q");
        expect(values(P, b.p_size, record + 5 + n / 2, n / 2 - 1), "the record's P");
        expect(b.distance == distance(record) + raise && b.next == next + raise, "the record's distances");
    }
    return 1;
}

// Every monic D of degree 4 over F_3, and twelve random D of each of sixteen pairs of n and q.
static void turns(void) {
    uint32_t ticket[69];
    for (uint32_t k = 0; k < 81; k++) {
        size_t words = numbered_ticket(ticket, 3, 4, k);
        listed += whole_turns(ticket, words, UINT64_MAX);
    }
    expect(listed == 81 - 27, "those without a square factor");
    for (uint32_t n = 2; n <= 8; n += 2)
        for (uint32_t i = 0; i < 4; i++)
            for (int tries = 0, found = 0; found < 12 && tries < 1000; tries++) {
                size_t words = random_ticket(ticket, (const uint32_t[]){3, 5, 7, 11}[i], n);
                int one = whole_turns(ticket, words, 200);
                found += one, listed += one;
            }
    expect(listed == 54 + 16 * 12, "twelve of each pair");
    expect(mirrored == 48196, "every record against its conjugate");
}

static void estimates(FILE *file) {
    for (; next_line(file); jobs++) {
        size_t words;
        uint32_t *ticket = counted(&words);
        struct foskadoin_estimate_numbers a = foskadoin_estimate(ticket, words);
        expect(a.number == number() && a.words == words, "estimate");
        expect(a.numerator == wide(), "numerator");
        expect(a.denominator == wide(), "denominator");
        expect(a.nearest == wide(), "nearest");
        expect(at == count, "the end of the line");
        free(ticket);
    }
}

static uint64_t power(uint64_t base, uint32_t exponent) {
    uint64_t out = 1;
    while (exponent--) out *= base;
    return out;
}

// Request R-7, without a stored answer and without a division of the fraction N/M. Refusals 1 to 7 are those of half with
// the budget 0. By Euler's criterion v^((q-1)/2) is 1 for a nonzero square, q - 1 for a non-square and 0 for 0. The
// nearest w has w - 1/2 <= N/M < w + 1/2; on the left "=" is the exact half. Answers the number that the call is to give.
static uint64_t by_powers(uint32_t *ticket, size_t words, uint32_t b) {
    uint32_t *budget = ticket + words - 2, q = ticket[0] & 0xfffffff, n = ticket[1] & 0xfffffff, a = 0, t = 0;
    *budget = 4u << 28;
    uint64_t want = foskadoin_half(ticket, words).number;
    if (want == FOSKADOIN_SPENT) want = q > 13 || n > 8 ? FOSKADOIN_TOO_LARGE : FOSKADOIN_FOUND;
    *budget = 4u << 28 | b;
    struct foskadoin_estimate_numbers E = foskadoin_estimate(ticket, words);
    expect(E.words == words && E.number == want, "the number of an estimate");
    estimated++;
    if (want != FOSKADOIN_FOUND) {
        expect(!E.numerator && !E.denominator && !E.nearest, "zeros in a refused estimate");
        return want;
    }
    for (uint32_t e = 0; e < q; e++) {
        uint64_t v = 0;
        for (uint32_t i = 0; i <= n; i++) v += (ticket[i + 2] & 0xfffffff) * power(e, i);
        uint64_t euler = power(v % q, (q - 1) / 2) % q;
        a += euler == 1, t += euler == q - 1;
    }
    unsigned __int128 N = power(q, n / 2 + a + t), M = power(q - 1, a + 1) * power(q + 1, t), w = E.nearest;
    expect(E.numerator == N && E.denominator == M, "the fraction by powers");
    expect(2 * w * M <= 2 * N + M && 2 * N + M < 2 * (w + 1) * M, "the nearest whole number");
    exact += 2 * w * M == 2 * N + M;
    return want;
}

// Every monic D of the degrees 2, 4, 6 and 8 over F_3, 2 and 4 over F_5 and F_7, 2 over F_11 and F_13; q^n - q^(n-1) of the q^n
// have no square factor. Then 4,000 random tickets, some with q or n too large, and some with a word changed.
static void by_criterion(void) {
    const uint32_t all[][2] = {{3, 2}, {3, 4}, {3, 6}, {3, 8}, {5, 2}, {5, 4}, {7, 2}, {7, 4}, {11, 2}, {13, 2}};
    const uint32_t qs[] = {3, 5, 7, 11, 13, 13, 17, 4093, 9}, ns[] = {2, 4, 6, 8, 8, 10, 64};
    const uint32_t budgets[] = {0, 1, 7, 0xfffffff};
    uint32_t ticket[69], tally[16] = {0}, before = 0;
    for (size_t i = 0; i < sizeof all / sizeof *all; i++) {
        uint32_t q = all[i][0], n = all[i][1], found = 0;
        for (uint32_t k = 0; k < power(q, n); k++)
            found += by_powers(ticket, numbered_ticket(ticket, q, n, k), budgets[k % 4]) == FOSKADOIN_FOUND;
        expect(found == power(q, n) - power(q, n - 1), "those without a square factor");
    }
    expect(exact == 8 + 72, "27/2 in degree 6 and 81/2 in degree 8, over F_3");
    for (uint32_t k = 0; k < 4000; k++) {
        uint32_t q = qs[chance(9)], n = ns[chance(chance(2) ? 6 : 7)];
        size_t words = random_ticket(ticket, q, n);
        if (chance(20) == 0) ticket[chance(words - 2)] += 1;
        uint64_t want = by_powers(ticket, words, budgets[chance(4)]);
        tally[want]++;
        before += want == FOSKADOIN_NOT_SQUAREFREE && (q > 13 || n > 8);
    }
    expect(tally[FOSKADOIN_FOUND] > 1000 && tally[FOSKADOIN_TOO_LARGE] > 1000 && before > 50, "some of each answer, and 7 before 15");
    expect(estimated == 10770 + 4000, "all estimates are compared");
}

int main(int argc, char **argv) {
    if (argc != 2) return 2;
    regulators(vectors(argv[1], "regulators.txt"));
    regulators(vectors(argv[1], "samples/regulators.txt"));
    half(vectors(argv[1], "half.txt"));
    half(vectors(argv[1], "samples/half.txt"));
    several(vectors(argv[1], "several.txt"));
    several(vectors(argv[1], "samples/several.txt"));
    several(vectors(argv[1], "allowed.txt"));
    units(vectors(argv[1], "units.txt"));
    lent(vectors(argv[1], "samples/units.txt"), 4);
    listings(vectors(argv[1], "listings.txt"));
    lent(vectors(argv[1], "samples/listings.txt"), 1);
    sample_lookups(vectors(argv[1], "samples/lookups.txt"));
    products(vectors(argv[1], "products.txt"));
    ideals_at(vectors(argv[1], "ideals_at.txt"));
    ideals_at(vectors(argv[1], "samples/ideals_at.txt"));
    estimates(vectors(argv[1], "estimates.txt"));
    estimates(vectors(argv[1], "samples/estimates.txt"));
    expect(same(foskadoin_regulator(NULL, 0), 0, (uint32_t[]){FOSKADOIN_WRONG_HEAD, 0, 0, 0}), "no ticket");
    expect(same(foskadoin_half(NULL, 0), 0, (uint32_t[]){FOSKADOIN_WRONG_HEAD, 0, 0, 0}), "half of no ticket");
    struct foskadoin_estimate_numbers E = foskadoin_estimate(NULL, 0);
    expect(!E.words && E.number == FOSKADOIN_WRONG_HEAD && !E.numerator && !E.denominator && !E.nearest, "estimate of no ticket");
    halves();
    turns();
    by_criterion();
    uint64_t out[64] = {0};
    struct foskadoin_several none = foskadoin_regulators(NULL, 0, out);
    expect(none.words == 0 && none.count == 1 && out[0] == FOSKADOIN_WRONG_SHAPE && !out[1], "no ticket at several primes");
    printf("C: %zu jobs, %zu tickets by half the walk and by the whole, %zu distances of %zu D by halving and by listing, "
           "%zu records and the conjugates at their mirrors, %zu estimates by the call and by Euler's criterion, %zu wrong\n",
           jobs, compared, looked, listed, mirrored, estimated, wrong);
    // every line of the files was read
    return wrong != 0 || jobs != 5400;
}
