// The regulators of an integer polynomial D at many primes, and what follows from them.
//
//     tools/build foskadoin
//     cc -o target/regulators examples/regulators.c target/staticlib/libfoskadoin.a
//     target/regulators "x^4 + 10x^2 - 96x - 71" 3-31
//
// regulators POLYNOMIAL PRIMES [BUDGET]
//   POLYNOMIAL  in x with integer coefficients: 3x^2, 3*x^2 and x**2 are read, equal powers are added up
//   PRIMES      numbers and ranges with commas between: 3,5,100-199. A range stands for the primes in it; a
//               number that is no odd prime below 4096 is asked for all the same, and refused
//   BUDGET      the steps at each prime, 10000 where it is not given
// The status is 0 after every answer, refusals among them, 1 where the output can't be written, and 2 after a
// wrong argument, with a line on standard error.
//
// R at q is the order of the difference of the two points at infinity of the curve y^2 = D modulo q. The integral
// of f / sqrt(D) is elementary for some polynomial f of degree n/2 - 1 only if the same difference over the complex
// numbers has a finite order, and R is then this order at every prime that is not refused. So a difference decides,
// and an agreement is evidence. Each R is proved by the engine; the rest are theorems of the literature.
#include <inttypes.h>
#include <stdio.h>
#include <stdlib.h>
#include <string.h>
#include "../include/foskadoin.h"

enum {
    MOST_DEGREE = 64,    // a larger exponent is no text for this program
    MOST_PRIMES = 1024,  // there are 563 odd primes below 4096
    AT_ONCE = 16,        // the most primes of a ticket
    VALUES = 1 << 28,    // a word's values are below it
    NEGATIVES = 1 << 27, // coefficients are from -2^27 on and below 2^27
    BUDGET = 10000
};

struct polynomial {
    int64_t c[MOST_DEGREE + 1]; // from the constant term on
    uint32_t degree;
};

struct outcome {
    uint32_t q;
    uint64_t number, first, second, third; // as in struct foskadoin_numbers
};

// ---- the arguments

// An argument that is read from its start on.
struct text {
    const char *name, *start, *at;
};

static void fail(const char *name, const char *message) {
    fprintf(stderr, "regulators: %s: %s\n", name, message);
    exit(2);
}

static void fail_here(const struct text *t, const char *message) {
    fprintf(stderr, "regulators: %s, character %td: %s\n", t->name, t->at - t->start + 1, message);
    exit(2);
}

// The next character that is no space; 0 at the end.
static char next(struct text *t) {
    t->at += strspn(t->at, " \t");
    return *t->at;
}

static int accept(struct text *t, const char *token) {
    next(t);
    size_t length = strlen(token);
    if (strncmp(t->at, token, length)) return 0;
    t->at += length;
    return 1;
}

static int at_digit(struct text *t) {
    char c = next(t);
    return c >= '0' && c <= '9';
}

static uint32_t number(struct text *t) {
    if (!at_digit(t)) fail_here(t, "a number is expected");
    uint32_t value = 0;
    for (; *t->at >= '0' && *t->at <= '9'; t->at++) {
        value = 10 * value + (uint32_t)(*t->at - '0');
        if (value >= VALUES) fail_here(t, "the number is above 268435455");
    }
    return value;
}

// A number, a power of x, or a number times a power of x.
static void add_term(struct text *t, int64_t sign, struct polynomial *p) {
    int counted = at_digit(t);
    int64_t c = counted ? number(t) : 1;
    int times = counted && accept(t, "*");
    uint32_t k = 0;
    if (accept(t, "x"))
        k = accept(t, "^") || accept(t, "**") ? number(t) : 1;
    else if (times || !counted)
        fail_here(t, "a number or x is expected");
    if (k > MOST_DEGREE) fail_here(t, "the exponent is above 64");
    p->c[k] += sign * c;
}

static void add_terms(struct text *t, struct polynomial *p) {
    int64_t sign = accept(t, "-") ? -1 : 1;
    if (sign == 1) accept(t, "+");
    do add_term(t, sign, p);
    while ((sign = accept(t, "+") ? 1 : accept(t, "-") ? -1 : 0));
    if (next(t)) fail_here(t, "a sign or the end is expected");
}

static struct polynomial read_polynomial(const char *argument) {
    struct text t = {"the polynomial", argument, argument};
    struct polynomial p = {{0}, 0};
    add_terms(&t, &p);
    for (uint32_t k = 0; k <= MOST_DEGREE; k++) {
        if (p.c[k] < -NEGATIVES || p.c[k] >= NEGATIVES)
            fail(t.name, "a coefficient is not within -134217728 and 134217727");
        if (p.c[k]) p.degree = k;
    }
    return p;
}

static int is_prime(uint32_t q) {
    for (uint32_t d = 2; d * d <= q; d++)
        if (q % d == 0) return 0;
    return q > 1;
}

// An equal one is taken once.
static void add_prime(struct outcome *list, size_t *count, uint32_t q) {
    for (size_t i = 0; i < *count; i++)
        if (list[i].q == q) return;
    if (*count == MOST_PRIMES) fail("the primes", "more than 1024");
    list[(*count)++].q = q;
}

static void add_range(struct text *t, struct outcome *list, size_t *count, uint32_t from) {
    uint32_t to = number(t);
    if (to > 4095) fail_here(t, "a range ends at 4095 or before");
    if (to < from) fail_here(t, "the range ends before its start");
    for (uint32_t q = from; q <= to; q++)
        if (is_prime(q)) add_prime(list, count, q);
}

static size_t read_primes(const char *argument, struct outcome *list) {
    struct text t = {"the primes", argument, argument};
    size_t count = 0;
    do {
        uint32_t q = number(&t);
        if (accept(&t, "-"))
            add_range(&t, list, &count, q);
        else
            add_prime(list, &count, q);
    } while (accept(&t, ","));
    if (next(&t)) fail_here(&t, "a comma or the end is expected");
    if (!count) fail(t.name, "there is none in the range");
    return count;
}

static uint32_t read_budget(const char *argument) {
    struct text t = {"the budget", argument, argument};
    uint32_t budget = number(&t);
    if (next(&t)) fail_here(&t, "the end is expected");
    return budget;
}

// ---- the calls

static uint32_t word(uint32_t kind, int64_t value) {
    return kind << 28 | ((uint32_t)value & (VALUES - 1));
}

// The words of a ticket for these primes, at most sixteen, and how many they are.
static size_t write_ticket(uint32_t *words, struct polynomial D, uint32_t budget, const struct outcome *list,
                           size_t count) {
    size_t at = 0;
    words[at++] = word(2, D.degree);
    for (uint32_t k = 0; k <= D.degree; k++) words[at++] = word(12, D.c[k]);
    words[at++] = word(4, budget);
    for (size_t i = 0; i < count; i++) words[at++] = word(1, list[i].q);
    words[at] = word(15, (int64_t)at);
    return at + 1;
}

// Asks for at most sixteen primes. Answers the number of a refused ticket, or 0.
static uint64_t ask(struct polynomial D, uint32_t budget, struct outcome *list, size_t count) {
    uint32_t words[MOST_DEGREE + 4 + AT_ONCE];
    uint64_t out[4 * AT_ONCE];
    foskadoin_regulators(words, write_ticket(words, D, budget, list, count), out);
    if (out[0] == FOSKADOIN_WRONG_SHAPE || out[0] == FOSKADOIN_WRONG_DEGREE) return out[0];
    for (size_t i = 0; i < count; i++) {
        const uint64_t *four = out + 4 * i;
        list[i] = (struct outcome){list[i].q, four[0], four[1], four[2], four[3]};
    }
    return 0;
}

static uint64_t ask_all(struct polynomial D, uint32_t budget, struct outcome *list, size_t count) {
    uint64_t refused = 0;
    for (size_t i = 0; i < count && !refused; i += AT_ONCE)
        refused = ask(D, budget, list + i, count - i < AT_ONCE ? count - i : AT_ONCE);
    return refused;
}

// ---- the table

static const char *sentence(uint64_t number) {
    switch (number) {
    case FOSKADOIN_WRONG_PRIME: return "q is not an odd prime below 4096";
    case FOSKADOIN_WRONG_DEGREE: return "the degree of D is odd, below 2 or above 64";
    case FOSKADOIN_WRONG_LEAD: return "the leading coefficient of D is not 1 modulo q";
    case FOSKADOIN_NOT_SQUAREFREE: return "D has a square factor modulo q";
    default: return "the shape of the ticket is wrong";
    }
}

static void print_row(struct outcome o) {
    if (o.number == FOSKADOIN_FOUND)
        printf("%9" PRIu32 " %9" PRIu64 " %9" PRIu64 " %5" PRIu64 "\n", o.q, o.first, o.second, o.third);
    else if (o.number == FOSKADOIN_SPENT)
        printf("%9" PRIu32 "     spent: %" PRIu64 " steps, degree %" PRIu64 "\n", o.q, o.first, o.second);
    else
        printf("%9" PRIu32 "     refused %" PRIu64 ": %s\n", o.q, o.number, sentence(o.number));
}

static void print_table(const struct outcome *list, size_t count) {
    printf("%9s %9s %9s %5s\n", "q", "R", "m", "c");
    for (size_t i = 0; i < count; i++) print_row(list[i]);
}

// ---- what follows

// R at o is another than R at the found one. Where o is spent R is above the degree reached.
static int differs(struct outcome found, struct outcome o) {
    if (o.number == FOSKADOIN_FOUND) return o.first != found.first;
    return o.number == FOSKADOIN_SPENT && o.second >= found.first;
}

static size_t count_of(const struct outcome *list, size_t count, uint64_t number) {
    size_t n = 0;
    for (size_t i = 0; i < count; i++) n += list[i].number == number;
    return n;
}

static void print_difference(struct outcome found, struct outcome o) {
    printf("R is %" PRIu64 " at q = %" PRIu32 " and ", found.first, found.q);
    if (o.number == FOSKADOIN_FOUND)
        printf("%" PRIu64, o.first);
    else
        printf("above %" PRIu64, o.second);
    printf(" at q = %" PRIu32 ": a difference. There is no such f; this is decided.\n", o.q);
}

static void print_agreement(struct outcome one, size_t found, size_t spent, size_t count) {
    if (found == 1) {
        printf("R is found at q = %" PRIu32 " alone: nothing follows.\n", one.q);
        return;
    }
    printf("R is %" PRIu64 " at each of the %zu primes where it is found: ", one.first, found);
    printf("evidence for such an f, no proof.\n");
    if (found < count)
        printf("Primes that count for nothing: %zu spent, %zu refused.\n", spent, count - found - spent);
}

// The first prime that is found, and the first where R differs from that there; COUNT where there is none. Two
// that differ from each other do not both agree with the first.
static size_t first_found(const struct outcome *list, size_t count) {
    size_t i = 0;
    while (i < count && list[i].number != FOSKADOIN_FOUND) i++;
    return i;
}

static size_t first_difference(struct outcome found, const struct outcome *list, size_t count) {
    size_t i = 0;
    while (i < count && !differs(found, list[i])) i++;
    return i;
}

static void print_conclusion(uint32_t degree, const struct outcome *list, size_t count) {
    size_t first = first_found(list, count);
    if (first == count) {
        printf("\nR is found at no prime: nothing follows.\n");
        return;
    }
    printf("\nIf the integral of f / sqrt(D) is elementary for some polynomial f ");
    printf("of degree %" PRIu32 ",\nR is the same at all primes that are not refused.\n", degree / 2 - 1);
    size_t other = first_difference(list[first], list, count);
    if (other < count) {
        print_difference(list[first], list[other]);
        return;
    }
    size_t found = count_of(list, count, FOSKADOIN_FOUND), spent = count_of(list, count, FOSKADOIN_SPENT);
    print_agreement(list[first], found, spent, count);
}

static void print_answer(uint64_t refused, uint32_t degree, const struct outcome *list, size_t count) {
    if (refused) {
        printf("refused %" PRIu64 ": %s\n", refused, sentence(refused));
        return;
    }
    print_table(list, count);
    print_conclusion(degree, list, count);
}

int main(int argc, char **argv) {
    static struct outcome list[MOST_PRIMES];
    if (argc != 3 && argc != 4) fail("usage", "regulators POLYNOMIAL PRIMES [BUDGET]");
    struct polynomial D = read_polynomial(argv[1]);
    size_t count = read_primes(argv[2], list);
    uint64_t refused = ask_all(D, argc == 4 ? read_budget(argv[3]) : BUDGET, list, count);
    print_answer(refused, D.degree, list, count);
    return fflush(stdout) || ferror(stdout);
}
