/* The calls of the library libfoskadoin.a, for C and Rust on x86-64 Linux (x86-64-v2). `tools/build foskadoin`
   writes it to target/staticlib. First the numbers, structs and calls; below them what the caller keeps to, the
   format of tickets and listings, and the mathematics. */
#ifndef FOSKADOIN_H
#define FOSKADOIN_H

#include <stddef.h>
#include <stdint.h>

/* Bytes of stack that a call needs at most: measured, not proved (see "Stack" below). */
#define FOSKADOIN_STACK 262144

#ifdef __cplusplus
extern "C" {
#endif

/* The number of an answer: 0, or that of the first refusal that applies. 1 to 10, 14 and 15 are refused because of
   the input, 14 first of all, 15 after 7; 11 to 13 because of the state, which is tested after the input. */
enum foskadoin_number {
    FOSKADOIN_FOUND = 0,             /* of a product, a giant step, an ideal or an estimate: it is there */
    FOSKADOIN_WRONG_HEAD = 1,        /* fewer than 7 words, or the first two are not of the kinds 1 and 2 */
    FOSKADOIN_WRONG_PRIME = 2,       /* q is not an odd prime below 4096 */
    FOSKADOIN_WRONG_DEGREE = 3,      /* n is odd, below 2 or above 64 */
    FOSKADOIN_WRONG_LAYOUT = 4,      /* not n + 5 words, a later kind is wrong, or the last is not 15|n + 4 */
    FOSKADOIN_WRONG_COEFFICIENT = 5, /* a coefficient is q or more */
    FOSKADOIN_WRONG_LEAD = 6,        /* the coefficient of x^n is not 1 */
    FOSKADOIN_NOT_SQUAREFREE = 7,    /* the square of some polynomial of degree 1 or more divides D */
    FOSKADOIN_WRONG_LISTING = 8,     /* foskadoin_lookup; it shows it by the empty part */
    FOSKADOIN_WRONG_PAIR = 9,        /* foskadoin_product, foskadoin_giant_step: a pair is not an ideal's */
    FOSKADOIN_WRONG_DISTANCE = 10,   /* foskadoin_giant_step, foskadoin_ideal_at: a distance is above 2^40 */
    FOSKADOIN_SPENT = 11,            /* regulator, regulators, unit, listing: the quasi-period m is above the
                                        budget b; half: above 2b. The one refusal with counts: the steps made,
                                        for half the indices tried, and the degree reached */
    FOSKADOIN_SHORT_UNIT = 12,       /* foskadoin_unit: a list is shorter than R + 1 places */
    FOSKADOIN_SHORT_LISTING = 13,    /* foskadoin_listing: the list is shorter than m * (n + 4) words */
    FOSKADOIN_WRONG_SHAPE = 14,      /* foskadoin_regulators: the ticket's shape is wrong */
    FOSKADOIN_TOO_LARGE = 15         /* foskadoin_estimate: q is above 13 or n above 8 */
};

/* The answer of regulator, half, unit and listing. first, second and third are also named for what they are: the
   first name is for any number, the second where it is found, the third where it is spent. After another refusal
   the three are 0. */
struct foskadoin_numbers {
    uint64_t words;  /* how many words the ticket has */
    uint64_t number; /* enum foskadoin_number */
    union {
        uint64_t first;
        uint64_t regulator; /* found: R = deg p */
        uint64_t steps;     /* spent: the steps made, b; for half the indices tried, b */
    };
    union {
        uint64_t second;
        uint64_t quasi_period; /* found: m */
        uint64_t degree;       /* spent: the degree reached, deg p_(b-1); 0 for b = 0 */
    };
    union {
        uint64_t third;
        uint64_t constant; /* found: c = p^2 - D s^2, the norm of the monic unit, 1 to q - 1; for half 0. Spent: 0 */
    };
};

/* The answer of foskadoin_regulators beside its array: how many words the ticket has, and how many outcomes. */
struct foskadoin_several {
    uint64_t words, count;
};

/* A part of a list: how many words come before it, and how many it has. */
struct foskadoin_part {
    uint64_t offset, length;
};

/* The answers of product and giant step. A size is the degree + 1, 0 for the zero polynomial. */
struct foskadoin_product_numbers {
    uint64_t words, number, s_size, q_size, p_size;
};

struct foskadoin_giant_step_numbers {
    uint64_t words, number, q_size, p_size;
    int64_t f, distance;
};

/* The answer of foskadoin_ideal_at: sizes as above, the ideal's distance, and the distance of the next ideal. */
struct foskadoin_ideal_numbers {
    uint64_t words, number, q_size, p_size, distance, next;
};

/* The answer of foskadoin_estimate: the estimate as a fraction, not reduced, and as the nearest whole number. */
struct foskadoin_estimate_numbers {
    uint64_t words, number, numerator, denominator, nearest;
};

/* The regulator. Refusals 1 to 7 and 11. */
struct foskadoin_numbers foskadoin_regulator(const uint32_t *ticket, size_t ticket_length);

/* The regulators of a D with integer coefficients at one to sixteen primes. The ticket has a format of its own,
   under "Words" below. out is an array of 64 numbers, and every number of it is written: four for each outcome, in
   the ticket's order of primes, number, first, second and third as in struct foskadoin_numbers; zeros past the last
   outcome. 0 is also FOSKADOIN_FOUND: how many outcomes there are is told by count.
   A ticket refused by 14, or else by 3, has one outcome, its refusal. Otherwise each prime has its outcome, each of
   equal ones too: that of foskadoin_regulator with the coefficients reduced modulo q. Refusals 2, 6 and 7 and spent,
   11, belong to a prime and do not stop the rest. No prime has 1, 3, 4, 5 or 14, so an array that begins with 3 or 14
   is a refused ticket's. */
struct foskadoin_several foskadoin_regulators(const uint32_t *ticket, size_t ticket_length, uint64_t *out);

/* The regulator by half the walk: the R and m of foskadoin_regulator in about half the steps, and no constant.
   Refusals 1 to 7 and 11.
   Found: first is R, second is m, third is 0. The budget b counts the indices tried ("Half the walk" below), so
   every m up to 2b is found.
   Spent: first is b, second is deg p_(b-1), third is 0. m is above 2b, and no solution ("Least degree" below) has
   deg p up to deg p_(2b-1), which is at least deg p_(b-1). */
struct foskadoin_numbers foskadoin_half(const uint32_t *ticket, size_t ticket_length);

/* The monic unit p + s sqrt(D) in four lists of R + 1 places or more. Refusals 1 to 7, 11 and 12.
   Found: places 0 to R of p and s are the coefficients, from the constant term on, with zeros above the degree; p is
   monic, so place R of it is 1, and s is monic, of degree R - n/2; places 0 to R of x and y are 0; every later place
   of the four is as before the call. After a refusal, 11 too, every place of the four is as before the call. */
struct foskadoin_numbers foskadoin_unit(const uint32_t *ticket, size_t ticket_length,
                                        uint32_t *p, size_t p_length, uint32_t *s, size_t s_length,
                                        uint32_t *x, size_t x_length, uint32_t *y, size_t y_length);

/* The listing, m records of n + 4 words, in a list of m * (n + 4) words or more. Refusals 1 to 7, 11 and 13.
   Found: the first m * (n + 4) words are the records, every later word is as before the call. After a refusal,
   11 too, every word is as before the call. */
struct foskadoin_numbers foskadoin_listing(const uint32_t *ticket, size_t ticket_length,
                                           uint32_t *out, size_t out_length);

/* Where the record with the largest distance at most y is. The list is the words of a listing and nothing after
   them: pass its first m * (n + 4) words. Refusal 8 is the part of no words at the start, 0 and 0: n is odd,
   below 2 or above 64, or the words are not one or more whole records of their kinds, or the first distance is
   not 0, or the distances do not strictly rise. */
struct foskadoin_part foskadoin_lookup(const uint32_t *list, size_t list_length, uint64_t n, uint64_t y);

/* The product of the ideals (q1, p1) and (q2, p2): lists of n/2 and n/2 - 1 coefficients, from the constant term
   on. Refusals 1 to 7 and 9; the ticket's budget has no effect. s, q and p are arrays of 129 numbers, and every
   number of them is written: the coefficients of S, Q and P from the constant term on, zeros above; zeros in all
   three after a refusal. */
struct foskadoin_product_numbers foskadoin_product(const uint32_t *ticket, size_t ticket_length,
                                                   const uint32_t *q1, size_t q1_length,
                                                   const uint32_t *p1, size_t p1_length,
                                                   const uint32_t *q2, size_t q2_length,
                                                   const uint32_t *p2, size_t p2_length,
                                                   uint32_t *s, uint32_t *q, uint32_t *p);

/* The giant step of two ideals with the distances d1 and d2. Refusals 1 to 7, 9 and 10; the ticket's budget has
   no effect. q and p are arrays of 129 numbers, all written, as for the product. distance = d1 + d2 + f may be
   below 0; f is between 2 - n and 0. After a refusal both are 0. */
struct foskadoin_giant_step_numbers foskadoin_giant_step(const uint32_t *ticket, size_t ticket_length,
                                                         const uint32_t *q1, size_t q1_length,
                                                         const uint32_t *p1, size_t p1_length, uint64_t d1,
                                                         const uint32_t *q2, size_t q2_length,
                                                         const uint32_t *p2, size_t p2_length, uint64_t d2,
                                                         uint32_t *q, uint32_t *p);

/* The last ideal of the endless walk ("The endless walk" below) whose distance is at most y. Refusals 1 to 7, then 10
   where y is above 2^40; the ticket's budget has no effect, and there is no spent answer: every other y has its ideal.
   q and p are arrays of 129 numbers, all written, as for the product: Q is monic and P has a lower degree. distance is
   the ideal's, at most y; next is the distance of the ideal after it, above y. After a refusal both are 0.
   The time grows with the number of binary digits of y: see "The endless walk". */
struct foskadoin_ideal_numbers foskadoin_ideal_at(const uint32_t *ticket, size_t ticket_length, uint64_t y,
                                                  uint32_t *q, uint32_t *p);

/* The estimate of the class number ("The estimate" below), for q up to 13 and n up to 8. Refusals 1 to 7, then 15 where
   q is above 13 or n above 8; the ticket's budget has no effect.
   numerator is q^(n/2+a+t) and denominator (q-1)^(a+1) (q+1)^t, not reduced; nearest is the whole number nearest to the
   fraction, an exact half going up. The numerator is below 2^63, the denominator from 1 to 2^54 - 1. After a refusal the
   three are 0. */
struct foskadoin_estimate_numbers foskadoin_estimate(const uint32_t *ticket, size_t ticket_length);

#ifdef __cplusplus
}
#endif

/* What the caller keeps to
   - A list is a pointer and a length. A length counts numbers of 32 bits, not bytes. A list of length 0 may
     have a null pointer; any other pointer is aligned as a uint32_t is, to 4 bytes.
   - An array (s, q and p of product and giant step, q and p of foskadoin_ideal_at) is a pointer to 129 numbers,
     aligned likewise and never null. The array out of foskadoin_regulators is a pointer to 64 numbers of 64 bits, aligned as a uint64_t
     is, to 8 bytes, and never null.
   - No list or array that a call writes overlaps another one of the same call. A call keeps no pointer after
     it returns.
   Any words and any lengths, 2^32 and more too, have their answer: no call relies on its caller for more.

   Threads. No call allocates memory, keeps a state or makes a system call; of the C library the code uses
   memcpy, memmove and memset alone. So calls may run at the same time in several threads, as long as no list
   that one of them writes is passed to another.

   Stack. The stored vectors (n up to 64) reach 41,100 bytes. Four functions are recursive: the greatest
   common divisor of D and its derivative (a level for each division, at most n), that of two Q with its
   factors (likewise, at most n/2), the steps of a reduction (at most n/2) and the inverse modulo q (at most
   21 levels). A smaller stack is not noticed: the call may then end in a fault of memory.

   Words. A word is a kind (a tag) times 2^28 plus a value, written kind|value.
   - A ticket (a job: the field, D and the step budget) is n + 5 words: 1|q, 2|n, then 3|c for each
     coefficient of D from the constant term on, 4|b with the budget b, 15|n + 4.
   - A ticket of foskadoin_regulators is n + 4 words and one for each prime: 2|n, then 12|c for each of the n + 1
     coefficients of D from the constant term on, in 28-bit two's complement (c below 0 is written c + 2^28, so
     c is from -2^27 to 2^27 - 1), 4|b, one to sixteen words 1|q, 15|the number of words before it. Refusal 14
     is every other list, the empty one too, with the n of word 0 whatever it is; 3 is then tested.
   - A record of a listing is n + 4 words: 5|index, 6|distance div 2^28, 7|distance mod 2^28, 10|mirror div
     2^28, 11|mirror mod 2^28, 8|coefficient for each of Q (n/2), 9|coefficient for each of P (n/2 - 1), both
     from the constant term on with zeros above the degree.

   The walk, the continued fraction of sqrt(D). d is the monic polynomial of degree n/2 with deg(D - d^2) <
   n/2; P_0 = 0, Q_0 = 1, a_0 = d; then P_i = a_(i-1) Q_(i-1) - P_(i-1), Q_i = (D - P_i^2) / Q_(i-1), a_i =
   (P_i + d) div Q_i. p_(-1) = 1, p_0 = d, p_i = a_i p_(i-1) + p_(i-2); s_(-1) = 0, s_0 = 1, and s_i likewise.
   The quasi-period m is the least i from 1 on with Q_i constant, and the regulator R = deg p_(m-1).

   The unit (the fundamental unit up to a constant factor) is monic: p = p_(m-1) / t and s = s_(m-1) / t, with t the
   leading coefficient of p_(m-1), which is also that of s_(m-1). The constant is its norm, c = p^2 - D s^2 =
   (-1)^m Q_m / t^2.

   Half the walk. foskadoin_half tries the indices i = 0 to b - 1. It stops at the first where Q_(i+1) is a
   constant times Q_i, with m = 2i + 1 and R = 2 (deg a_1 + .. + deg a_i) + n/2, or else P_(i+1) = P_(i+2), with
   m = 2i + 2 and R = 2 (deg a_1 + .. + deg a_(i+1)) + deg Q_(i+1).

   Least degree. Of all polynomials p and s modulo q with s not 0 and p^2 - D s^2 a constant other than 0:
   where the answer is found, none has deg p < R, and where deg p = R they are the unit's times a constant, s
   perhaps with the other sign, so that the unit is the only one with p and s both monic; where it is spent, none
   has deg p <= the degree reached, and where half is spent, none has deg p <= deg p_(2b-1).

   Several primes. If p^2 - D s^2 = c has a solution with complex coefficients, s not 0 and c a constant other than
   0, then R is the same at every prime that is not refused, the degree of p at its least. So a difference decides:
   there is no such solution. An agreement is evidence and no proof. A refused prime counts for nothing; a spent one
   only where its degree is at or above another prime's R, which is a difference. The outcome at each prime is proved;
   that R is the same at all of them is a theorem of the literature. examples/regulators.c draws these conclusions.

   The listing. The record of index i, from 1 to m, has Q_(i-1) divided by its leading coefficient as Q,
   P_(i-1) mod Q as P, the distance deg p_(i-2) (0 for i = 1) and the mirror R less the distance plus deg Q.

   The mirror is the distance of the conjugate ideal, which has the same Q, and P negated modulo Q. For record 1, which is
   its own conjugate, it is R. For every other record it is below R, and the record at that distance is the conjugate,
   the only one in the listing: foskadoin_lookup at the mirror finds it (at R it would find the last record). For these
   the mirror of the conjugate is in turn the record's own distance.

   The endless walk. The walk goes on past the quasi-period, at the index i from 0 on with the ideal of Q_i and P_i, made
   as a record's is, and the distance deg p_(i-1): 0 for i = 0, then strictly rising, by n/2 - deg Q_i from i to i + 1. The
   ideals come again after m steps, with distances raised by R: those of the indices k m + i are record i + 1 of the
   listing, i below m, at its distance and k R. So foskadoin_ideal_at at k R + y answers as at y, with distance and next
   both k R more. It is made by halving: the ideal for y from that for y div 2, by a giant step with itself and then at
   most 2 n - 3 single steps of the walk; that is a giant step for each binary digit of y, 41 at most. Where y is below
   R, foskadoin_lookup at y finds the same ideal in the listing.

   The estimate. a and t are the numbers of elements e = 0 to q - 1 of the field at which D(e) is a nonzero square and a
   non-square; an e with D(e) = 0 counts in neither. The estimate is E' of source 000, section 5B, for w = 1: q^(n/2) /
   (q - 1) times the product of q / (q - chi) over the q polynomials x - e, with chi = 1, -1 and 0 in these three cases,
   that is q^(n/2) / (q - 1) * (q / (q - 1))^a * (q / (q + 1))^t. What is estimated is the divisor class number h = R h' of
   F_q(x, sqrt(D)), with h' the ideal class number of F_q[x, sqrt(D)]. E' may be above h or below it; how near it is is
   not proved here (source 000, section 4, has a bound). To choose a budget: R divides h, and the quasi-period is at most
   R - n/2 + 1, so that a small multiple of nearest will often do, and half of it for foskadoin_half. nearest is the whole
   number w with 2 w M <= 2 N + M < 2 (w + 1) M, for the numerator N and the denominator M.

   A pair of product and giant step. Refusal 9: a list of Q has not n/2 numbers, or a list of P not n/2 - 1,
   or a number is q or more, or a Q is not monic, or a P has not a lower degree than its Q, or a Q does not
   divide D - P^2.

   The product. S = U Q1 + V Q2 + W (P1 + P2) is the monic greatest common divisor of Q1, Q2 and P1 + P2; Q =
   Q1 Q2 / S^2; P = (P1 + (Q1 / S) (U (P2 - P1) + W (D - P1^2) / Q1)) mod Q.

   The giant step. The product's (Q, P) walked to the first (Q_k, P_k) with deg Q_k <= n/2 - 1, Q_k divided by
   its leading coefficient, P_k mod Q_k. f = deg Q_k - deg Q + (the degrees of the partial quotients a_1 to
   a_k) - deg S is the error of the two distances' sum: the ideal's distance is the sum and f. */
#endif
