// How much stack the calls use at most: each job of the vectors runs on a painted stack of its own, and the
// deepest place that lost its paint counts. The number printed includes the thread's own frames.
#define _GNU_SOURCE
#include <inttypes.h>
#include <pthread.h>
#include <string.h>
#include "../../include/foskadoin.h"
#include "vectors.h"

enum { STACK = 1 << 20, PAINT = 0xC3, WORDS = 256, PLACES = 1 << 16 };
static uint32_t ticket[WORDS], lists[4][PLACES], Q[2][WORDS], P[2][WORDS];
static uint64_t outcomes[64];
static size_t words, sizes[4], listed, n;
static uint64_t y;
static struct foskadoin_part part;
static unsigned char *stack;

static void *no_job(void *none) { return none; }
static void *regulator_job(void *none) { return foskadoin_regulator(ticket, words), none; }
static void *half_job(void *none) { return foskadoin_half(ticket, words), none; }
static void *regulators_job(void *none) { return foskadoin_regulators(ticket, words, outcomes), none; }
static void *unit_job(void *none) { return foskadoin_unit(ticket, words, lists[0], PLACES, lists[1], PLACES, lists[2], PLACES, lists[3], PLACES), none; }
static void *listing_job(void *none) {
    struct foskadoin_numbers a = foskadoin_listing(ticket, words, lists[0], PLACES);
    n = words > 1 ? ticket[1] & 0xfffffff : 0;
    listed = a.number == FOSKADOIN_FOUND ? a.quasi_period * (n + 4) : 0;
    return none;
}
static void *lookup_job(void *none) { return part = foskadoin_lookup(lists[0], listed, n, 1), none; }
static void *product_job(void *none) {
    foskadoin_product(ticket, words, Q[0], sizes[0], P[0], sizes[1], Q[1], sizes[2], P[1], sizes[3], lists[0], lists[1], lists[2]);
    return none;
}
static void *giant_step_job(void *none) {
    foskadoin_giant_step(ticket, words, Q[0], sizes[0], P[0], sizes[1], 0, Q[1], sizes[2], P[1], sizes[3], 0, lists[0], lists[1]);
    return none;
}
static void *ideal_at_job(void *none) { return foskadoin_ideal_at(ticket, words, y, lists[0], lists[1]), none; }
static void *estimate_job(void *none) { return foskadoin_estimate(ticket, words), none; }

static struct {
    const char *name;
    void *(*job)(void *);
    size_t most;
} calls[] = {{"thread", no_job, 0},   {"regulator", regulator_job, 0}, {"unit", unit_job, 0},
             {"listing", listing_job, 0}, {"lookup", lookup_job, 0},   {"product", product_job, 0},
             {"giant step", giant_step_job, 0}, {"regulators", regulators_job, 0}, {"half", half_job, 0},
             {"ideal at", ideal_at_job, 0}, {"estimate", estimate_job, 0}};

static void measure(int call) {
    pthread_attr_t attributes;
    pthread_t thread;
    memset(stack, PAINT, STACK);
    pthread_attr_init(&attributes);
    if (pthread_attr_setstack(&attributes, stack, STACK) || pthread_create(&thread, &attributes, calls[call].job, NULL)) exit(2);
    pthread_join(thread, NULL);
    size_t free_bytes = 0;
    while (stack[free_bytes] == PAINT) free_bytes++;
    if (STACK - free_bytes > calls[call].most) calls[call].most = STACK - free_bytes;
}

static size_t counted(FILE *file, uint32_t *list) {
    size_t count;
    if (fscanf(file, "%zu", &count) != 1) return SIZE_MAX;
    if (count > WORDS) exit(2);
    for (size_t i = 0; i < count; i++)
        if (fscanf(file, "%" SCNu32, &list[i]) != 1) exit(2);
    return count;
}

int main(int argc, char **argv) {
    if (argc != 2 || posix_memalign((void **)&stack, 4096, STACK)) return 2;
    FILE *file = vectors(argv[1], "regulators.txt");
    size_t jobs = 0, found = 0;
    for (; (words = counted(file, ticket)) != SIZE_MAX; jobs++) {
        if (fscanf(file, "%*u %*u %*u %*u") != 0) return 2;
        for (int i = 0; i < 5; i++) measure(i);
        found += part.length > 0;
    }
    file = vectors(argv[1], "products.txt");
    for (; (words = counted(file, ticket)) != SIZE_MAX; jobs++) {
        for (int i = 0; i < 2; i++) {
            sizes[2 * i] = counted(file, Q[i]), sizes[2 * i + 1] = counted(file, P[i]);
            if (sizes[2 * i] == SIZE_MAX || sizes[2 * i + 1] == SIZE_MAX || fscanf(file, "%*u %*u") != 0) return 2;
        }
        for (int i = 5; i < 7; i++) measure(i);
        if (fscanf(file, "%*[^\n]") != 0) return 2;
    }
    file = vectors(argv[1], "several.txt");
    for (; (words = counted(file, ticket)) != SIZE_MAX; jobs++) {
        measure(7);
        if (fscanf(file, "%*[^\n]") != 0) return 2;
    }
    file = vectors(argv[1], "half.txt");
    for (; (words = counted(file, ticket)) != SIZE_MAX; jobs++) {
        measure(8);
        if (fscanf(file, "%*[^\n]") != 0) return 2;
    }
    file = vectors(argv[1], "ideals_at.txt");
    for (; (words = counted(file, ticket)) != SIZE_MAX; jobs++) {
        uint64_t high, low;
        if (fscanf(file, "%" SCNu64 " %" SCNu64, &high, &low) != 2) return 2;
        y = high << 32 | low;
        measure(9);
        if (fscanf(file, "%*[^\n]") != 0) return 2;
    }
    file = vectors(argv[1], "estimates.txt");
    for (; (words = counted(file, ticket)) != SIZE_MAX; jobs++) {
        measure(10);
        if (fscanf(file, "%*[^\n]") != 0) return 2;
    }
    int over = jobs != 4443 || found == 0;
    printf("stack, bytes, in %zu jobs:", jobs);
    for (size_t i = 0; i < sizeof calls / sizeof *calls; i++) {
        printf(" %s %zu", calls[i].name, calls[i].most);
        over |= calls[i].most > FOSKADOIN_STACK;
    }
    printf("; %zu lookups found a record\n", found);
    return over;
}
