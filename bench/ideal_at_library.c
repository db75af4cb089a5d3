// The last ideal of the walk with a distance of at most y by the library's call, target/staticlib/libfoskadoin.a:
// each call reads the ticket.
#include "../include/foskadoin.h"
#include "ideal_at.h"

static uint32_t first[129], second[129];

static void print(const uint32_t *x, uint64_t size) {
    printf("%lu", size);
    for (uint64_t i = 0; i < size; i++) printf(" %u", x[i]);
    printf(" ");
}

int main(int argc, char **argv) {
    if (argc != 3) exit(2);
    input();
    long turns = atol(argv[2]);
    for (uint32_t k = 0; k < count; k++) {
        if (!strcmp(argv[1], "time")) {
            double start = seconds();
            for (long i = 0; i < turns; i++) {
                if (foskadoin_ideal_at(ticket, words, distances[k], first, second).number) exit(3);
            }
            printf("%.9f\n", seconds() - start);
            continue;
        }
        struct foskadoin_ideal_numbers x = foskadoin_ideal_at(ticket, words, distances[k], first, second);
        if (x.number) exit(3);
        print(first, x.q_size), print(second, x.p_size);
        printf("%lu %lu\n", x.distance, x.next);
    }
}
