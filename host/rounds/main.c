/* host/before: the calls of one library against those of an older one, in one process: short rounds in turns. */
#include "side.h"
#include <stdio.h>
#include <stdlib.h>
#include <string.h>
#include <time.h>

static const struct one_case cases[] = {
    { "append of 1 and a drop", APPENDS, 1, 300 },
    { "2 appends and a drop", APPENDS, 2, 300 },
    { "3 appends and a drop", APPENDS, 3, 300 },
    { "20 appends and a drop", APPENDS, 20, 300 },
    { "load of 1 and a drop", LOADS, 1, 300 },
    { "load of 2 and a drop", LOADS, 2, 300 },
    { "tight load of 2 and a drop", TIGHT, 2, 300 },
    { "load of 4 and a drop", LOADS, 4, 300 },
    { "tight load of 4 and a drop", TIGHT, 4, 300 },
    { "load of 30 and a drop", LOADS, 30, 300 },
    { "load of 200 and a drop", LOADS, 200, 300 },
    { "load of 4,000 and a drop", LOADS, 4000, 300 },
    { "load alone of 2", PUTS, 2, 300 },
    { "tight load alone of 2", PUTS_TIGHT, 2, 300 },
    { "load alone of 4", PUTS, 4, 300 },
    { "tight load alone of 4", PUTS_TIGHT, 4, 300 },
    { "load alone of 30", PUTS, 30, 300 },
    { "append in a slab of 2", GROWS, 2, 300 },
    { "append in a slab of 20", GROWS, 20, 300 },
    { "append in a slab of 200", GROWS, 200, 300 },
    { "append in a page of 600", GROWS, 600, 300 },
    { "append that moves one number", MOVES, 1, 300 },
    { "append that moves a slab of 256", MOVES, 256, 300 },
    { "read of 1", READS, 1, 300 },
    { "read of 2", READS, 2, 300 },
    { "read of 2, one byte", READS, 2, 120 },
    { "read of 2, to 2^20", READS, 2, 1 << 20 },
    { "read of 6", READS, 6, 300 },
    { "read of 6, one byte", READS, 6, 120 },
    { "read of 6, to 2^20", READS, 6, 1 << 20 },
    { "read of 10", READS, 10, 300 },
    { "read of 10, one byte", READS, 10, 120 },
    { "read of 10, to 2^20", READS, 10, 1 << 20 },
    { "read of 16", READS, 16, 300 },
    { "read of 16, one byte", READS, 16, 120 },
    { "read of 16, to 2^20", READS, 16, 1 << 20 },
    { "read of 64", READS, 64, 300 },
    { "read of 200", READS, 200, 300 },
    { "read of 600, a page", READS, 600, 300 },
    { "read of 20,000, a chain", READS, 20000, 300 },
    { "drop of a slab of 2", DROPS, 2, 300 },
    { "drop of a slab of 200", DROPS, 200, 300 },
    { "drop of a page of 600", DROPS, 600, 300 },
};

static uint64_t lists[LEAST_KEYS * MOST];

static double now_ns(void)
{
    struct timespec t;
    clock_gettime(CLOCK_MONOTONIC, &t);
    return t.tv_sec * 1e9 + t.tv_nsec;
}

/* A list for each key, the same in every run: a first number up to 2^20, then steps up to the case's gap. */
static void make_lists(const struct one_case *one)
{
    uint64_t seed = 88172645463325252u;
    uint64_t *to = lists;
    for (unsigned key = 0; key < keys_of(one); key++) {
        uint64_t last = 0;
        for (unsigned i = 0; i <= one->count; i++) {
            seed ^= seed << 13, seed ^= seed >> 7, seed ^= seed << 17;
            last += 1 + seed % (i == 0 ? 1 << 20 : one->gap);
            *to++ = last;
        }
    }
}

/* The time of a turn in a round of n turns. */
static double round_of(const struct side *side, unsigned n)
{
    double start = now_ns();
    uint32_t refused = side->turns(n);
    double took = now_ns() - start;
    if (refused != 0) {
        printf("a call was refused\n");
        exit(1);
    }
    return took / n;
}

static int by_size(const void *a, const void *b)
{
    double x = *(const double *)a, y = *(const double *)b;
    return (x > y) - (x < y);
}

enum { ROUNDS = 1501 };

static void measure(const struct one_case *one)
{
    static double old[ROUNDS], new[ROUNDS], ratio[ROUNDS];
    make_lists(one);
    side_old.make(one, lists);
    side_new.make(one, lists);
    unsigned keys = keys_of(one);
    round_of(&side_old, 2 * keys);
    double once = round_of(&side_old, 2 * keys);
    unsigned n = (unsigned)(10000 / once) / keys * keys + keys;
    for (unsigned i = 0; i < ROUNDS; i++) {
        if (i % 2 == 0) old[i] = round_of(&side_old, n);
        new[i] = round_of(&side_new, n);
        if (i % 2 == 1) old[i] = round_of(&side_old, n);
        ratio[i] = new[i] / old[i];
    }
    qsort(old, ROUNDS, sizeof *old, by_size);
    qsort(new, ROUNDS, sizeof *new, by_size);
    qsort(ratio, ROUNDS, sizeof *ratio, by_size);
    printf("%-34s %9.1f %9.1f ns   least %.2f   median %.2f\n", one->name, old[0], new[0], new[0] / old[0], ratio[ROUNDS / 2]);
    fflush(stdout);
}

int main(int argc, char **argv)
{
    for (size_t i = 0; i < sizeof cases / sizeof *cases; i++)
        if (argc < 2 || strstr(cases[i].name, argv[1])) measure(&cases[i]);
    return 0;
}
