/* Measures stores of posting lists on the same histories, in turns: appends to keys chosen with skew, all keys read, all dropped, each key's list
   in one call, and loads. Each phase's figure is the median of the rounds, with the least and the greatest. What a store reads is held to the
   history, and so to what the others read. */
#include <math.h>
#include <stdbool.h>
#include <stdio.h>
#include <stdlib.h>
#include <string.h>
#include "history.h"
#include "store.h"

#define MOST_ROUNDS 32
#define LOADED 65535 /* the most numbers that a load takes */
#define LOADS 16

/* The book first: its medians are divided by the others'. Which others there are, host/stores says. */
static const struct store *const stores[] = {
    &book_store,
#ifdef WITH_LMDB
    &lmdb_store,
#endif
#ifdef WITH_SQLITE
    &sqlite_store,
#endif
#ifdef WITH_ROCKSDB
    &rocksdb_store,
    &rocksdb_snappy_store,
#endif
#ifdef WITH_ROARING
    &roaring_store,
#endif
    &arrays_store,
};
#define STORES ((int)(sizeof stores / sizeof *stores))

enum phase { APPEND, EXTEND, LOAD, READ, DROP, BYTES, STORED, PHASES };

static const char *const phases[PHASES] = {
    [APPEND] = "append, ns a number",
    [EXTEND] = "list in one call, ns a number",
    [LOAD] = "load of 65,535, ns a number",
    [READ] = "read, ns a number",
    [DROP] = "drop, microseconds a key",
    [BYTES] = "bytes a number",
    [STORED] = "bytes a number, in a file",
};

/* The figures of all rounds; NAN where a store has no such phase. */
static double figures[sizeof stores / sizeof *stores][PHASES][MOST_ROUNDS];

/* Ends the process where a key's list isn't the one expected. */
static void hold(const struct store *s, size_t key, const uint64_t *expected, size_t count, uint64_t *list, size_t room)
{
    if (s->read(key, list, room) != count || (count != 0 && memcmp(list, expected, count * sizeof *list) != 0))
        fail(s->name, "reading what was recorded");
}

/* Holds all lists to the history's, or, where they were dropped, to empty ones. */
static void hold_all(const struct store *s, const struct history *h, bool dropped, uint64_t *list)
{
    for (size_t key = 0; key < h->keys; key++)
        hold(s, key, h->lists + h->start[key], dropped ? 0 : h->start[key + 1] - h->start[key], list, h->count);
}

/* One round of a store on a history, number by number. In the first it also tells where its bytes are. */
static void appended_round(const struct store *s, const struct history *h, uint64_t *list, bool first, double *told)
{
    size_t total = 0;
    s->open(h->keys, h->count);
    double start = nanoseconds();
    for (size_t i = 0; i < h->count; i++)
        s->append(h->key[i], h->number[i]);
    s->settle();
    told[APPEND] = (nanoseconds() - start) / (double)h->count;
    start = nanoseconds();
    for (size_t key = 0; key < h->keys; key++)
        total += s->read(key, list, h->count);
    told[READ] = (nanoseconds() - start) / (double)total;
    hold_all(s, h, false, list);
    told[BYTES] = (double)s->bytes() / (double)h->count;
    told[STORED] = s->stored == NULL ? told[BYTES] : (double)s->stored() / (double)h->count;
    if (first && s->explain != NULL)
        s->explain(h->count);
    start = nanoseconds();
    for (size_t key = 0; key < h->keys; key++)
        s->drop(key);
    s->settle();
    told[DROP] = (nanoseconds() - start) / (double)h->keys / 1000;
    hold_all(s, h, true, list);
    s->close();
}

/* One round of a store on a history, each key's list in one call. */
static void extended_round(const struct store *s, const struct history *h, uint64_t *list, double *told)
{
    s->open(h->keys, h->count);
    double start = nanoseconds();
    for (size_t key = 0; key < h->keys; key++)
        if (h->start[key] != h->start[key + 1])
            s->extend(key, h->lists + h->start[key], h->start[key + 1] - h->start[key]);
    s->settle();
    told[EXTEND] = (nanoseconds() - start) / (double)h->count;
    hold_all(s, h, false, list);
    s->close();
}

/* One round of loads of the most numbers that a load takes. */
static void loaded_round(const struct store *s, const struct history *h, uint64_t *list, double *told)
{
    s->open(LOADS, LOADS * LOADED);
    double start = nanoseconds();
    for (size_t key = 0; key < LOADS; key++)
        s->load(key, h->number, LOADED);
    s->settle();
    told[LOAD] = (nanoseconds() - start) / (double)(LOADS * LOADED);
    for (size_t key = 0; key < LOADS; key++)
        hold(s, key, h->number, LOADED, list, h->count);
    s->close();
}

static int by_size(const void *a, const void *b)
{
    double x = *(const double *)a, y = *(const double *)b;
    return (x > y) - (x < y);
}

/* How many digits behind the point a figure is told with. */
static int digits(double figure)
{
    return figure >= 1000 ? 0 : figure >= 100 ? 1 : figure >= 10 ? 2 : 3;
}

/* A phase of the table: each store's median, under it its spread, and under that our median over theirs. A bar: there is none. */
static void print_phase(enum phase p, int rounds)
{
    double median[STORES];
    printf("%-32s", phases[p]);
    for (int s = 0; s < STORES; s++) {
        double *f = figures[s][p];
        qsort(f, (size_t)rounds, sizeof *f, by_size);
        median[s] = f[rounds / 2];
        isnan(median[s]) ? printf("%18s", "-") : printf("%18.*f", digits(median[s]), median[s]);
    }
    printf("\n%-32s", "  least to greatest");
    for (int s = 0; s < STORES; s++) {
        const double least = figures[s][p][0], most = figures[s][p][rounds - 1];
        char spread[64];
        snprintf(spread, sizeof spread, "%.*f to %.*f", digits(least), least, digits(most), most);
        printf("%18s", isnan(median[s]) ? "-" : spread);
    }
    printf("\n%-50s", "  ours / theirs");
    for (int s = 1; s < STORES; s++) {
        double ratio = median[0] / median[s];
        isnan(ratio) ? printf("%18s", "-") : printf("%18.2f", ratio);
    }
    printf("\n");
}

static void print_table(const struct history *h, int rounds, bool with_loads)
{
    printf("%5zu keys, %7zu numbers each", h->keys, h->count / h->keys);
    for (int s = 0; s < STORES; s++)
        printf("%18s", stores[s]->name);
    printf("\n");
    for (enum phase p = 0; p < PHASES; p++)
        if (p != LOAD || with_loads)
            print_phase(p, rounds);
    fflush(stdout);
}

/* Rounds of all stores in turns on one history. */
static void measure(size_t keys, size_t appends, int rounds, bool with_loads)
{
    struct history h = history_of(keys, appends);
    uint64_t *list = room_for(appends, sizeof *list);
    for (int round = 0; round < rounds; round++)
        for (int s = 0; s < STORES; s++) {
            double told[PHASES];
            told[EXTEND] = told[LOAD] = NAN;
            appended_round(stores[s], &h, list, round == 0, told);
            if (stores[s]->extend != NULL)
                extended_round(stores[s], &h, list, told);
            if (with_loads)
                loaded_round(stores[s], &h, list, told);
            for (int p = 0; p < PHASES; p++)
                figures[s][p][round] = told[p];
        }
    print_table(&h, rounds, with_loads);
    free(list);
    free_history(&h);
}

int main(int argc, char **argv)
{
    int rounds = 5;
    size_t appends = 1000000;
    for (int i = 1; i < argc; i += 2) {
        if (strcmp(argv[i], "--growth") == 0) {
            growth();
            return 0;
        }
        if (i + 1 == argc || (strcmp(argv[i], "--rounds") != 0 && strcmp(argv[i], "--appends") != 0)) {
            fprintf(stderr, "usage: host/stores [--rounds N] [--appends N] | --growth\n");
            return 2;
        }
        long value = atol(argv[i + 1]);
        if (strcmp(argv[i], "--rounds") == 0)
            rounds = value < 1 || value > MOST_ROUNDS ? 5 : (int)value;
        else
            appends = value < LOADED ? LOADED : (size_t)value;
    }
    printf("%zu appends, %d rounds, processor time: median, least to greatest\n", appends, rounds);
    measure(50000, appends, rounds, true);
    measure(2000, appends, rounds, false);
    measure(20, appends, rounds, false);
    return 0;
}
