/* Histories of appends, and the clock. */
#include <stdio.h>
#include <stdlib.h>
#include <time.h>
#include "history.h"
#include "store.h"

static uint64_t word = 88172645463325252u;

void fail(const char *store, const char *what)
{
    fprintf(stderr, "host/stores: %s failed at: %s\n", store, what);
    exit(1);
}

void *room_for(size_t count, size_t size)
{
    void *room = calloc(count, size);
    if (room == NULL)
        fail("calloc", "no memory");
    return room;
}

double nanoseconds(void)
{
    struct timespec t;
    clock_gettime(CLOCK_PROCESS_CPUTIME_ID, &t);
    return 1e9 * (double)t.tv_sec + (double)t.tv_nsec;
}

/* The next of a fixed sequence of numbers that look random. */
static uint64_t random_word(void)
{
    word ^= word << 13;
    word ^= word >> 7;
    word ^= word << 17;
    return word;
}

/* A key, low ones more often: the square of a number below 1. */
static size_t skewed_key(size_t keys)
{
    double u = (double)(random_word() >> 11) / 9007199254740992.0;
    return (size_t)((double)keys * u * u);
}

/* The lists by key: first how long each is, then where it begins, then its numbers in the order of the appends. */
static void collect(struct history *h)
{
    h->lists = room_for(h->count, sizeof *h->lists);
    h->start = room_for(h->keys + 1, sizeof *h->start);
    size_t *next = room_for(h->keys, sizeof *next);
    for (size_t i = 0; i < h->count; i++)
        h->start[h->key[i] + 1]++;
    for (size_t key = 0; key < h->keys; key++) {
        h->start[key + 1] += h->start[key];
        next[key] = h->start[key];
    }
    for (size_t i = 0; i < h->count; i++)
        h->lists[next[h->key[i]]++] = h->number[i];
    free(next);
}

struct history history_of(size_t keys, size_t count)
{
    struct history h = {.keys = keys, .count = count, .key = room_for(count, sizeof *h.key), .number = room_for(count, sizeof *h.number)};
    uint64_t number = 1 << 20;
    for (size_t i = 0; i < count; i++) {
        number += 1 + random_word() % 40;
        h.key[i] = (uint32_t)skewed_key(keys);
        h.number[i] = number;
    }
    collect(&h);
    return h;
}

void free_history(struct history *h)
{
    free(h->key), free(h->number), free(h->lists), free(h->start);
}
