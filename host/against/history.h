/* A history: which key gets each number, and the numbers, with 1 to 40 between them; and the lists that the keys then have. */
#ifndef HISTORY_H
#define HISTORY_H
#include <stddef.h>
#include <stdint.h>

struct history {
    size_t keys, count;
    uint32_t *key;    /* of each append */
    uint64_t *number; /* of each append */
    uint64_t *lists;  /* the keys' lists, one behind another */
    size_t *start;    /* where each key's begins, and the last ends */
};

/* So many appends to so many keys, low ones more often. */
struct history history_of(size_t keys, size_t count);

void free_history(struct history *h);

/* The processor time of the process: a store's own threads count as well. */
double nanoseconds(void);

/* Writes lines with the time of appends to the book by the length of the history and of the list, and of reads. */
void growth(void);

#endif
