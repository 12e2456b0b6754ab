/* How the book's times grow with what it holds. */
#include <stdio.h>
#include <stdlib.h>
#include <string.h>
#include "history.h"
#include "store.h"

/* The time of an append after histories of some lengths: the last tenth of each. A key is dropped when its list has so many numbers, so that
   lists are as long in a long history as in a short one. */
static void growth_of_history(size_t keys, size_t longest)
{
    uint32_t *held = room_for(keys, sizeof *held);
    for (size_t calls = 10000; calls <= 10000000; calls *= 10) {
        struct history h = history_of(keys, calls);
        double start = 0, dropping = 0;
        memset(held, 0, keys * sizeof *held);
        book_store.open(h.keys, h.count);
        for (size_t i = 0; i < calls; i++) {
            if (i == calls - calls / 10)
                start = nanoseconds(), dropping = 0;
            book_store.append(h.key[i], h.number[i]);
            if (++held[h.key[i]] < longest)
                continue;
            double before = nanoseconds();
            book_store.drop(h.key[i]);
            held[h.key[i]] = 0;
            dropping += nanoseconds() - before;
        }
        printf("history,%zu,%zu,%.2f\n", keys, calls, (nanoseconds() - start - dropping) / (double)(calls / 10));
        book_store.close();
        free_history(&h);
    }
    free(held);
}

/* The time of an append and of a read by the length of the key's list. */
static void growth_of_list(void)
{
    enum { KEYS = 64 };
    size_t longest = 262144;
    uint64_t *list = room_for(longest, sizeof *list);
    book_store.open(KEYS, KEYS * longest);
    uint64_t number = 1 << 20;
    for (size_t length = 0; length < longest;) {
        size_t next = length < 64 ? 64 : length + length / 8 + 1;
        double start = nanoseconds();
        for (size_t k = length; k < next; k++)
            for (size_t key = 0; key < KEYS; key++)
                book_store.append(key, number += 1 + k % 40);
        printf("append,%d,%zu,%.2f\n", KEYS, next, (nanoseconds() - start) / (double)(KEYS * (next - length)));
        length = next;
        if (length > longest)
            break;
        start = nanoseconds();
        for (size_t key = 0; key < KEYS; key++)
            if (book_store.read(key, list, longest) != length)
                fail("book", "reading all");
        printf("read,%d,%zu,%.2f\n", KEYS, length, (nanoseconds() - start) / KEYS);
    }
    book_store.close();
    free(list);
}

void growth(void)
{
    growth_of_history(2000, 400);
    growth_of_history(50000, 40);
    growth_of_list();
}
