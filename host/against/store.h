/* A store of posting lists, as the measurement sees one: each function of a row does the same job. */
#ifndef STORE_H
#define STORE_H
#include <stddef.h>
#include <stdint.h>

/* The functions of a store. Each ends the process with a message where the store fails. */
struct store {
    const char *name;
    void (*open)(size_t keys, size_t numbers);                          /* an empty store for so many keys, with room for so many numbers */
    void (*load)(size_t key, const uint64_t *numbers, size_t count);    /* a list onto an empty key, of at most 65,535 */
    void (*extend)(size_t key, const uint64_t *numbers, size_t count);  /* any numbers behind a key's list in one call; NULL: it has none */
    void (*append)(size_t key, uint64_t number);                        /* a number behind a key's list */
    size_t (*read)(size_t key, uint64_t *out, size_t room);             /* a key's list, and how long it is */
    void (*drop)(size_t key);                                           /* empties a key */
    void (*settle)(void);                                               /* ends a phase: what was written can be read by others */
    uint64_t (*bytes)(void);                                            /* the bytes that the store takes now */
    uint64_t (*stored)(void);                                           /* those that its lists take in a file; NULL: the same */
    void (*explain)(size_t numbers);                                    /* prints where they are, of so many numbers; NULL: it doesn't */
    void (*close)(void);
};

extern const struct store book_store, arrays_store, lmdb_store, sqlite_store, rocksdb_store, rocksdb_snappy_store, roaring_store;

/* Ends the process, saying which store failed at what. */
void fail(const char *store, const char *what);

/* Memory for so many things of a size, all 0; ends the process where there is none. */
void *room_for(size_t count, size_t size);

#endif
