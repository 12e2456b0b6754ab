/* RocksDB at its fastest: files in memory, no log of writes, batches of 1,000 writes, write buffers of 8 MiB, which took less time than the default's
   64, and no compression; and once more with Snappy, which is the default. An account is a key and its list one value: an append is a merge, and a
   merge operator puts the numbers behind each other. In the other form that is in use, a key for each number, reads took 130 ns a number and more.
   A phase ends when what it wrote is flushed and compacted, so that reads and bytes are those of the files that are left; its threads' time counts. */
#include <rocksdb/c.h>
#include <stdlib.h>
#include <string.h>
#include "store.h"

#define BATCH 1000
#define BUFFER_BYTES ((size_t)8 << 20)
#define ERRORS_ALONE 3 /* the level of its own log */
#define FORCED 3       /* compaction also of files that lie where they belong */

static char folder[] = "/dev/shm/ouriscado-rocksdb-XXXXXX";
static rocksdb_t *db;
static rocksdb_options_t *options;
static rocksdb_writeoptions_t *writing;
static rocksdb_readoptions_t *reading;
static rocksdb_flushoptions_t *flushing;
static rocksdb_compactoptions_t *compacting;
static rocksdb_writebatch_t *batch;

static void check(const char *error, const char *what)
{
    if (error != NULL)
        fail("RocksDB", what);
}

/* The bytes of a first part, which may be missing, and of others behind it. */
static char *joined(const char *first, size_t first_len, const char *const *parts, const size_t *lens, int count, size_t *out_len)
{
    *out_len = first == NULL ? 0 : first_len;
    for (int k = 0; k < count; k++)
        *out_len += lens[k];
    char *out = room_for(*out_len + 1, 1), *at = out;
    if (first != NULL)
        memcpy(at, first, first_len), at += first_len;
    for (int k = 0; k < count; k++)
        memcpy(at, parts[k], lens[k]), at += lens[k];
    return out;
}

static char *merge_all(void *none, const char *key, size_t key_len, const char *value, size_t value_len, const char *const *parts, const size_t *lens,
                       int count, unsigned char *done, size_t *out_len)
{
    (void)none, (void)key, (void)key_len;
    *done = 1;
    return joined(value, value_len, parts, lens, count, out_len);
}

static char *merge_some(void *none, const char *key, size_t key_len, const char *const *parts, const size_t *lens, int count, unsigned char *done,
                        size_t *out_len)
{
    return merge_all(none, key, key_len, NULL, 0, parts, lens, count, done, out_len);
}

static void free_merged(void *none, const char *value, size_t value_len)
{
    (void)none, (void)value_len;
    free((void *)value);
}

static void end_merging(void *none)
{
    (void)none;
}

static const char *merging_name(void *none)
{
    (void)none;
    return "behind";
}

static void set_options(int compression)
{
    options = rocksdb_options_create();
    rocksdb_options_set_create_if_missing(options, 1);
    rocksdb_options_set_allow_mmap_reads(options, 1);
    rocksdb_options_set_compression(options, compression);
    rocksdb_options_set_write_buffer_size(options, BUFFER_BYTES);
    rocksdb_options_set_info_log_level(options, ERRORS_ALONE);
    rocksdb_options_set_stats_dump_period_sec(options, 0);
    rocksdb_options_set_stats_persist_period_sec(options, 0);
    rocksdb_options_set_merge_operator(options, rocksdb_mergeoperator_create(NULL, end_merging, merge_all, merge_some, free_merged, merging_name));
    writing = rocksdb_writeoptions_create();
    rocksdb_writeoptions_disable_WAL(writing, 1);
    reading = rocksdb_readoptions_create();
    rocksdb_readoptions_set_verify_checksums(reading, 0);
    flushing = rocksdb_flushoptions_create();
    rocksdb_flushoptions_set_wait(flushing, 1);
    compacting = rocksdb_compactoptions_create();
    rocksdb_compactoptions_set_bottommost_level_compaction(compacting, FORCED);
}

static void open_with(int compression)
{
    char *error = NULL;
    strcpy(folder + sizeof folder - 7, "XXXXXX");
    if (mkdtemp(folder) == NULL)
        fail("RocksDB", "a folder in /dev/shm");
    set_options(compression);
    db = rocksdb_open(options, folder, &error);
    check(error, "open");
    batch = rocksdb_writebatch_create();
}

static void open_plain(size_t keys, size_t numbers)
{
    (void)keys, (void)numbers;
    open_with(rocksdb_no_compression);
}

static void open_snappy(size_t keys, size_t numbers)
{
    (void)keys, (void)numbers;
    open_with(rocksdb_snappy_compression);
}

static void write_batch(void)
{
    char *error = NULL;
    rocksdb_write(db, writing, batch, &error);
    check(error, "write");
    rocksdb_writebatch_clear(batch);
}

/* A key's bytes, the highest first: keys then lie in the order of their numbers. */
static uint64_t key_of(size_t key)
{
    return __builtin_bswap64(key);
}

static void extend_rocksdb(size_t key, const uint64_t *numbers, size_t count)
{
    uint64_t k = key_of(key);
    rocksdb_writebatch_merge(batch, (const char *)&k, sizeof k, (const char *)numbers, count * sizeof *numbers);
    if (rocksdb_writebatch_count(batch) >= BATCH)
        write_batch();
}

static void append_rocksdb(size_t key, uint64_t number)
{
    extend_rocksdb(key, &number, 1);
}

static size_t read_rocksdb(size_t key, uint64_t *out, size_t room)
{
    uint64_t k = key_of(key);
    size_t bytes;
    char *error = NULL;
    rocksdb_pinnableslice_t *found = rocksdb_get_pinned(db, reading, (const char *)&k, sizeof k, &error);
    check(error, "read");
    if (found == NULL)
        return 0;
    const char *value = rocksdb_pinnableslice_value(found, &bytes);
    if (bytes / sizeof *out > room)
        fail("RocksDB", "room");
    memcpy(out, value, bytes);
    rocksdb_pinnableslice_destroy(found);
    return bytes / sizeof *out;
}

static void drop_rocksdb(size_t key)
{
    uint64_t k = key_of(key);
    rocksdb_writebatch_delete(batch, (const char *)&k, sizeof k);
    if (rocksdb_writebatch_count(batch) >= BATCH)
        write_batch();
}

static void settle_rocksdb(void)
{
    char *error = NULL;
    write_batch();
    rocksdb_flush(db, flushing, &error);
    check(error, "flush");
    rocksdb_compact_range_opt(db, compacting, NULL, 0, NULL, 0);
}

/* The files of its tables. */
static uint64_t bytes_rocksdb(void)
{
    uint64_t bytes;
    if (rocksdb_property_int(db, "rocksdb.live-sst-files-size", &bytes) != 0)
        fail("RocksDB", "the size of its files");
    return bytes;
}

static void close_rocksdb(void)
{
    char *error = NULL;
    rocksdb_writebatch_destroy(batch);
    rocksdb_close(db);
    rocksdb_destroy_db(options, folder, &error);
    check(error, "destroy");
    rocksdb_options_destroy(options);
    rocksdb_writeoptions_destroy(writing);
    rocksdb_readoptions_destroy(reading);
    rocksdb_flushoptions_destroy(flushing);
    rocksdb_compactoptions_destroy(compacting);
}

const struct store rocksdb_store = {
    .name = "RocksDB", .open = open_plain, .load = extend_rocksdb, .extend = extend_rocksdb, .append = append_rocksdb, .read = read_rocksdb,
    .drop = drop_rocksdb, .settle = settle_rocksdb, .bytes = bytes_rocksdb, .close = close_rocksdb,
};

const struct store rocksdb_snappy_store = {
    .name = "RocksDB, Snappy", .open = open_snappy, .load = extend_rocksdb, .extend = extend_rocksdb, .append = append_rocksdb, .read = read_rocksdb,
    .drop = drop_rocksdb, .settle = settle_rocksdb, .bytes = bytes_rocksdb, .close = close_rocksdb,
};
