/* LMDB at its fastest: a file in memory, no synchronizing, one transaction a phase, numbers as sorted duplicates of fixed size. */
#include <lmdb.h>
#include <stdio.h>
#include <stdlib.h>
#include <string.h>
#include <sys/stat.h>
#include <unistd.h>
#include "store.h"

#define MAP_BYTES ((size_t)4 << 30)

static char folder[] = "/dev/shm/ouriscado-lmdb-XXXXXX";
static MDB_env *env;
static MDB_txn *txn;
static MDB_dbi dbi;
static MDB_cursor *cursor;

static void check(int code, const char *what)
{
    if (code != 0)
        fail("LMDB", what);
}

static void begin(void)
{
    check(mdb_txn_begin(env, NULL, 0, &txn), "begin");
}

static void open_lmdb(size_t keys, size_t numbers)
{
    (void)keys, (void)numbers;
    strcpy(folder + sizeof folder - 7, "XXXXXX");
    if (mkdtemp(folder) == NULL)
        fail("LMDB", "a folder in /dev/shm");
    check(mdb_env_create(&env), "create");
    check(mdb_env_set_mapsize(env, MAP_BYTES), "size");
    check(mdb_env_open(env, folder, MDB_WRITEMAP | MDB_NOSYNC | MDB_NOMETASYNC | MDB_MAPASYNC | MDB_NOLOCK | MDB_NOMEMINIT, 0600), "open");
    begin();
    check(mdb_dbi_open(txn, NULL, MDB_CREATE | MDB_INTEGERKEY | MDB_DUPSORT | MDB_DUPFIXED | MDB_INTEGERDUP, &dbi), "table");
    check(mdb_cursor_open(txn, dbi, &cursor), "cursor");
}

static MDB_val key_of(size_t *key)
{
    return (MDB_val){sizeof *key, key};
}

static void load_lmdb(size_t key, const uint64_t *numbers, size_t count)
{
    MDB_val k = key_of(&key), data[2] = {{sizeof *numbers, (void *)numbers}, {count, NULL}};
    check(mdb_cursor_put(cursor, &k, data, MDB_MULTIPLE | MDB_APPENDDUP), "load");
}

static void append_lmdb(size_t key, uint64_t number)
{
    MDB_val k = key_of(&key), data = {sizeof number, &number};
    check(mdb_cursor_put(cursor, &k, &data, MDB_APPENDDUP), "append");
}

/* What a cursor's values hold, a page of them at a time. */
static size_t read_lmdb(size_t key, uint64_t *out, size_t room)
{
    MDB_val k = key_of(&key), data;
    size_t count = 0;
    int code = mdb_cursor_get(cursor, &k, &data, MDB_SET);
    if (code == MDB_NOTFOUND)
        return 0;
    check(code, "find");
    for (code = mdb_cursor_get(cursor, &k, &data, MDB_GET_MULTIPLE); code == 0; code = mdb_cursor_get(cursor, &k, &data, MDB_NEXT_MULTIPLE)) {
        if (room - count < data.mv_size / sizeof *out)
            fail("LMDB", "room");
        memcpy(out + count, data.mv_data, data.mv_size);
        count += data.mv_size / sizeof *out;
    }
    if (code != MDB_NOTFOUND)
        check(code, "read");
    return count;
}

static void drop_lmdb(size_t key)
{
    MDB_val k = key_of(&key);
    int code = mdb_del(txn, dbi, &k, NULL);
    if (code != MDB_NOTFOUND)
        check(code, "drop");
}

static void settle_lmdb(void)
{
    mdb_cursor_close(cursor);
    check(mdb_txn_commit(txn), "commit");
    begin();
    check(mdb_cursor_open(txn, dbi, &cursor), "cursor");
}

/* The pages that the environment uses. */
static uint64_t bytes_lmdb(void)
{
    MDB_envinfo info;
    MDB_stat stat;
    check(mdb_env_info(env, &info), "info");
    check(mdb_env_stat(env, &stat), "stat");
    return (uint64_t)(info.me_last_pgno + 1) * stat.ms_psize;
}

static void close_lmdb(void)
{
    char path[sizeof folder + 16];
    mdb_cursor_close(cursor);
    mdb_txn_abort(txn);
    mdb_env_close(env);
    snprintf(path, sizeof path, "%s/data.mdb", folder);
    unlink(path);
    rmdir(folder);
}

const struct store lmdb_store = {
    .name = "LMDB", .open = open_lmdb, .load = load_lmdb, .extend = load_lmdb, .append = append_lmdb, .read = read_lmdb,
    .drop = drop_lmdb, .settle = settle_lmdb, .bytes = bytes_lmdb, .close = close_lmdb,
};
