/* SQLite at its fastest: a database in memory, no journal, one transaction a phase, a table without row numbers, prepared statements. */
#include <sqlite3.h>
#include "store.h"

static sqlite3 *db;
static sqlite3_stmt *insert, *select_list, *delete_list;

static void check(int code, const char *what)
{
    if (code != SQLITE_OK && code != SQLITE_DONE)
        fail("SQLite", what);
}

static void run(const char *sql)
{
    check(sqlite3_exec(db, sql, NULL, NULL, NULL), sql);
}

static void prepare(const char *sql, sqlite3_stmt **statement)
{
    check(sqlite3_prepare_v3(db, sql, -1, SQLITE_PREPARE_PERSISTENT, statement, NULL), sql);
}

static void open_sqlite(size_t keys, size_t numbers)
{
    (void)keys, (void)numbers;
    check(sqlite3_open(":memory:", &db), "open");
    run("PRAGMA journal_mode = OFF; PRAGMA synchronous = OFF; PRAGMA locking_mode = EXCLUSIVE; PRAGMA page_size = 4096");
    run("CREATE TABLE list (key INTEGER, number INTEGER, PRIMARY KEY (key, number)) WITHOUT ROWID");
    prepare("INSERT INTO list VALUES (?1, ?2)", &insert);
    prepare("SELECT number FROM list WHERE key = ?1 ORDER BY number", &select_list);
    prepare("DELETE FROM list WHERE key = ?1", &delete_list);
    run("BEGIN");
}

static void append_sqlite(size_t key, uint64_t number)
{
    sqlite3_bind_int64(insert, 1, (sqlite3_int64)key);
    sqlite3_bind_int64(insert, 2, (sqlite3_int64)number);
    check(sqlite3_step(insert), "insert");
    sqlite3_reset(insert);
}

static void load_sqlite(size_t key, const uint64_t *numbers, size_t count)
{
    for (size_t k = 0; k < count; k++)
        append_sqlite(key, numbers[k]);
}

static size_t read_sqlite(size_t key, uint64_t *out, size_t room)
{
    size_t count = 0;
    int code;
    sqlite3_bind_int64(select_list, 1, (sqlite3_int64)key);
    for (code = sqlite3_step(select_list); code == SQLITE_ROW; code = sqlite3_step(select_list)) {
        if (count == room)
            fail("SQLite", "room");
        out[count++] = (uint64_t)sqlite3_column_int64(select_list, 0);
    }
    check(code, "select");
    sqlite3_reset(select_list);
    return count;
}

static void drop_sqlite(size_t key)
{
    sqlite3_bind_int64(delete_list, 1, (sqlite3_int64)key);
    check(sqlite3_step(delete_list), "delete");
    sqlite3_reset(delete_list);
}

static void settle_sqlite(void)
{
    run("COMMIT; BEGIN");
}

static uint64_t bytes_sqlite(void)
{
    sqlite3_stmt *count;
    prepare("PRAGMA page_count", &count);
    if (sqlite3_step(count) != SQLITE_ROW)
        fail("SQLite", "page count");
    uint64_t pages = (uint64_t)sqlite3_column_int64(count, 0);
    sqlite3_finalize(count);
    return 4096 * pages;
}

static void close_sqlite(void)
{
    sqlite3_finalize(insert);
    sqlite3_finalize(select_list);
    sqlite3_finalize(delete_list);
    sqlite3_close(db);
}

const struct store sqlite_store = {
    .name = "SQLite", .open = open_sqlite, .load = load_sqlite, .extend = load_sqlite, .append = append_sqlite, .read = read_sqlite,
    .drop = drop_sqlite, .settle = settle_sqlite, .bytes = bytes_sqlite, .close = close_sqlite,
};
