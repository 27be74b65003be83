/* The same work in SQLite, in memory: in one transaction, with one prepared statement for each kind of work. It prints the
   lines that the program prints, and last how many bytes the rows took. */
#include <sqlite3.h>
#include <stdio.h>
#include <stdlib.h>
#include <time.h>

enum { COUNT = 100000 };

static sqlite3 *db;

static double now(void) {
    struct timespec t;
    clock_gettime(CLOCK_MONOTONIC, &t);
    return t.tv_sec * 1e9 + t.tv_nsec;
}

static void tell(const char *what, long came, double start) {
    printf("%s %ld %.0f\n", what, came, now() - start);
}

static sqlite3_int64 id_at(unsigned i) { return (sqlite3_int64)i * 61803 % 100003; }

static unsigned number_at(unsigned i) { return i % 1000; }

static sqlite3_stmt *prepare(const char *sql) {
    sqlite3_stmt *s;
    if (sqlite3_prepare_v2(db, sql, -1, &s, 0) != SQLITE_OK) exit(1);
    return s;
}

/* Reads each row of a statement, answers how many there are, and adds their ids. */
static long read_all(sqlite3_stmt *s, long *ids) {
    long rows = 0;
    while (sqlite3_step(s) == SQLITE_ROW) {
        *ids += sqlite3_column_int64(s, 0);
        if (!sqlite3_column_blob(s, 1) || sqlite3_column_int64(s, 2) < 0) exit(1);
        rows++;
    }
    sqlite3_reset(s);
    return rows;
}

static void put_all(void) {
    sqlite3_stmt *s = prepare("INSERT INTO t VALUES (?, ?, ?)");
    double start = now();
    for (unsigned i = 0; i < COUNT; i++) {
        unsigned char code[4] = {i / 65536 % 256, i / 256 % 256, i % 256, 'x'};
        sqlite3_bind_int64(s, 1, id_at(i));
        sqlite3_bind_blob(s, 2, code, 4, SQLITE_TRANSIENT);
        sqlite3_bind_int64(s, 3, number_at(i));
        if (sqlite3_step(s) != SQLITE_DONE) exit(1);
        sqlite3_reset(s);
    }
    tell("put", COUNT, start);
}

static void look_up(void) {
    sqlite3_stmt *s = prepare("SELECT id, code, n FROM t WHERE id = ?");
    long ids = 0;
    double start = now();
    for (unsigned i = 0; i < COUNT; i++) {
        sqlite3_bind_int64(s, 1, id_at(i));
        read_all(s, &ids);
    }
    tell("look-up", ids, start);
}

static void walk(const char *what, const char *sql) {
    sqlite3_stmt *s = prepare(sql);
    long ids = 0;
    double start = now();
    read_all(s, &ids);
    tell(what, ids, start);
}

static void find_wholes(void) {
    sqlite3_stmt *s = prepare("SELECT id, code, n FROM t WHERE id = ? AND n = ?");
    long rows = 0, ids = 0;
    double start = now();
    for (unsigned i = 0; i < COUNT; i++) {
        sqlite3_bind_int64(s, 1, id_at(i));
        sqlite3_bind_int64(s, 2, number_at(i));
        rows += read_all(s, &ids);
    }
    tell("find", rows, start);
}

static void find_ranges(void) {
    sqlite3_stmt *s = prepare("SELECT id, code, n FROM t WHERE id >= ? ORDER BY id LIMIT 10");
    long rows = 0, ids = 0;
    double start = now();
    for (unsigned i = 0; i < COUNT; i++) {
        sqlite3_bind_int64(s, 1, id_at(i));
        rows += read_all(s, &ids);
    }
    tell("range-of-10", rows, start);
}

static void add(void) {
    sqlite3_stmt *s = prepare("UPDATE t SET n = n + ? WHERE id = ?");
    long rows = 0;
    double start = now();
    for (unsigned i = 0; i < COUNT; i++) {
        sqlite3_bind_int64(s, 1, 1);
        sqlite3_bind_int64(s, 2, id_at(i));
        if (sqlite3_step(s) != SQLITE_DONE) exit(1);
        rows += sqlite3_changes(db);
        sqlite3_reset(s);
    }
    tell("addition", rows, start);
}

int main(void) {
    if (sqlite3_open(":memory:", &db) != SQLITE_OK) return 1;
    if (sqlite3_exec(db,
                     "CREATE TABLE t (id INTEGER NOT NULL, code BLOB, n INTEGER NOT NULL, PRIMARY KEY (id, n)) WITHOUT ROWID;"
                     "CREATE UNIQUE INDEX by_code ON t (code); CREATE INDEX by_n ON t (n); BEGIN",
                     0, 0, 0) != SQLITE_OK)
        return 1;
    sqlite3_int64 before = sqlite3_memory_used();
    put_all();
    sqlite3_int64 bytes = sqlite3_memory_used() - before;
    look_up();
    walk("step-of-index-0", "SELECT id, code, n FROM t ORDER BY id, n");
    walk("step-of-index-1", "SELECT id, code, n FROM t INDEXED BY by_code ORDER BY code");
    walk("step-of-index-2", "SELECT id, code, n FROM t INDEXED BY by_n ORDER BY n");
    find_wholes();
    find_ranges();
    add();
    printf("memory-of-a-row %d %lld\n", COUNT, (long long)bytes);
    return 0;
}
