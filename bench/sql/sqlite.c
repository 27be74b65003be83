/* The same texts, each made ready 100,000 times by sqlite3_prepare_v2 and let go again. It prints the lines that the program
   prints. */
#include <sqlite3.h>
#include <stdio.h>
#include <time.h>

enum { COUNT = 100000 };

static const char *const lines[3][2] = {
    {"select", "SELECT id, name, n FROM t WHERE id = 12345"},
    {"update", "UPDATE t SET n = n + 1, name = 'ann' WHERE id = 12345"},
    {"insert", "INSERT INTO t (id, name, n) VALUES (12345, 'ann', 7)"},
};

static double now(void) {
    struct timespec t;
    clock_gettime(CLOCK_MONOTONIC, &t);
    return t.tv_sec * 1e9 + t.tv_nsec;
}

int main(void) {
    sqlite3 *db;
    if (sqlite3_open(":memory:", &db) != SQLITE_OK) return 1;
    if (sqlite3_exec(db, "CREATE TABLE t (id INTEGER PRIMARY KEY, name BLOB, n INTEGER)", 0, 0, 0) != SQLITE_OK) return 1;
    for (int which = 0; which < 3; which++) {
        int read = 0;
        double start = now();
        for (int i = 0; i < COUNT; i++) {
            sqlite3_stmt *s;
            if (sqlite3_prepare_v2(db, lines[which][1], -1, &s, 0) == SQLITE_OK) read++;
            sqlite3_finalize(s);
        }
        printf("%s %d %.0f\n", lines[which][0], read, now() - start);
    }
    sqlite3_close(db);
    return 0;
}
