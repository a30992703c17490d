/* Measures commits: prints how many this process makes a second, and its processor time for each.
 *
 *     commits VFS URI ROWS COMMITS [JOURNAL_MODE]
 *
 * Each commit inserts ROWS rows of some 40 bytes. VFS is `-` for a local file, which also has pages of 512 bytes. */
#include <sqlite3.h>

#include <stdio.h>
#include <stdlib.h>
#include <string.h>
#include <sys/resource.h>
#include <time.h>

static sqlite3 *database;

static _Noreturn void fail(const char *what) {
    fprintf(stderr, "commits: %s: %s\n", what, database ? sqlite3_errmsg(database) : "");
    exit(1);
}

static void run(const char *text) {
    if (sqlite3_exec(database, text, NULL, NULL, NULL) != SQLITE_OK)
        fail(text);
}

static double seconds(void) {
    struct timespec time;
    clock_gettime(CLOCK_MONOTONIC, &time);
    return (double)time.tv_sec + (double)time.tv_nsec / 1e9;
}

static double processor_seconds(void) {
    struct rusage used;
    getrusage(RUSAGE_SELF, &used);
    return (double)(used.ru_utime.tv_sec + used.ru_stime.tv_sec)
        + (double)(used.ru_utime.tv_usec + used.ru_stime.tv_usec) / 1e6;
}

static void load(const char *vfs) {
    char *fault = NULL;
    sqlite3 *first = NULL;
    if (strcmp(vfs, "-") == 0)
        return;
    if (sqlite3_open(":memory:", &first) != SQLITE_OK || sqlite3_enable_load_extension(first, 1) != SQLITE_OK
        || sqlite3_load_extension(first, vfs, NULL, &fault) != SQLITE_OK)
        fail(fault ? fault : "no SQLite");
    sqlite3_close(first);
}

static void commit(sqlite3_stmt *insert, int rows) {
    run("BEGIN");
    for (int row = 0; row < rows; row++) {
        if (sqlite3_step(insert) != SQLITE_DONE)
            fail("insert");
        sqlite3_reset(insert);
    }
    run("COMMIT");
}

int main(int count, char **words) {
    sqlite3_stmt *insert = NULL;
    if (count != 5 && count != 6)
        return 2;
    int rows = atoi(words[3]), commits = atoi(words[4]);
    load(words[1]);
    if (sqlite3_open_v2(words[2], &database, SQLITE_OPEN_READWRITE | SQLITE_OPEN_CREATE | SQLITE_OPEN_URI, NULL)
        != SQLITE_OK)
        fail("open");
    run("PRAGMA page_size = 512; PRAGMA synchronous = FULL");
    if (count == 6) {
        char text[60];
        snprintf(text, sizeof text, "PRAGMA journal_mode = %s", words[5]);
        run(text);
    }
    run("CREATE TABLE IF NOT EXISTS rows (id INTEGER PRIMARY KEY, text TEXT)");
    if (sqlite3_prepare_v2(database, "INSERT INTO rows (text) VALUES (hex(randomblob(18)))", -1, &insert, NULL)
        != SQLITE_OK)
        fail("prepare");
    commit(insert, rows);
    double began = seconds(), used = processor_seconds();
    for (int i = 0; i < commits; i++)
        commit(insert, rows);
    double took = seconds() - began;
    used = processor_seconds() - used;
    printf("%.1f commits a second, %.3f ms each, %.3f ms of this processor\n", commits / took, took * 1e3 / commits,
           used * 1e3 / commits);
    sqlite3_finalize(insert);
    return sqlite3_close(database) == SQLITE_OK ? 0 : 1;
}
