/* Two connections of one process, each in its own thread: the second gets SQLITE_BUSY, or waits if it has a timeout.
 *
 *     busy_test VFS URI
 *
 * The shell test compares its output with that of a run on a local file, for which VFS is `-`. */
#include <sqlite3.h>

#include <pthread.h>
#include <stdio.h>
#include <stdlib.h>
#include <string.h>
#include <unistd.h>

enum { ROUNDS = 200, HELD = 300000, PATIENCE = 20000 };

static const char *uri;

static _Noreturn void fail(const char *what, sqlite3 *database) {
    printf("%s: %s\n", what, database ? sqlite3_errmsg(database) : "");
    exit(1);
}

static sqlite3 *opened(void) {
    sqlite3 *database = NULL;
    if (sqlite3_open_v2(uri, &database, SQLITE_OPEN_READWRITE | SQLITE_OPEN_CREATE | SQLITE_OPEN_URI, NULL)
        != SQLITE_OK)
        fail("open", database);
    return database;
}

static void run(sqlite3 *database, const char *text) {
    if (sqlite3_exec(database, text, NULL, NULL, NULL) != SQLITE_OK)
        fail(text, database);
}

static int number_of(sqlite3 *database, const char *text) {
    sqlite3_stmt *query = NULL;
    if (sqlite3_prepare_v2(database, text, -1, &query, NULL) != SQLITE_OK || sqlite3_step(query) != SQLITE_ROW)
        fail(text, database);
    int number = sqlite3_column_int(query, 0);
    sqlite3_finalize(query);
    return number;
}

/* Adds to the counter in many transactions, and waits while the other connection writes. */
static void *add(void *unused) {
    sqlite3 *database = opened();
    sqlite3_busy_timeout(database, PATIENCE);
    for (int i = 0; i < ROUNDS; i++)
        run(database, "BEGIN IMMEDIATE; UPDATE counter SET n = n + 1; COMMIT");
    sqlite3_close(database);
    return unused;
}

/* Holds the lock for HELD microseconds, then commits. */
static void *hold(void *database) {
    usleep(HELD);
    run(database, "COMMIT");
    return NULL;
}

static void load(const char *vfs) {
    char *fault = NULL;
    sqlite3 *database = NULL;
    if (strcmp(vfs, "-") == 0)
        return;
    if (sqlite3_open(":memory:", &database) != SQLITE_OK || sqlite3_enable_load_extension(database, 1) != SQLITE_OK
        || sqlite3_load_extension(database, vfs, NULL, &fault) != SQLITE_OK)
        fail(fault ? fault : "load", NULL);
    sqlite3_close(database);
}

int main(int count, char **words) {
    pthread_t threads[2];
    if (count != 3)
        return 2;
    load(words[1]);
    uri = words[2];
    sqlite3 *first = opened(), *second = opened();
    run(first, "CREATE TABLE counter (n INTEGER); INSERT INTO counter VALUES (0)");

    run(first, "BEGIN IMMEDIATE; UPDATE counter SET n = 7");
    printf("while another connection writes: BUSY %d, it reads %d\n",
           sqlite3_exec(second, "BEGIN IMMEDIATE", NULL, NULL, NULL) == SQLITE_BUSY,
           number_of(second, "SELECT n FROM counter"));
    sqlite3_busy_timeout(second, PATIENCE);
    if (pthread_create(&threads[0], NULL, hold, first) != 0)
        return 1;
    run(second, "BEGIN IMMEDIATE; UPDATE counter SET n = n + 1; COMMIT");
    pthread_join(threads[0], NULL);
    printf("after waiting: %d\n", number_of(first, "SELECT n FROM counter"));

    for (int i = 0; i < 2; i++)
        if (pthread_create(&threads[i], NULL, add, NULL) != 0)
            return 1;
    for (int i = 0; i < 2; i++)
        pthread_join(threads[i], NULL);
    printf("two threads added: %d\n", number_of(first, "SELECT n FROM counter"));
    if (sqlite3_close(first) != SQLITE_OK || sqlite3_close(second) != SQLITE_OK)
        return 1;
    return 0;
}
