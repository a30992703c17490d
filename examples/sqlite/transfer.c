/* A workload for the crash test, over SQLite's library: transfers between accounts, each a transaction.
 *
 *     transfer VFS URI WRITER NOTES MODE [PAUSE]
 *
 * The mode `check` makes SQLite's integrity check, and checks the sum of all accounts, each account against its
 * transfers, and that each commit of NOTES is there. If all are right it prints `checked N`, the number of transfers.
 * The mode `write` does the same, then commits transfers until standard input ends, and appends each commit that
 * SQLite acknowledged to NOTES as `WRITER NUMBER`. PAUSE is the milliseconds between two transfers. Exits with 0 if
 * all is well, with 3 if SQLite refused a statement or commit (for example of a fenced writer), and with 1 if
 * something is wrong. */
#include <sqlite3.h>

#include <fcntl.h>
#include <poll.h>
#include <stdarg.h>
#include <stdbool.h>
#include <stdint.h>
#include <stdio.h>
#include <stdlib.h>
#include <string.h>
#include <unistd.h>

enum { ACCOUNTS = 40, EACH = 1000, REFUSED = 3, WRONG = 1 };

static sqlite3 *database;
static const char *writer;
static uint64_t state;

static _Noreturn void end(int status, const char *format, ...) {
    char line[300];
    va_list given;
    va_start(given, format);
    vsnprintf(line, sizeof line, format, given);
    va_end(given);
    printf("writer %s: %s\n", writer, line);
    fflush(stdout);
    _exit(status); /* closes nothing, like a killed process */
}

static uint32_t next_random(void) {
    state ^= state << 13;
    state ^= state >> 7;
    state ^= state << 17;
    return (uint32_t)(state >> 20);
}

/* Exits after an error of SQLite: a corrupt database or a wrong statement is WRONG, all else REFUSED. */
static _Noreturn void refused(const char *what) {
    int code = sqlite3_errcode(database), more = sqlite3_extended_errcode(database);
    bool corrupt = code == SQLITE_CORRUPT || code == SQLITE_NOTADB || code == SQLITE_ERROR;
    end(corrupt ? WRONG : REFUSED, "%.60s: %d %s", what, more, sqlite3_errmsg(database));
}

/* Runs a statement; exits if SQLite refuses it. */
static void run(const char *text) {
    if (sqlite3_exec(database, text, NULL, NULL, NULL) != SQLITE_OK)
        refused(text);
}

/* Returns a query's number. */
static long long number_of(const char *text) {
    sqlite3_stmt *query = NULL;
    if (sqlite3_prepare_v2(database, text, -1, &query, NULL) != SQLITE_OK || sqlite3_step(query) != SQLITE_ROW)
        refused(text);
    long long number = sqlite3_column_int64(query, 0);
    sqlite3_finalize(query);
    return number;
}

static void check_integrity(void) {
    sqlite3_stmt *query = NULL;
    if (sqlite3_prepare_v2(database, "PRAGMA integrity_check", -1, &query, NULL) != SQLITE_OK
        || sqlite3_step(query) != SQLITE_ROW)
        refused("integrity");
    const char *answer = (const char *)sqlite3_column_text(query, 0);
    if (!answer || strcmp(answer, "ok") != 0)
        end(WRONG, "integrity: %s", answer ? answer : "no answer");
    sqlite3_finalize(query);
}

/* Checks that the database has each noted commit; returns their number. */
static long long check_notes(const char *notes) {
    FILE *file = fopen(notes, "r");
    char line[100];
    long long count = 0;
    sqlite3_stmt *query = NULL;
    if (sqlite3_prepare_v2(database, "SELECT 1 FROM transfers WHERE writer = ? AND number = ?", -1, &query, NULL)
        != SQLITE_OK)
        refused("the notes");
    while (file && fgets(line, sizeof line, file)) {
        int who = 0;
        long long number = 0;
        if (sscanf(line, "%d %lld", &who, &number) != 2)
            end(WRONG, "a note that can't be read: %s", line);
        sqlite3_bind_int(query, 1, who);
        sqlite3_bind_int64(query, 2, number);
        int code = sqlite3_step(query);
        if (code != SQLITE_ROW && code != SQLITE_DONE)
            refused("a note");
        if (code == SQLITE_DONE)
            end(WRONG, "LOST: commit %lld of writer %d was acknowledged and isn't there", number, who);
        sqlite3_reset(query);
        count++;
    }
    sqlite3_finalize(query);
    if (file)
        fclose(file);
    return count;
}

static void check(const char *notes) {
    check_integrity();
    long long sum = number_of("SELECT sum(amount) FROM accounts");
    if (sum != ACCOUNTS * EACH)
        end(WRONG, "the sum of all accounts is %lld, not %d", sum, ACCOUNTS * EACH);
    long long wrong = number_of("SELECT count(*) FROM accounts a WHERE amount != 1000"
                                " - (SELECT total(amount) FROM transfers WHERE source = a.id)"
                                " + (SELECT total(amount) FROM transfers WHERE target = a.id)");
    if (wrong != 0)
        end(WRONG, "%lld accounts aren't as their transfers make them", wrong);
    long long noted = check_notes(notes);
    printf("checked %lld transfers, %lld noted\n", number_of("SELECT count(*) FROM transfers"), noted);
    fflush(stdout);
}

static void make_tables(void) {
    char text[200];
    run("BEGIN IMMEDIATE");
    run("CREATE TABLE IF NOT EXISTS accounts (id INTEGER PRIMARY KEY, amount INTEGER)");
    run("CREATE TABLE IF NOT EXISTS transfers (writer INTEGER, number INTEGER, source INTEGER, target INTEGER,"
        " amount INTEGER, PRIMARY KEY (writer, number)) WITHOUT ROWID");
    if (number_of("SELECT count(*) FROM accounts") == 0)
        for (int id = 0; id < ACCOUNTS; id++) {
            snprintf(text, sizeof text, "INSERT INTO accounts VALUES (%d, %d)", id, EACH);
            run(text);
        }
    run("COMMIT");
}

static void transfer(long long number) {
    char text[300];
    unsigned source = next_random() % ACCOUNTS, target = next_random() % ACCOUNTS, amount = next_random() % 100;
    run("BEGIN IMMEDIATE");
    snprintf(text, sizeof text, "UPDATE accounts SET amount = amount - %u WHERE id = %u", amount, source);
    run(text);
    snprintf(text, sizeof text, "UPDATE accounts SET amount = amount + %u WHERE id = %u", amount, target);
    run(text);
    snprintf(text, sizeof text, "INSERT INTO transfers VALUES (%s, %lld, %u, %u, %u)", writer, number, source, target,
             amount);
    run(text);
    run("COMMIT");
}

/* Commits transfers, and notes each, until standard input ends. */
static void write_all(const char *notes, int pause) {
    int fd = open(notes, O_WRONLY | O_CREAT | O_APPEND | O_CLOEXEC, 0644);
    struct pollfd input = {.fd = 0, .events = POLLIN};
    if (fd < 0)
        end(WRONG, "%s can't be written", notes);
    for (long long number = 1; poll(&input, 1, pause) == 0; number++) {
        char line[60];
        transfer(number);
        int length = snprintf(line, sizeof line, "%s %lld\n", writer, number);
        if (write(fd, line, (size_t)length) != length)
            end(WRONG, "%s can't be written", notes);
    }
    close(fd);
}

int main(int count, char **words) {
    char *fault = NULL;
    sqlite3 *first = NULL;
    if (count < 6)
        return 2;
    writer = words[3];
    state = 88172645463325252u + strtoull(writer, NULL, 10) * 7919;
    if (sqlite3_open(":memory:", &first) != SQLITE_OK || sqlite3_enable_load_extension(first, 1) != SQLITE_OK
        || sqlite3_load_extension(first, words[1], NULL, &fault) != SQLITE_OK)
        end(WRONG, "%s", fault ? fault : "no SQLite");
    sqlite3_close(first);
    if (sqlite3_open_v2(words[2], &database, SQLITE_OPEN_READWRITE | SQLITE_OPEN_CREATE | SQLITE_OPEN_URI, NULL)
        != SQLITE_OK)
        refused("open");
    make_tables();
    check(words[4]);
    if (strcmp(words[5], "write") == 0)
        write_all(words[4], count > 6 ? atoi(words[6]) : 0);
    return sqlite3_close(database) == SQLITE_OK ? 0 : WRONG;
}
