/* Measures updates in this process, each with one firing: by the library, and by a prepared statement of sqlite3 whose
   trigger does the same. Both write the same rows. Made and read by in_process.py.

   in_process SCRIPT SQL TIMES COUNT NOTATION    prints for each time two numbers: nanoseconds an update, hipac's and
                                                 sqlite3's */
#define _POSIX_C_SOURCE 200809L
#include "hipac.h"
#include <sqlite3.h>
#include <stdio.h>
#include <stdlib.h>
#include <string.h>
#include <time.h>

static double now(void) {
    struct timespec time;
    clock_gettime(CLOCK_MONOTONIC, &time);
    return time.tv_sec * 1e9 + time.tv_nsec;
}

static void check(int is_so, const char *what) {
    if (!is_so)
        exit((fprintf(stderr, "in_process: %s\n", what), 1));
}

static char script[1 << 20];
static hipac_base base = HIPAC_NONE;
static sqlite3 *store;
static sqlite3_stmt *statement;

/* This and by_sqlite aren't inlined, so that callgrind can count what runs inside each. */
__attribute__((noinline)) static double by_hipac(long first, long count, int is_text) {
    char line[200];
    const uint8_t *answer;
    size_t length;
    double begun = now();
    for (long number = first; number < first + count; number++) {
        int size = sprintf(line, is_text ? "transaction { update acct(1) set bal = %ld }"
                                         : "[\"tx\",[[\"update\",\"acct\",1,[[\"bal\",%ld]]]]]", number);
        check(hipac_line(&base, (const uint8_t *)line, size, &answer, &length) == HIPAC_OK, "a line");
    }
    return (now() - begun) / count;
}

__attribute__((noinline)) static double by_sqlite(long first, long count) {
    double begun = now();
    for (long number = first; number < first + count; number++) {
        check(sqlite3_bind_int64(statement, 1, number) == SQLITE_OK, "a value");
        check(sqlite3_step(statement) == SQLITE_DONE, "a step");
        check(sqlite3_reset(statement) == SQLITE_OK, "a reset");
    }
    return (now() - begun) / count;
}

/* Both have the sum of all updates: the last balance. */
static void check_sum(long last) {
    char wanted[100];
    const uint8_t *answer;
    size_t length;
    sqlite3_stmt *query;
    int size = sprintf(wanted, "object seen 1 sum=%ld\n", last);
    check(hipac_get(&base, (const uint8_t *)"seen", 4, 1, &answer, &length) == HIPAC_OK, "get");
    check(length > (size_t)size && !memcmp(answer, wanted, size), "hipac's sum");
    check(sqlite3_prepare_v2(store, "select sum from seen", -1, &query, NULL) == SQLITE_OK, "the query");
    check(sqlite3_step(query) == SQLITE_ROW && sqlite3_column_int64(query, 0) == last, "sqlite3's sum");
    sqlite3_finalize(query);
}

int main(int count, char **words) {
    check(count == 6, "usage: in_process SCRIPT SQL TIMES COUNT NOTATION");
    const uint8_t *answer;
    size_t length, size;
    long times = atol(words[3]), each = atol(words[4]);
    int is_text = !strcmp(words[5], "text");
    FILE *file = fopen(words[1], "rb");
    check(!!file, "the script");
    size = fread(script, 1, sizeof script, file);
    fclose(file);
    check(hipac_open((const uint8_t *)script, size, is_text ? HIPAC_TEXT : 0, &base, &answer, &length) == HIPAC_OK, "open");
    check(sqlite3_open(":memory:", &store) == SQLITE_OK, "sqlite3");
    check(sqlite3_exec(store, words[2], NULL, NULL, NULL) == SQLITE_OK, "the tables");
    check(sqlite3_prepare_v2(store, "update acct set bal = ? where id = 1", -1, &statement, NULL) == SQLITE_OK, "update");
    for (long at = 0; at < times; at++) {
        double ours = by_hipac(at * each + 1, each, is_text);
        double theirs = by_sqlite(at * each + 1, each);
        printf("%.1f %.1f\n", ours, theirs);
    }
    check_sum(times * each);
    sqlite3_finalize(statement);
    sqlite3_close(store);
    hipac_close(&base);
    return 0;
}
