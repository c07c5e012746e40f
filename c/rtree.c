/* SQLite's R*Tree in memory on the desk's benchmark: reads its calls (records, one after the other) from standard input and prints nanoseconds a
 * report and a range. A range's east and north edges are outside, as the desk has them, but for an edge of 65,535: that one is lent as 65,536. Minutes are
 * passed over: in the benchmark no place grows too old. */
#define _POSIX_C_SOURCE 199309L
#include <sqlite3.h>
#include <stdint.h>
#include <stdio.h>
#include <stdlib.h>
#include <time.h>

static void need(int good, sqlite3 *db)
{
    if (!good) {
        fprintf(stderr, "rtree: %s\n", db ? sqlite3_errmsg(db) : "the calls end early");
        exit(1);
    }
}

static sqlite3_stmt *prepare(sqlite3 *db, const char *sql)
{
    sqlite3_stmt *statement;
    need(sqlite3_prepare_v2(db, sql, -1, &statement, NULL) == SQLITE_OK, db);
    return statement;
}

static uint64_t now(void)
{
    struct timespec t;
    clock_gettime(CLOCK_MONOTONIC, &t);
    return (uint64_t)t.tv_sec * 1000000000u + (uint64_t)t.tv_nsec;
}

int main(void)
{
    sqlite3 *db;
    need(sqlite3_open(":memory:", &db) == SQLITE_OK, db);
    need(sqlite3_exec(db, "CREATE VIRTUAL TABLE places USING rtree_i32(radio, west, east, south, north)", NULL, NULL, NULL) == SQLITE_OK, db);
    sqlite3_stmt *put = prepare(db, "INSERT OR REPLACE INTO places VALUES (?1, ?2, ?2, ?3, ?3)");
    sqlite3_stmt *find = prepare(db, "SELECT radio, west, south FROM places WHERE west >= ?1 AND east < ?2 AND south >= ?3 AND north < ?4 ORDER BY radio");

    uint64_t spent[5] = {0}, calls[5] = {0}, found = 0;
    uint8_t head[4];
    while (fread(head, 1, 4, stdin) == 4) {
        unsigned length = head[0] + 256u * head[1], kind = head[2] + 256u * head[3];
        uint8_t body[12]; /* the fields, and the minute's four bytes */
        need((kind == 1 || kind == 2 || kind == 4) && length >= 8 && length <= 16 && fread(body, 1, length - 4, stdin) == length - 4, NULL);
        sqlite3_stmt *statement = kind == 4 ? find : put;
        uint64_t start = now();
        for (unsigned i = 0; i < (length - 8) / 2; i++) {
            int field = body[2 * i] + 256 * body[2 * i + 1];
            int last = kind == 4 && i % 2 == 1 && field == 65535;
            sqlite3_bind_int(statement, (int)i + 1, field + last);
        }
        int step;
        while ((step = sqlite3_step(statement)) == SQLITE_ROW)
            found += sqlite3_column_int(statement, 0) > 0;
        need(step == SQLITE_DONE, db);
        sqlite3_reset(statement);
        spent[kind] += now() - start;
        calls[kind]++;
    }
    need(calls[2] > 0 && calls[4] > 0 && found > 0, NULL);
    printf("rtree-report %llu\n", (unsigned long long)(spent[2] / calls[2]));
    printf("rtree-range %llu\n", (unsigned long long)(spent[4] / calls[4]));
    return 0;
}
