/* Answers queries over a file of tables by SQLite, a line of JSON for each line: the number of a statement, a space and what its
 * parameters are. The statements come first, one a line, until an empty line. It keeps a copy of the tables in memory, and sends each
 * answer on at once. With `wal` behind the file it works over the file itself, where others may be at work, by a write-ahead log that
 * is synced at each change, and sends its answers on at each empty line. Nothing here is part of the program. */
#include <sqlite3.h>
#include <stdio.h>
#include <stdlib.h>
#include <string.h>

enum { MOST = 16, ROOM = 4096 };

static void check(int code, sqlite3 *base, int wanted) {
    if (code != wanted) {
        fprintf(stderr, "sqlite_pipe: %s\n", sqlite3_errmsg(base));
        exit(1);
    }
}

static void print_text(const unsigned char *text) {
    putchar('"');
    for (; *text; text++) {
        if (*text == '"' || *text == '\\') putchar('\\');
        putchar(*text);
    }
    putchar('"');
}

static void print_row(sqlite3_stmt *statement) {
    int columns = sqlite3_column_count(statement);
    putchar('{');
    for (int at = 0; at < columns; at++) {
        if (at) putchar(',');
        printf("\"%s\":", sqlite3_column_name(statement, at));
        if (sqlite3_column_type(statement, at) == SQLITE_INTEGER)
            printf("%lld", (long long)sqlite3_column_int64(statement, at));
        else if (sqlite3_column_type(statement, at) == SQLITE_NULL)
            printf("null");
        else
            print_text(sqlite3_column_text(statement, at));
    }
    putchar('}');
}

static void answer(sqlite3 *base, sqlite3_stmt *statement, const char *given) {
    if (sqlite3_bind_parameter_count(statement) > 0)
        check(sqlite3_bind_text(statement, 1, given, -1, SQLITE_TRANSIENT), base, SQLITE_OK);
    printf("{\"result\":[");
    for (int row = 0; ; row++) {
        int code = sqlite3_step(statement);
        if (code == SQLITE_DONE) break;
        check(code, base, SQLITE_ROW);
        if (row) putchar(',');
        print_row(statement);
    }
    printf("]}\n");
    sqlite3_reset(statement);
}

static sqlite3 *opened(const char *path) {
    sqlite3 *file;
    check(sqlite3_open(path, &file), file, SQLITE_OK);
    return file;
}

/* A copy of the tables in memory. */
static sqlite3 *copied(const char *path) {
    sqlite3 *file = opened(path), *base = opened(":memory:");
    sqlite3_backup *copy = sqlite3_backup_init(base, "main", file, "main");
    if (!copy) check(SQLITE_ERROR, base, SQLITE_OK);
    check(sqlite3_backup_step(copy, -1), base, SQLITE_DONE);
    sqlite3_backup_finish(copy);
    sqlite3_close(file);
    return base;
}

/* The file itself. */
static sqlite3 *shared(const char *path) {
    sqlite3 *base = opened(path);
    sqlite3_busy_timeout(base, 10000);
    check(sqlite3_exec(base, "pragma journal_mode = wal; pragma synchronous = full", NULL, NULL, NULL), base, SQLITE_OK);
    return base;
}

int main(int count, char **words) {
    static char line[ROOM];
    sqlite3_stmt *statements[MOST];
    int many = 0, in_rounds = count == 3 && !strcmp(words[2], "wal");
    if (count != 2 && !in_rounds) return 2;
    sqlite3 *base = in_rounds ? shared(words[1]) : copied(words[1]);
    while (fgets(line, ROOM, stdin) && line[0] != '\n' && many < MOST)
        check(sqlite3_prepare_v2(base, line, -1, &statements[many++], NULL), base, SQLITE_OK);
    while (fgets(line, ROOM, stdin)) {
        if (in_rounds && line[0] == '\n') {
            fflush(stdout);
            continue;
        }
        char *given = strchr(line, ' ');
        int number = atoi(line);
        line[strcspn(line, "\n")] = 0;
        if (!given || number < 0 || number >= many) return 2;
        answer(base, statements[number], given + 1);
        if (!in_rounds) fflush(stdout);
    }
    return 0;
}
