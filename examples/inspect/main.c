/*
** Records changes with SQLite's session extension, looks into the changeset with Vollikash, inverts it, and lets SQLite
** apply the inverse.
**
**     cc -DSQLITE_ENABLE_SESSION -DSQLITE_ENABLE_PREUPDATE_HOOK -Ibindings/c examples/inspect/main.c \
**         bindings/c/out/libvollikash.a -lsqlite3 -o inspect
*/
#include <sqlite3.h>
#include <stdio.h>
#include <stdlib.h>

#include "vollikash.h"

/* The columns of the table, and more. */
enum { COLUMNS = 16 };

/* Ends the program if a call of SQLite fails. */
static void expect(int code, sqlite3 *db)
{
    if (code != SQLITE_OK) {
        fprintf(stderr, "SQLite: %s\n", db == NULL ? sqlite3_errstr(code) : sqlite3_errmsg(db));
        exit(1);
    }
}

/* Ends the program if a call of Vollikash fails. */
static void expect_file(int code, const struct vollikash_fault *fault)
{
    char text[VOLLIKASH_MESSAGE_ROOM];
    size_t written;
    if (code != VOLLIKASH_OK) {
        vollikash_message(code, text, sizeof text, &written);
        fprintf(stderr, "Vollikash: %s, at byte %zu\n", text, fault->place);
        exit(1);
    }
}

static int print_row(void *unused, int columns, char **values, char **names)
{
    (void)unused;
    for (int column = 0; column < columns; column++) {
        printf("%s%s %s", column == 0 ? "  " : ", ", names[column], values[column] == NULL ? "NULL" : values[column]);
    }
    printf("\n");
    return 0;
}

static void print_rows(sqlite3 *db)
{
    expect(sqlite3_exec(db, "SELECT id, name, stock FROM parts ORDER BY id", print_row, NULL, NULL), db);
}

static void print_value(const uint8_t *file, const struct vollikash_field *value)
{
    switch (value->kind) {
    case VOLLIKASH_INTEGER:
        printf(" %lld", (long long)value->integer);
        break;
    case VOLLIKASH_TEXT:
        printf(" '%.*s'", (int)value->length, (const char *)vollikash_bytes(file, value));
        break;
    case VOLLIKASH_BLOB:
        printf(" a blob of %zu bytes", value->length);
        break;
    case VOLLIKASH_NULL:
        printf(" NULL");
        break;
    default:
        printf(" .");
    }
}

static void print_side(const uint8_t *file, size_t length, const struct vollikash_change *change, int side)
{
    struct vollikash_field values[COLUMNS];
    if (vollikash_values(file, length, change, side, values, COLUMNS) != VOLLIKASH_OK) {
        return;
    }
    for (size_t column = 0; column < change->columns; column++) {
        print_value(file, &values[column]);
    }
}

/* Prints each change: the table, what it does, and the values before and after it. */
static void print_changes(const uint8_t *file, size_t length)
{
    struct vollikash_change change;
    struct vollikash_fault fault;
    size_t place = 0;
    int code;
    while ((code = vollikash_next(file, length, &place, &change, &fault)) == VOLLIKASH_OK) {
        const char *does = change.operation == VOLLIKASH_INSERT ? "insert"
            : change.operation == VOLLIKASH_DELETE             ? "delete"
                                                               : "update";
        printf("  %.*s %s:", (int)change.name_length, vollikash_table(file, &change), does);
        print_side(file, length, &change, VOLLIKASH_OLD);
        printf(" ->");
        print_side(file, length, &change, VOLLIKASH_NEW);
        printf("\n");
    }
    if (code != VOLLIKASH_DONE) {
        expect_file(code, &fault);
    }
}

static int on_conflict(void *unused, int conflict, sqlite3_changeset_iter *change)
{
    (void)unused;
    (void)conflict;
    (void)change;
    return SQLITE_CHANGESET_ABORT;
}

/* Changes some rows, and returns the changeset of it, which sqlite3_free frees. */
static uint8_t *record(sqlite3 *db, size_t *length)
{
    sqlite3_session *session;
    void *file;
    int count;
    expect(sqlite3session_create(db, "main", &session), db);
    expect(sqlite3session_attach(session, "parts"), db);
    expect(sqlite3_exec(db,
                        "UPDATE parts SET stock = 45 WHERE id = 1;"
                        "DELETE FROM parts WHERE id = 2;"
                        "INSERT INTO parts VALUES(3, 'hinge', NULL);",
                        NULL, NULL, NULL),
           db);
    expect(sqlite3session_changeset(session, &count, &file), db);
    sqlite3session_delete(session);
    *length = (size_t)count;
    return file;
}

int main(void)
{
    sqlite3 *db;
    struct vollikash_fault fault;
    size_t length, written;
    expect(sqlite3_open(":memory:", &db), db);
    expect(sqlite3_exec(db,
                        "CREATE TABLE parts(id INTEGER PRIMARY KEY, name TEXT, stock INT);"
                        "INSERT INTO parts VALUES(1, 'bolt', 50), (2, 'nut', 80);",
                        NULL, NULL, NULL),
           db);
    printf("The table:\n");
    print_rows(db);

    uint8_t *file = record(db, &length);
    expect_file(vollikash_check(file, length, &fault), &fault);
    printf("The changes:\n");
    print_changes(file, length);
    printf("The table after them:\n");
    print_rows(db);

    uint8_t *inverse = malloc(length);
    if (inverse == NULL) {
        return 1;
    }
    expect_file(vollikash_invert(file, length, inverse, length, &written, &fault), &fault);
    printf("The inverse:\n");
    print_changes(inverse, written);
    expect(sqlite3changeset_apply(db, (int)written, inverse, NULL, on_conflict, NULL), db);
    printf("The table after that:\n");
    print_rows(db);

    free(inverse);
    sqlite3_free(file);
    return sqlite3_close(db);
}
