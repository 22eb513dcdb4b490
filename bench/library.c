/*
** The calls of SQLite's library that `calls.c` makes: its iterator without values (check), with
** values (next), and with values that are printed (dump); invert, concat, its changegroup
** (concat_many), apply; its check of a database (integrity); and inserts that a session records in
** a database in memory (record, record_as_one).
*/
#define SQLITE_ENABLE_SESSION 1
#define SQLITE_ENABLE_PREUPDATE_HOOK 1
#include <sqlite3.h>
#include <stdio.h>
#include <string.h>

#include "calls.h"

static void print(sqlite3_value *value)
{
    const unsigned char *bytes = sqlite3_value_blob(value);
    switch (sqlite3_value_type(value)) {
    case SQLITE_INTEGER:
        printf(" %lld", (long long)sqlite3_value_int64(value));
        break;
    case SQLITE_BLOB:
        fputs(" x'", stdout);
        for (int place = 0; place < sqlite3_value_bytes(value); place++) {
            printf("%02x", bytes[place]);
        }
        putchar('\'');
        break;
    case SQLITE_TEXT:
        printf(" '%s'", bytes);
        break;
    default:
        fputs(" NULL", stdout);
    }
}

static void look_at(sqlite3_value *value, int prints)
{
    if (value == NULL) {
        return;
    }
    int kind = sqlite3_value_type(value);
    sum += kind;
    sum += kind == SQLITE_INTEGER ? sqlite3_value_int64(value) : sqlite3_value_bytes(value);
    if (prints) {
        print(value);
    }
}

/* Goes over all changes of a file, and their values unless it is a check. */
static int pass(const struct bytes *file, const char *operation)
{
    sqlite3_changeset_iter *changes;
    int checks = strcmp(operation, "check") == 0, prints = strcmp(operation, "dump") == 0;
    int code = sqlite3changeset_start(&changes, (int)file->count, file->at);
    while (code == SQLITE_OK && sqlite3changeset_next(changes) == SQLITE_ROW) {
        const char *name;
        int columns, kind, indirect;
        sqlite3changeset_op(changes, &name, &columns, &kind, &indirect);
        if (prints) {
            printf("\n%s %d %d", name, kind, indirect);
        }
        for (int column = 0; column < 2 * columns && !checks; column++) {
            sqlite3_value *value = NULL;
            if (column < columns && kind != SQLITE_INSERT) {
                sqlite3changeset_old(changes, column, &value);
            } else if (column >= columns && kind != SQLITE_DELETE) {
                sqlite3changeset_new(changes, column - columns, &value);
            }
            look_at(value, prints);
        }
    }
    return code != SQLITE_OK ? code : sqlite3changeset_finalize(changes);
}

static int refuse(void *context, int kind, sqlite3_changeset_iter *change)
{
    (void)context;
    (void)kind;
    (void)change;
    return SQLITE_CHANGESET_ABORT;
}

static int expect_whole(void *context, int count, char **values, char **names)
{
    (void)context;
    (void)names;
    return count != 1 || strcmp(values[0], "ok") != 0;
}

static int apply_or_check(const char *operation, const char *name, const struct bytes *file)
{
    static const char CHECK[] = "PRAGMA integrity_check; PRAGMA foreign_key_check";
    sqlite3 *base;
    int code = sqlite3_open(name, &base);
    if (code == SQLITE_OK && strcmp(operation, "apply") == 0) {
        code = sqlite3changeset_apply(base, (int)file->count, file->at, NULL, refuse, NULL);
    } else if (code == SQLITE_OK) {
        code = sqlite3_exec(base, CHECK, expect_whole, NULL, NULL);
    }
    sqlite3_close(base);
    return code;
}

/* Adds files of these lengths to a changegroup, and makes its file. */
static int group(const struct bytes *files, const struct bytes *lengths, int *made, void **bytes)
{
    const size_t *length = (const size_t *)(const void *)lengths->at;
    const size_t *end = length + lengths->count / sizeof *length;
    uint8_t *file = files->at;
    sqlite3_changegroup *all;
    int code = sqlite3changegroup_new(&all);
    for (; code == SQLITE_OK && length < end; file += *length++) {
        code = sqlite3changegroup_add(all, (int)*length, file);
    }
    if (code == SQLITE_OK) {
        code = sqlite3changegroup_output(all, made, bytes);
    }
    sqlite3changegroup_delete(all);
    return code;
}

/* Creates the table t with so many columns, the first one its key, and prepares its INSERT. */
static int create(sqlite3 *base, int columns, sqlite3_stmt **insert)
{
    char table[20000] = "CREATE TABLE t(c0 PRIMARY KEY", values[5000] = "INSERT INTO t VALUES(?";
    for (int column = 1; column < columns; column++) {
        sprintf(table + strlen(table), ", c%d", column);
        strcat(values, ", ?");
    }
    int code = sqlite3_exec(base, strcat(table, ")"), NULL, NULL, NULL);
    return code ? code : sqlite3_prepare_v2(base, strcat(values, ")"), -1, insert, NULL);
}

/* Inserts the rows of a file of INSERTs by a statement. */
static int insert_all(sqlite3_stmt *insert, int columns, const struct bytes *file)
{
    sqlite3_changeset_iter *changes;
    sqlite3_value *value;
    int code = sqlite3changeset_start(&changes, (int)file->count, file->at);
    while (code == SQLITE_OK && sqlite3changeset_next(changes) == SQLITE_ROW) {
        for (int column = 0; column < columns; column++) {
            sqlite3changeset_new(changes, column, &value);
            sqlite3_bind_value(insert, column + 1, value);
        }
        code = sqlite3_step(insert) == SQLITE_DONE ? sqlite3_reset(insert) : SQLITE_ERROR;
    }
    return code != SQLITE_OK ? code : sqlite3changeset_finalize(changes);
}

/* Records these inserts, each a transaction of its own or all one, and makes their changeset. */
static int record(const struct bytes *file, int is_one, int *made, void **bytes)
{
    sqlite3 *base;
    sqlite3_session *session = NULL;
    sqlite3_stmt *insert = NULL;
    int columns = file->at[1], code = sqlite3_open(":memory:", &base);
    code = code ? code : create(base, columns, &insert);
    code = code ? code : sqlite3session_create(base, "main", &session);
    code = code ? code : sqlite3session_attach(session, "t");
    code = code || !is_one ? code : sqlite3_exec(base, "BEGIN", NULL, NULL, NULL);
    code = code ? code : insert_all(insert, columns, file);
    code = code || !is_one ? code : sqlite3_exec(base, "COMMIT", NULL, NULL, NULL);
    code = code ? code : sqlite3session_changeset(session, made, bytes);
    sqlite3_finalize(insert);
    sqlite3session_delete(session);
    sqlite3_close(base);
    return code;
}

int call(const char *operation, const char *name, const struct bytes *files, struct bytes *out)
{
    int made = 0, code, first = (int)files[0].count, second = (int)files[1].count;
    void *bytes = NULL;
    if (strcmp(operation, "apply") == 0 || strcmp(operation, "integrity") == 0) {
        return apply_or_check(operation, name, files);
    }
    if (strcmp(operation, "invert") == 0) {
        code = sqlite3changeset_invert(first, files[0].at, &made, &bytes);
    } else if (strcmp(operation, "concat") == 0) {
        code = sqlite3changeset_concat(first, files[0].at, second, files[1].at, &made, &bytes);
    } else if (strcmp(operation, "concat_many") == 0) {
        code = group(&files[0], &files[1], &made, &bytes);
    } else if (strncmp(operation, "record", 6) == 0) {
        code = record(files, operation[6] != '\0', &made, &bytes);
    } else {
        return pass(files, operation);
    }
    out->at = bytes;
    out->count = (size_t)made;
    return code;
}

void discard(struct bytes *out)
{
    sqlite3_free(out->at);
    out->at = NULL;
}
