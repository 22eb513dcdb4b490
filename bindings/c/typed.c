/*
** Tests the typed calls of vollikash_store.h. The status is 0 if all of them do what they have to; else standard error
** has the line.
**
** If it is built with REFUSING, each allocation of vollikash_store.c in each call outside a transaction is refused, one
** at a time, and the call is made again. So the answers are those of calls that are made once, if a refused one changes
** nothing.
*/
#include <stdio.h>
#include <stdlib.h>
#include <string.h>

#include "vollikash_store.h"

#ifdef REFUSING
#include "refusing.h"
#else
static volatile long refused = 0, allocations = 0;
static volatile int refuses_rest = 0;
#endif

static void require(int holds, const char *what, int line)
{
    if (!holds) {
        fprintf(stderr, "typed.c:%d: %s\n", line, what);
        exit(1);
    }
}

#define REQUIRE(condition) require(condition, #condition, __LINE__)

/* Whether a call has to be made again, since one of its allocations was refused. */
static int ran_out(int code)
{
    long at = refused;
    refused = 0;
    return at > 0 && allocations >= at && (code == VOLLIKASH_NO_MEMORY || code == VOLLIKASH_STORE_FAULT
                                           || code == VOLLIKASH_TRANSACTION_ENDED);
}

/* Requires the code of a call, which is made once, or with each of its allocations refused in turn. */
#ifdef REFUSING
#define EXPECT(wanted, call) EXPECT_FROM(1, wanted, call)
#else
#define EXPECT(wanted, call) EXPECT_FROM(0, wanted, call)
#endif
#define EXPECT_FROM(first, wanted, call)      \
    do {                                      \
        int code = -1;                        \
        for (long next = first;; next++) {    \
            allocations = 0;                  \
            refused = next;                   \
            code = call;                      \
            if (!ran_out(code)) {             \
                break;                        \
            }                                 \
        }                                     \
        require(code == (wanted), #call, __LINE__); \
    } while (0)
/* The same without refusing memory, as in a transaction, which that would end. */
#define EXPECT_ONCE(wanted, call) EXPECT_FROM(0, wanted, call)

#define INT VOLLIKASH_INT
#define TEXT VOLLIKASH_TEXT
#define ROW VOLLIKASH_ROW
#define KEY VOLLIKASH_KEY

/* Requires that two values are the same, and that texts and blobs are followed by a zero byte if they are returned. */
static void require_same(struct vollikash_row row, struct vollikash_row wanted, int line)
{
    require(row.count == wanted.count, "a row of another width", line);
    for (size_t at = 0; at < row.count; at++) {
        struct vollikash_datum value = row.values[at], other = wanted.values[at];
        require(value.kind == other.kind && value.integer == other.integer, "another value", line);
        require(value.length == other.length, "another length", line);
        require(value.length == 0 || memcmp(value.bytes, other.bytes, value.length) == 0, "other bytes", line);
        if (value.kind == VOLLIKASH_TEXT || value.kind == VOLLIKASH_BLOB) {
            require(((const char *)value.bytes)[value.length] == 0, "no zero byte", line);
        }
    }
}

#define SAME(row, wanted) require_same(row, wanted, __LINE__)

/* Requires the row of the key `key` in the table t, or that there is none if it is to have the text NULL. */
static void require_row(struct vollikash_db *db, int64_t key, const char *text, int line)
{
    struct vollikash_row row;
    int code = vollikash_get(db, "t", KEY(INT(key)), &row);
    require(code == (text == NULL ? VOLLIKASH_NO_ROW : VOLLIKASH_OK), "another row or none", line);
    if (text != NULL) {
        require_same(row, ROW(INT(key), TEXT(text)), line);
    }
}

#define HAS(key, text) require_row(db, key, text, __LINE__)

/* Opens a new store with the table t(a INTEGER KEY, b) and the rows 1 'one' and 2 'two'. */
static void open_rows(struct vollikash_db *db)
{
    EXPECT_ONCE(VOLLIKASH_OK, vollikash_open(db, (const uint8_t *)"", 0));
    EXPECT_ONCE(VOLLIKASH_OK, vollikash_create(db, "t", VOLLIKASH_COLUMNS({"a", VOLLIKASH_COLUMN_KEY}, {"b", 0})));
    EXPECT_ONCE(VOLLIKASH_OK, vollikash_insert(db, "t", ROW(INT(1), TEXT("one"))));
    EXPECT_ONCE(VOLLIKASH_OK, vollikash_insert(db, "t", ROW(INT(2), TEXT("two"))));
}

/* Requires what the last error has. A key is of one integer. */
static void require_error(const struct vollikash_db *db, const char *table, const char *column, int64_t key,
                          uint64_t detail, int line)
{
    const struct vollikash_refusal *error = vollikash_error(db);
    require((error->table == NULL) == (table == NULL), "a table or none", line);
    require((error->column == NULL) == (column == NULL), "a column or none", line);
    require(table == NULL || strcmp(error->table, table) == 0, "another table", line);
    require(column == NULL || strcmp(error->column, column) == 0, "another column", line);
    require(error->key.count == (key != 0), "a key or none", line);
    require(key == 0 || error->key.values[0].integer == key, "another key", line);
    require(error->detail == detail, "another detail", line);
    require(strlen(error->message) > 10, "no sentence", line);
}

#define ERROR(table, column, key, detail) require_error(db, table, column, key, detail, __LINE__)

/* ---- Tables and rows. */

/* A store is opened, and its first table created. */
static void test_opening(struct vollikash_db *db)
{
    vollikash_close(db);
    EXPECT(VOLLIKASH_OK, vollikash_open(db, (const uint8_t *)"", 0));
    EXPECT(VOLLIKASH_OK, vollikash_create(db, "t", VOLLIKASH_COLUMNS({"a", VOLLIKASH_COLUMN_KEY}, {"b", 0})));
    EXPECT(VOLLIKASH_OK, vollikash_insert(db, "t", ROW(INT(1), TEXT("one"))));
    HAS(1, "one");
}

static void test_tables(struct vollikash_db *db)
{
    struct vollikash_names tables;
    struct vollikash_columns columns;
    uint64_t count = 9;
    EXPECT(VOLLIKASH_OK, vollikash_tables(db, &tables));
    REQUIRE(tables.count == 1 && strcmp(tables.names[0], "t") == 0);
    EXPECT(VOLLIKASH_OK, vollikash_create(db, "\xc3\xa4", VOLLIKASH_COLUMNS(
        {"x", VOLLIKASH_COLUMN_NOT_NULL}, {"y", VOLLIKASH_COLUMN_KEY}, {"z", 0})));
    EXPECT(VOLLIKASH_OK, vollikash_tables(db, &tables));
    REQUIRE(tables.count == 2 && strcmp(tables.names[0], "t") == 0 && strcmp(tables.names[1], "\xc3\xa4") == 0);
    /* A name that the store has returned is taken. */
    EXPECT_ONCE(VOLLIKASH_OK, vollikash_schema(db, tables.names[1], &columns));
    REQUIRE(columns.count == 3 && strcmp(columns.columns[0].name, "x") == 0);
    REQUIRE(columns.columns[0].marks == VOLLIKASH_COLUMN_NOT_NULL && columns.columns[2].marks == 0);
    REQUIRE(columns.columns[1].marks == (VOLLIKASH_COLUMN_KEY | VOLLIKASH_COLUMN_NOT_NULL));
    EXPECT(VOLLIKASH_OK, vollikash_count(db, "t", &count));
    REQUIRE(count == 2);
    EXPECT(VOLLIKASH_OK, vollikash_count(db, "\xc3\xa4", &count));
    REQUIRE(count == 0);
}

static void test_rows(struct vollikash_db *db)
{
    struct vollikash_row row;
    HAS(1, "one");
    EXPECT(VOLLIKASH_OK, vollikash_put(db, "t", ROW(INT(1), TEXT("uno"))));
    HAS(1, "uno");
    EXPECT(VOLLIKASH_OK, vollikash_put(db, "t", ROW(INT(INT64_MIN), TEXT(""))));
    HAS(INT64_MIN, "");
    EXPECT(VOLLIKASH_OK, vollikash_update(db, "t", KEY(INT(2)), ROW(INT(-3), TEXT("three"))));
    HAS(2, NULL);
    HAS(-3, "three");
    EXPECT(VOLLIKASH_OK, vollikash_delete(db, "t", KEY(INT(-3))));
    HAS(-3, NULL);
    /* A row that the store has returned is taken. */
    EXPECT_ONCE(VOLLIKASH_OK, vollikash_get(db, "t", KEY(INT(1)), &row));
    EXPECT_ONCE(VOLLIKASH_OK, vollikash_update(db, "t", KEY(row.values[0]), ROW(INT(5), row.values[1])));
    HAS(5, "uno");
    HAS(1, NULL);
}

static void test_values(struct vollikash_db *db)
{
    static char bytes[70000];
    static const size_t lengths[] = {0, 1, 127, 128, 255, 16383, 16384, 70000};
    struct vollikash_row row;
    memset(bytes, 'x', sizeof bytes);
    bytes[0] = 0;
    for (size_t at = 0; at < sizeof lengths / sizeof lengths[0]; at++) {
        struct vollikash_datum text = VOLLIKASH_BLOB(bytes, lengths[at]);
        text.kind = VOLLIKASH_TEXT;
        EXPECT(VOLLIKASH_OK, vollikash_put(db, "t", ROW(VOLLIKASH_BLOB(bytes, lengths[at]), text)));
        EXPECT(VOLLIKASH_OK, vollikash_get(db, "t", KEY(VOLLIKASH_BLOB(bytes, lengths[at])), &row));
        SAME(row, ROW(VOLLIKASH_BLOB(bytes, lengths[at]), text));
    }
    EXPECT(VOLLIKASH_OK, vollikash_put(db, "t", ROW(TEXT("k"), VOLLIKASH_NULL())));
    EXPECT(VOLLIKASH_OK, vollikash_get(db, "t", KEY(TEXT("k")), &row));
    SAME(row, ROW(TEXT("k"), VOLLIKASH_NULL()));
}

static void test_errors(struct vollikash_db *db)
{
    struct vollikash_columns columns = {NULL, 7};
    struct vollikash_row row = {NULL, 7};
    uint64_t count = 9;
    EXPECT(VOLLIKASH_NO_TABLE, vollikash_count(db, "u", &count));
    ERROR("u", NULL, 0, 0);
    EXPECT(VOLLIKASH_NO_TABLE, vollikash_schema(db, "u", &columns));
    EXPECT(VOLLIKASH_NO_ROW, vollikash_get(db, "t", KEY(INT(3)), &row));
    ERROR("t", NULL, 3, 0);
    EXPECT(VOLLIKASH_NO_ROW, vollikash_get(db, "t", KEY(TEXT("no such key")), &row));
    SAME(vollikash_error(db)->key, ROW(TEXT("no such key")));
    REQUIRE(count == 9 && columns.count == 7 && row.count == 7);
    EXPECT(VOLLIKASH_KEY_TAKEN, vollikash_insert(db, "t", ROW(INT(2), TEXT("x"))));
    ERROR("t", NULL, 2, 0);
    EXPECT(VOLLIKASH_NO_ROW, vollikash_update(db, "t", KEY(INT(3)), ROW(INT(3), TEXT("x"))));
    ERROR("t", NULL, 3, 0);
    EXPECT(VOLLIKASH_ROW_WIDTH, vollikash_put(db, "t", ROW(INT(3))));
    ERROR("t", NULL, 0, 0);
    EXPECT(VOLLIKASH_NULL_IN_KEY, vollikash_put(db, "t", ROW(VOLLIKASH_NULL(), INT(3))));
    ERROR("t", "a", 0, 0);
    EXPECT(VOLLIKASH_OK, vollikash_create(db, "n", VOLLIKASH_COLUMNS({"k", 1}, {"v", VOLLIKASH_COLUMN_NOT_NULL})));
    EXPECT(VOLLIKASH_NOT_NULL, vollikash_put(db, "n", ROW(INT(3), VOLLIKASH_NULL())));
    ERROR("n", "v", 0, 0);
    EXPECT(VOLLIKASH_TABLE_EXISTS, vollikash_create(db, "t", VOLLIKASH_COLUMNS({"k", 1})));
    EXPECT(VOLLIKASH_BAD_SCHEMA, vollikash_create(db, "u", VOLLIKASH_COLUMNS({"k", 0})));
    EXPECT(VOLLIKASH_RANGE, vollikash_create(db, "u", VOLLIKASH_COLUMNS({"k", 4})));
    EXPECT(VOLLIKASH_RANGE, vollikash_create(db, "u", VOLLIKASH_COLUMNS({"k", -1})));
    EXPECT(VOLLIKASH_RANGE, vollikash_get(db, "t", KEY(vollikash_make_datum(2, 0, NULL, 0)), &row));
    EXPECT(VOLLIKASH_BAD_TEXT, vollikash_put(db, "t", ROW(INT(1), TEXT("\xff"))));
    ERROR(NULL, NULL, 0, 0);
    EXPECT(VOLLIKASH_BAD_TEXT, vollikash_count(db, "\xff", &count));
    EXPECT(VOLLIKASH_OK, vollikash_count(db, "t", &count));
    REQUIRE(vollikash_error(db)->code == VOLLIKASH_OK && vollikash_error(db)->table == NULL);
}

static void test_cursor(struct vollikash_db *db)
{
    enum { ALL = 1300 };
    struct vollikash_cursor cursor = {0}, moved;
    struct vollikash_row row;
    int64_t sum = 0;
    EXPECT_ONCE(VOLLIKASH_OK, vollikash_begin(db));
    for (int64_t key = 3; key <= ALL; key++) {
        EXPECT_ONCE(VOLLIKASH_OK, vollikash_insert(db, "t", ROW(INT(key), TEXT("x"))));
    }
    EXPECT_ONCE(VOLLIKASH_OK, vollikash_commit(db));
    EXPECT_ONCE(VOLLIKASH_DONE, vollikash_cursor_next(db, &cursor, &row));
    EXPECT(VOLLIKASH_OK, vollikash_cursor_open(db, "t", &cursor));
    for (int64_t key = 1; key <= ALL; key++) {
        EXPECT(VOLLIKASH_OK, vollikash_cursor_next(db, &cursor, &row));
        sum += row.values[0].integer;
        REQUIRE(row.values[0].integer == key);
        moved = cursor;
        memset(&cursor, 0, sizeof cursor);
        cursor = moved;
        if (key % 100 == 0) {
            EXPECT_ONCE(VOLLIKASH_OK, vollikash_delete(db, "t", KEY(row.values[0])));
        }
    }
    REQUIRE(sum == (int64_t)ALL * (ALL + 1) / 2);
    EXPECT(VOLLIKASH_DONE, vollikash_cursor_next(db, &cursor, &row));
    EXPECT(VOLLIKASH_DONE, vollikash_cursor_next(db, &cursor, &row));
    EXPECT(VOLLIKASH_OK, vollikash_cursor_open(db, "t", &cursor));
    EXPECT(VOLLIKASH_OK, vollikash_cursor_next(db, &cursor, &row));
    EXPECT(VOLLIKASH_NO_TABLE, vollikash_cursor_open(db, "u", &cursor));
    REQUIRE(cursor.at == NULL);
    vollikash_cursor_close(&cursor);
}

/* Keys of two columns that are not the first ones, of all kinds, over a page. */
static void test_wide_keys(struct vollikash_db *db)
{
    struct vollikash_cursor cursor = {0};
    struct vollikash_row row;
    int code, seen = 0;
    EXPECT(VOLLIKASH_OK, vollikash_create(db, "w", VOLLIKASH_COLUMNS({"v", 0}, {"k", 1}, {"n", 0}, {"l", 1})));
    EXPECT_ONCE(VOLLIKASH_OK, vollikash_begin(db));
    for (int64_t key = 0; key < 600; key++) {
        char text[20];
        int length = snprintf(text, sizeof text, "%03d", (int)key);
        EXPECT_ONCE(VOLLIKASH_OK, vollikash_insert(db, "w", ROW(
            INT(key), TEXT(text), VOLLIKASH_NULL(), VOLLIKASH_BLOB(text, (size_t)length))));
    }
    EXPECT_ONCE(VOLLIKASH_OK, vollikash_commit(db));
    code = vollikash_cursor_open(db, "w", &cursor);
    while (code == VOLLIKASH_OK && (code = vollikash_cursor_next(db, &cursor, &row)) == VOLLIKASH_OK) {
        REQUIRE(row.values[0].integer == seen++);
    }
    REQUIRE(code == VOLLIKASH_DONE && seen == 600);
    vollikash_cursor_close(&cursor);
}

/* A table that is replaced by one with another key is another table. */
static void test_replaced_table(struct vollikash_db *db)
{
    struct vollikash_cursor cursor = {0};
    struct vollikash_row row;
    EXPECT_ONCE(VOLLIKASH_OK, vollikash_begin(db));
    EXPECT_ONCE(VOLLIKASH_OK, vollikash_create(db, "r", VOLLIKASH_COLUMNS({"a", 1}, {"b", 0})));
    EXPECT_ONCE(VOLLIKASH_OK, vollikash_cursor_open(db, "r", &cursor));
    EXPECT_ONCE(VOLLIKASH_OK, vollikash_rollback(db));
    EXPECT(VOLLIKASH_NO_TABLE, vollikash_cursor_next(db, &cursor, &row));
    EXPECT(VOLLIKASH_OK, vollikash_create(db, "r", VOLLIKASH_COLUMNS({"a", 0}, {"b", 1})));
    EXPECT(VOLLIKASH_NO_TABLE, vollikash_cursor_next(db, &cursor, &row));
    vollikash_cursor_close(&cursor);
}

/* ---- Transactions. */

static void test_transactions(struct vollikash_db *db)
{
    const uint8_t *file = NULL;
    size_t length;
    EXPECT(VOLLIKASH_NO_TRANSACTION, vollikash_commit(db));
    EXPECT(VOLLIKASH_NO_TRANSACTION, vollikash_rollback(db));
    EXPECT_ONCE(VOLLIKASH_OK, vollikash_begin(db));
    EXPECT_ONCE(VOLLIKASH_TRANSACTION_OPEN, vollikash_begin(db));
    EXPECT_ONCE(VOLLIKASH_OK, vollikash_put(db, "t", ROW(INT(1), TEXT("x"))));
    HAS(1, "x");
    EXPECT_ONCE(VOLLIKASH_TRANSACTION_OPEN, vollikash_save(db, &file, &length));
    EXPECT_ONCE(VOLLIKASH_TRANSACTION_OPEN, vollikash_session_open(db));
    REQUIRE(file == NULL);
    EXPECT_ONCE(VOLLIKASH_OK, vollikash_rollback(db));
    HAS(1, "one");
    EXPECT_ONCE(VOLLIKASH_OK, vollikash_begin(db));
    EXPECT_ONCE(VOLLIKASH_OK, vollikash_put(db, "t", ROW(INT(1), TEXT("x"))));
    EXPECT_ONCE(VOLLIKASH_OK, vollikash_commit(db));
    HAS(1, "x");
}

/* ---- Stores. */

static void test_saves(struct vollikash_db *db)
{
    struct vollikash_db other = {0};
    const uint8_t *file;
    size_t length;
    EXPECT(VOLLIKASH_OK, vollikash_save(db, &file, &length));
    REQUIRE(length >= 512 && memcmp(file, "SQLite format 3", 16) == 0);
    EXPECT(VOLLIKASH_OK, vollikash_open(&other, file, length));
    require_row(&other, 2, "two", __LINE__);
    /* What a store has saved can be opened by itself. */
    EXPECT_ONCE(VOLLIKASH_OK, vollikash_delete(&other, "t", KEY(INT(2))));
    EXPECT_ONCE(VOLLIKASH_OK, vollikash_save(&other, &file, &length));
    EXPECT_ONCE(VOLLIKASH_OK, vollikash_open(&other, file, length));
    require_row(&other, 1, "one", __LINE__);
    require_row(&other, 2, NULL, __LINE__);
    EXPECT(VOLLIKASH_STORE_FAULT, vollikash_open(&other, (const uint8_t *)"no database, but more than some bytes", 37));
    require_row(&other, 1, "one", __LINE__);
    vollikash_close(&other);
    REQUIRE(other.at == NULL && other.store.at == NULL);
    EXPECT(VOLLIKASH_STORE_FAULT, vollikash_open(&other, (const uint8_t *)"no database, but more than some bytes", 37));
    REQUIRE(other.at == NULL && other.store.at == NULL);
}

/* Each call on a store that is not open. */
static void test_closed(struct vollikash_db *db)
{
    struct vollikash_names names;
    struct vollikash_columns columns = {NULL, 0};
    struct vollikash_row row;
    struct vollikash_report report;
    struct vollikash_cursor cursor = {0};
    struct vollikash_datum value = INT(1);
    struct vollikash_row key = {&value, 1};
    const uint8_t *file;
    size_t length;
    uint64_t count;
    int is_empty;
    vollikash_close(db);
    vollikash_close(db);
    const int codes[] = {
        vollikash_save(db, &file, &length), vollikash_tables(db, &names), vollikash_schema(db, "t", &columns),
        vollikash_create(db, "t", columns), vollikash_count(db, "t", &count), vollikash_get(db, "t", key, &row),
        vollikash_insert(db, "t", key), vollikash_put(db, "t", key), vollikash_update(db, "t", key, key),
        vollikash_delete(db, "t", key), vollikash_cursor_open(db, "t", &cursor), vollikash_begin(db),
        vollikash_commit(db), vollikash_rollback(db), vollikash_revert(db, (const uint8_t *)"", 0, &report),
        vollikash_apply(db, (const uint8_t *)"", 0, 0, NULL, NULL, &report), vollikash_session_open(db),
        vollikash_session_attach(db, "t"), vollikash_session_changeset(db, &file, &length),
        vollikash_session_is_empty(db, &is_empty), vollikash_session_undo(db, &report), vollikash_session_close(db),
    };
    for (size_t at = 0; at < sizeof codes / sizeof codes[0]; at++) {
        require(codes[at] == VOLLIKASH_NOT_OPEN, "a store that is not open", (int)at);
    }
    REQUIRE(vollikash_error(db)->code == VOLLIKASH_NOT_OPEN);
    REQUIRE(strcmp(vollikash_error(db)->message, "the store is not open") == 0);
}

/* ---- Sessions and changesets. */

/* Makes the changeset of what `edit` does to t, in a store of its own with the rows of open_rows. The caller frees it. */
static uint8_t *recorded(void (*edit)(struct vollikash_db *), size_t *length)
{
    struct vollikash_db db = {0};
    const uint8_t *file;
    open_rows(&db);
    EXPECT(VOLLIKASH_OK, vollikash_session_open(&db));
    EXPECT(VOLLIKASH_OK, vollikash_session_attach(&db, "t"));
    edit(&db);
    EXPECT(VOLLIKASH_OK, vollikash_session_changeset(&db, &file, length));
    uint8_t *made = malloc(*length + 1);
    REQUIRE(made != NULL);
    memcpy(made, file, *length);
    vollikash_close(&db);
    return made;
}

/* What the changeset of these tests does: an UPDATE, a DELETE and an INSERT. */
static void edit(struct vollikash_db *db)
{
    EXPECT_ONCE(VOLLIKASH_OK, vollikash_put(db, "t", ROW(INT(1), TEXT("uno"))));
    EXPECT_ONCE(VOLLIKASH_OK, vollikash_delete(db, "t", KEY(INT(2))));
    EXPECT_ONCE(VOLLIKASH_OK, vollikash_insert(db, "t", ROW(INT(3), TEXT("tres"))));
}

static void test_sessions(struct vollikash_db *db)
{
    struct vollikash_report report;
    const uint8_t *file;
    size_t length;
    int is_empty = 7;
    EXPECT(VOLLIKASH_NO_SESSION, vollikash_session_is_empty(db, &is_empty));
    EXPECT(VOLLIKASH_NO_SESSION, vollikash_session_undo(db, &report));
    EXPECT(VOLLIKASH_OK, vollikash_session_open(db));
    EXPECT(VOLLIKASH_SESSION_OPEN, vollikash_session_open(db));
    EXPECT(VOLLIKASH_NO_TABLE, vollikash_session_attach(db, "u"));
    EXPECT(VOLLIKASH_OK, vollikash_session_attach(db, "t"));
    EXPECT(VOLLIKASH_ALREADY_ATTACHED, vollikash_session_attach(db, "t"));
    EXPECT(VOLLIKASH_OK, vollikash_session_is_empty(db, &is_empty));
    REQUIRE(is_empty == 1);
    EXPECT(VOLLIKASH_OK, vollikash_session_changeset(db, &file, &length));
    REQUIRE(length == 0 && file != NULL);
    edit(db);
    EXPECT(VOLLIKASH_OK, vollikash_session_is_empty(db, &is_empty));
    REQUIRE(is_empty == 0);
    EXPECT(VOLLIKASH_OK, vollikash_session_undo(db, &report));
    REQUIRE(report.written == 3 && report.count == 0 && report.skipped.count == 0);
    HAS(1, "one");
    HAS(2, "two");
    HAS(3, NULL);
    EXPECT(VOLLIKASH_OK, vollikash_session_close(db));
    EXPECT(VOLLIKASH_NO_SESSION, vollikash_session_close(db));
}

/* Reverts and applies what the store itself has returned. */
static void test_there_and_back(struct vollikash_db *db)
{
    struct vollikash_report report;
    const uint8_t *file;
    size_t length;
    EXPECT(VOLLIKASH_OK, vollikash_session_open(db));
    EXPECT(VOLLIKASH_OK, vollikash_session_attach(db, "t"));
    edit(db);
    EXPECT_ONCE(VOLLIKASH_OK, vollikash_session_changeset(db, &file, &length));
    EXPECT_ONCE(VOLLIKASH_OK, vollikash_revert(db, file, length, &report));
    HAS(1, "one");
    HAS(3, NULL);
    uint8_t *made = recorded(edit, &length);
    EXPECT(VOLLIKASH_OK, vollikash_apply(db, made, length, 0, NULL, NULL, &report));
    REQUIRE(report.written == 3 && report.ignored == 0 && report.count == 0);
    HAS(1, "uno");
    HAS(2, NULL);
    EXPECT(VOLLIKASH_ABORT, vollikash_apply(db, made, length, 0, NULL, NULL, &report));
    EXPECT(VOLLIKASH_OK, vollikash_apply(db, made, length, 1, NULL, NULL, &report));
    REQUIRE(report.written == 0 && report.ignored == 3);
    EXPECT_ONCE(VOLLIKASH_OK, vollikash_session_changeset(db, &file, &length));
    EXPECT_ONCE(VOLLIKASH_OK, vollikash_apply(db, file, length, 1, NULL, NULL, &report));
    REQUIRE(report.ignored == 3);
    free(made);
}

/* What a function decides, and what it was asked. */
struct decisions {
    struct vollikash_db *db;
    int choices[5]; /* for each kind of a conflict */
    int asked[5];   /* how often, for each kind */
};

static int decide(void *context, const struct vollikash_conflict *conflict)
{
    struct decisions *decisions = context;
    struct vollikash_row row;
    REQUIRE(strcmp(conflict->table, "t") == 0 && conflict->key.count == 1);
    /* It reads the row of the key. */
    int code = vollikash_get(decisions->db, "t", conflict->key, &row);
    if (code == VOLLIKASH_OK) {
        SAME(conflict->current, row);
    } else {
        REQUIRE(code == VOLLIKASH_NO_ROW || code == VOLLIKASH_NO_MEMORY || code == VOLLIKASH_STORE_FAULT ||
                code == VOLLIKASH_TRANSACTION_ENDED);
        REQUIRE(code != VOLLIKASH_NO_ROW || conflict->current.count == 0);
    }
    decisions->asked[conflict->kind]++;
    return decisions->choices[conflict->kind];
}

/* Puts rows in the way of the changeset: a DATA, a NOTFOUND and a CONFLICT. */
static void stand_in_the_way(struct vollikash_db *db)
{
    EXPECT_ONCE(VOLLIKASH_OK, vollikash_put(db, "t", ROW(INT(1), TEXT("other"))));
    vollikash_delete(db, "t", KEY(INT(2))); /* which may not be there */
    EXPECT_ONCE(VOLLIKASH_OK, vollikash_put(db, "t", ROW(INT(3), TEXT("third"))));
}

static void test_decisions(struct vollikash_db *db)
{
    enum { OMIT = VOLLIKASH_CHOICE_OMIT, REPLACE = VOLLIKASH_CHOICE_REPLACE, ABORT = VOLLIKASH_CHOICE_ABORT };
    struct decisions decisions = {db, {ABORT, OMIT, OMIT, REPLACE, ABORT}, {0}};
    struct vollikash_report report = {0};
    size_t length;
    uint8_t *made = recorded(edit, &length);
    stand_in_the_way(db);
    EXPECT_ONCE(VOLLIKASH_OK, vollikash_apply(db, made, length, 0, decide, &decisions, &report));
    REQUIRE(decisions.asked[1] == 1 && decisions.asked[2] == 1 && decisions.asked[3] == 1);
    REQUIRE(report.written == 1 && report.count == 3);
    for (size_t at = 0; at < 3; at++) {
        int kind = report.conflicts[at].kind;
        REQUIRE(strcmp(report.conflicts[at].table, "t") == 0 && report.conflicts[at].choice == decisions.choices[kind]);
        REQUIRE(report.conflicts[at].key.values[0].integer == kind);
    }
    HAS(1, "other");
    HAS(3, "tres");
    stand_in_the_way(db);
    EXPECT(VOLLIKASH_OK, vollikash_apply(db, made, length, 0, decide, &decisions, &report));
    HAS(3, "tres");
    stand_in_the_way(db);
    decisions.choices[VOLLIKASH_CONFLICT_CONFLICT] = ABORT;
    EXPECT(VOLLIKASH_ABORT, vollikash_apply(db, made, length, 0, decide, &decisions, &report));
    ERROR("t", NULL, 3, VOLLIKASH_CONFLICT_CONFLICT);
    decisions.choices[VOLLIKASH_CONFLICT_NOTFOUND] = REPLACE;
    EXPECT(VOLLIKASH_MISUSE, vollikash_apply(db, made, length, 0, decide, &decisions, &report));
    decisions.choices[VOLLIKASH_CONFLICT_NOTFOUND] = 3;
    EXPECT(VOLLIKASH_RANGE, vollikash_apply(db, made, length, 0, decide, &decisions, &report));
    EXPECT(VOLLIKASH_TRUNCATED, vollikash_apply(db, made, length - 1, 0, decide, &decisions, &report));
    REQUIRE(vollikash_error(db)->detail == length - 1);
    decisions.choices[VOLLIKASH_CONFLICT_DATA] = ABORT; /* the first one, after which nothing is asked */
    memset(decisions.asked, 0, sizeof decisions.asked);
    EXPECT_ONCE(VOLLIKASH_ABORT, vollikash_apply(db, made, length, 0, decide, &decisions, &report));
    REQUIRE(decisions.asked[1] == 1 && decisions.asked[2] == 0 && decisions.asked[3] == 0);
    HAS(1, "other");
    HAS(3, "third");
    EXPECT_ONCE(VOLLIKASH_NO_TRANSACTION, vollikash_commit(db));
    free(made);
}

/* An apply in the transaction that is open, with each allocation refused in turn: what it leaves is all or nothing. */
static void test_apply_in_a_transaction(struct vollikash_db *db)
{
    struct decisions decisions = {db, {0, 1, 0, 1, 0}, {0}};
    struct vollikash_report report;
    size_t length;
    int code = VOLLIKASH_NO_MEMORY;
    uint8_t *made = recorded(edit, &length);
    for (long next = 1; code != VOLLIKASH_OK; next++) {
        EXPECT_ONCE(VOLLIKASH_OK, vollikash_begin(db));
        stand_in_the_way(db);
        allocations = 0;
        refused = next;
        code = vollikash_apply(db, made, length, 0, decide, &decisions, &report);
        refused = 0;
        if (code == VOLLIKASH_OK) {
            HAS(1, "uno");
        }
        EXPECT_ONCE(VOLLIKASH_OK, vollikash_rollback(db));
        HAS(1, "one");
        HAS(3, NULL);
    }
    EXPECT_ONCE(VOLLIKASH_OK, vollikash_begin(db));
    stand_in_the_way(db);
    EXPECT_ONCE(VOLLIKASH_OK, vollikash_apply(db, made, length, 0, decide, &decisions, &report));
    REQUIRE(report.count == 3 && report.conflicts[0].key.values[0].integer == 1);
    EXPECT_ONCE(VOLLIKASH_ABORT, vollikash_apply(db, made, length, 0, NULL, NULL, &report));
    EXPECT_ONCE(VOLLIKASH_OK, vollikash_commit(db));
    HAS(1, "uno");
    HAS(3, "tres");
    free(made);
}

/*
** Memory runs out for good within an apply, and is there again for the next call. An apply that has failed leaves no
** transaction open, and no report.
*/
static void test_short_of_memory(struct vollikash_db *db)
{
    struct decisions decisions = {db, {0, 1, 0, 1, 0}, {0}};
    struct vollikash_report report = {0};
    const uint8_t *file;
    size_t length, size;
    int code = VOLLIKASH_NO_MEMORY;
    uint8_t *made = recorded(edit, &length);
    for (long next = 1; code != VOLLIKASH_OK; next++) {
        report.written = 77;
        allocations = 0;
        refuses_rest = 1;
        refused = next;
        code = vollikash_apply(db, made, length, 0, decide, &decisions, &report);
        refused = 0;
        refuses_rest = 0;
        REQUIRE(code == VOLLIKASH_OK || report.written == 77);
        REQUIRE(vollikash_save(db, &file, &size) == VOLLIKASH_OK);
        HAS(1, code == VOLLIKASH_OK ? "uno" : "one");
        EXPECT_ONCE(VOLLIKASH_NO_TRANSACTION, vollikash_commit(db));
    }
    free(made);
}

/* Tables that the store does not have are skipped, and one that it has wider is refused. */
static void test_skipped_and_wider(struct vollikash_db *db)
{
    static const uint8_t two[] = {'T', 1, 1, 'u', 0, 18, 0, 3, 1, 'x', 'T', 1, 1, 'v', 0, 18, 0, 3, 1, 'x'};
    static const uint8_t narrow[] = {'T', 1, 1, 't', 0, 18, 0, 3, 1, 'x'};
    struct vollikash_report report;
    EXPECT(VOLLIKASH_OK, vollikash_apply(db, two, sizeof two, 0, NULL, NULL, &report));
    REQUIRE(report.written == 0 && report.skipped.count == 2 && strcmp(report.skipped.names[1], "v") == 0);
    EXPECT(VOLLIKASH_OK, vollikash_revert(db, two, sizeof two, &report));
    REQUIRE(report.skipped.count == 2 && strcmp(report.skipped.names[0], "u") == 0);
    EXPECT(VOLLIKASH_WIDER, vollikash_apply(db, narrow, sizeof narrow, 0, NULL, NULL, &report));
    ERROR(NULL, NULL, 0, 0);
    EXPECT(VOLLIKASH_WIDER, vollikash_revert(db, narrow, sizeof narrow, &report));
}

/* Values of a change are values of a row. */
static void test_values_of_changes(struct vollikash_db *db)
{
    struct vollikash_change change;
    struct vollikash_fault fault;
    struct vollikash_field fields[2];
    struct vollikash_row row;
    size_t length, place = 0;
    uint8_t *made = recorded(edit, &length);
    while (vollikash_next(made, length, &place, &change, &fault) == VOLLIKASH_OK) {
        if (change.operation == VOLLIKASH_INSERT) {
            REQUIRE(vollikash_values(made, length, &change, VOLLIKASH_NEW, fields, 2) == VOLLIKASH_OK);
            EXPECT(VOLLIKASH_OK, vollikash_put(db, vollikash_table(made, &change), ROW(
                vollikash_datum_of(made, &fields[0]), vollikash_datum_of(made, &fields[1]))));
        }
    }
    EXPECT(VOLLIKASH_OK, vollikash_get(db, "t", KEY(INT(3)), &row));
    SAME(row, ROW(INT(3), TEXT("tres")));
    free(made);
}

/* Runs all tests; with a word only that in which memory runs out for good. */
int main(int count, char **words)
{
    (void)words;
    static void (*const tests[])(struct vollikash_db *) = {
        test_opening, test_tables, test_rows, test_values, test_errors, test_cursor, test_wide_keys, test_transactions, test_saves,
        test_closed, test_sessions, test_there_and_back, test_decisions, test_apply_in_a_transaction,
        test_replaced_table, test_short_of_memory,
        test_skipped_and_wider, test_values_of_changes,
    };
    for (size_t at = 0; at < sizeof tests / sizeof tests[0]; at++) {
        struct vollikash_db db = {0};
        if (count == 1 || tests[at] == test_short_of_memory) {
            open_rows(&db);
            tests[at](&db);
            vollikash_close(&db);
        }
    }
#ifdef REFUSING
    REQUIRE(blocks == 0);
#endif
    return 0;
}
