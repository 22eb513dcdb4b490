/*
** The calls of Vollikash that `calls.c` makes: check, next, invert, concat, concat_many; and
** inserts that a session records in a store in memory (record, record_as_one).
*/
#include <stdio.h>
#include <stdlib.h>
#include <string.h>

#include "calls.h"
#include "vollikash_store.h"

/* As many columns as SQLite's default limit allows. */
enum { COLUMNS = 2000 };

/* Goes over all changes of a file and their values. */
static int pass(const struct bytes *file)
{
    static struct vollikash_field values[COLUMNS];
    struct vollikash_change change;
    struct vollikash_fault fault;
    size_t place = 0;
    int code;
    while ((code = vollikash_next(file->at, file->count, &place, &change, &fault)) == 0) {
        for (int side = VOLLIKASH_OLD; side <= VOLLIKASH_NEW; side++) {
            vollikash_values(file->at, file->count, &change, side, values, COLUMNS);
            for (size_t column = 0; column < change.columns; column++) {
                const struct vollikash_field *value = &values[column];
                sum += value->kind + value->integer + (long long)value->length;
            }
        }
    }
    return code == VOLLIKASH_DONE ? VOLLIKASH_OK : code;
}

/* Creates the table t with so many columns, the first one its key. */
static int create(struct vollikash_db *db, size_t columns)
{
    static char names[COLUMNS][8];
    static struct vollikash_column all[COLUMNS];
    for (size_t column = 0; column < columns; column++) {
        snprintf(names[column], sizeof names[column], "c%zu", column);
        all[column].name = names[column];
        all[column].marks = column == 0 ? VOLLIKASH_COLUMN_KEY : 0;
    }
    return vollikash_create(db, "t", (struct vollikash_columns){all, columns});
}

/* Inserts the rows of a file of INSERTs. */
static int insert_all(struct vollikash_db *db, const struct bytes *file)
{
    static struct vollikash_field fields[COLUMNS];
    static struct vollikash_datum values[COLUMNS];
    struct vollikash_change change;
    struct vollikash_fault fault;
    size_t place = 0;
    int code = VOLLIKASH_OK, read = vollikash_next(file->at, file->count, &place, &change, &fault);
    while (read == VOLLIKASH_OK && code == VOLLIKASH_OK) {
        vollikash_values(file->at, file->count, &change, VOLLIKASH_NEW, fields, COLUMNS);
        for (size_t column = 0; column < change.columns; column++) {
            values[column] = vollikash_datum_of(file->at, &fields[column]);
        }
        code = vollikash_insert(db, "t", (struct vollikash_row){values, change.columns});
        read = vollikash_next(file->at, file->count, &place, &change, &fault);
    }
    return code != VOLLIKASH_OK || read == VOLLIKASH_DONE ? code : read;
}

/* Records these inserts, each a transaction of its own or all one, and makes their changeset. */
static int record(const struct bytes *file, int is_one, struct bytes *out)
{
    struct vollikash_db db = {0};
    const uint8_t *made = NULL;
    int code = vollikash_open(&db, (const uint8_t *)"", 0);
    code = code ? code : create(&db, file->at[1]);
    code = code ? code : vollikash_session_open(&db);
    code = code ? code : vollikash_session_attach(&db, "t");
    code = code || !is_one ? code : vollikash_begin(&db);
    code = code ? code : insert_all(&db, file);
    code = code || !is_one ? code : vollikash_commit(&db);
    code = code ? code : vollikash_session_changeset(&db, &made, &out->count);
    out->at = code ? NULL : malloc(out->count + 1);
    if (out->at != NULL) {
        memcpy(out->at, made, out->count);
    }
    vollikash_close(&db);
    return code;
}

int call(const char *operation, const char *name, const struct bytes *files, struct bytes *out)
{
    struct vollikash_fault fault;
    const struct bytes *first = &files[0], *second = &files[1];
    size_t room = first->count + second->count;
    (void)name;
    if (strcmp(operation, "check") == 0) {
        return vollikash_check(first->at, first->count, &fault);
    }
    if (strcmp(operation, "next") == 0) {
        return pass(first);
    }
    if (strncmp(operation, "record", 6) == 0) {
        return record(first, operation[6] != '\0', out);
    }
    out->at = malloc(room + 1);
    if (out->at == NULL) {
        return VOLLIKASH_NO_MEMORY;
    }
    if (strcmp(operation, "invert") == 0) {
        return vollikash_invert(first->at, first->count, out->at, room, &out->count, &fault);
    }
    if (strcmp(operation, "concat_many") == 0) {
        const size_t *lengths = (const size_t *)(const void *)second->at;
        size_t files = second->count / sizeof *lengths;
        return vollikash_concat_many(first->at, first->count, lengths, files, out->at, room,
                                     &out->count, &fault);
    }
    return vollikash_concat(first->at, first->count, second->at, second->count, out->at, room,
                            &out->count, &fault);
}

void discard(struct bytes *out)
{
    free(out->at);
    out->at = NULL;
}
