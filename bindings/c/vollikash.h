/*
** Vollikash checks, iterates over, inverts, concatenates, selects, numbers and prints
** changesets, the files of SQLite's session extension. It keeps stores in memory, which
** apply, record and undo changesets. No call needs SQLite.
**
** For every input it is proved that a call returns, and what it answers, if the caller
** keeps to the rules below. docs/PROMISES.md, "Calls for C", has the few exceptions.
**
**   * No pointer is NULL, not even with length 0. "" is fine there.
**   * A pointer to bytes has as many bytes as its length, at most PTRDIFF_MAX.
**     `written`, `answered`, `fault`, `place`, `change`, `value`, `group` and `store`
**     point to one object of their type. `lengths` and `values` have as many objects as
**     `count` says, at most PTRDIFF_MAX bytes. Each pointer is aligned for its type.
**   * `out`, `written`, `answered`, `fault`, `place`, `change` of vollikash_next,
**     `value`, `values`, `group` and `store` overlap nothing else. Two files may be the
**     same bytes.
**   * While a call runs, nothing else changes what it reads: the files, the names, the
**     lengths and the change. Nothing else reads or changes what it writes to. This
**     holds of other threads, signal handlers and processes that share the memory. So
**     one call at a time uses a group or a store.
**   * A group and a store begin as {0}. Only the calls below change them. They may be
**     moved to another place, but of two copies only one is used after that. None is
**     passed as the other. If several threads use one, a lock, a thread's start or its
**     end orders their calls.
**   * `out`, `written`, `answered`, `fault`, `value` and `values` may be uninitialized: no
**     call reads them. So may the `change` of vollikash_next while `place` is 0. All else
**     is initialized.
**   * No call is made in a signal handler, or in the child of a fork of a process
**     with threads. The stack has 128 KiB left, and 2 MiB for the calls on a store.
**   * malloc, realloc and free belong to one allocator, whose blocks are aligned to
**     16 bytes.
**
** The caller owns every buffer and every struct. A call allocates at most some twenty
** times the bytes of its files and three kilobytes. vollikash_concat_many and a group
** allocate at most some hundred times the bytes of all files and four kilobytes, and so
** much only for tables of one change. bindings/c/memory.c measures both. A call frees all
** of it before it returns, but a group keeps what it has until vollikash_group_close. A
** store keeps until vollikash_store_close: two megabytes for pages, its file and the
** log, the last answer, and the rows that a session has noted.
** vollikash_next, vollikash_value, vollikash_values and vollikash_message allocate
** nothing. A text is made in memory first, and grows with the length of a table's name
** times the number of its changes. No call keeps other state, so several threads can call
** at once, each with groups and stores of its own.
*/
#ifndef VOLLIKASH_H
#define VOLLIKASH_H

#include <stddef.h>
#include <stdint.h>

#ifdef __cplusplus
extern "C" {
#endif

#if defined(__GNUC__)
#define VOLLIKASH_NONNULL __attribute__((nonnull))
#else
#define VOLLIKASH_NONNULL
#endif

/*
** The version of this header and of its library: a million times the major number,
** a thousand times the minor number, and the patch.
*/
#define VOLLIKASH_VERSION 1000000
int vollikash_version(void);

/*
** What a call returns: 0, or the number of an error. The numbers are those of
** docs/ERRORS.md, where a name is written as NoMemory.
*/
enum vollikash_code {
    VOLLIKASH_OK = 0,

    /* The bytes are not the file of a changeset. */
    VOLLIKASH_TRUNCATED = 1,        /* the file ends inside a part */
    VOLLIKASH_NOT_TABLE = 2,        /* the file does not begin with a table */
    VOLLIKASH_PATCHSET = 3,         /* the file is a patchset */
    VOLLIKASH_BAD_VARINT = 4,       /* a count is not a varint in its shortest form */
    VOLLIKASH_COLUMN_COUNT = 5,     /* a table has no column, or more than 32767 */
    VOLLIKASH_NO_KEY = 6,           /* a table has no key column */
    VOLLIKASH_BAD_NAME = 7,         /* a table's name is empty or not UTF-8 */
    VOLLIKASH_DUPLICATE_TABLE = 8,  /* a table is in the file twice */
    VOLLIKASH_EMPTY_GROUP = 9,      /* a table has no change */
    VOLLIKASH_BAD_OP = 10,          /* a change has no known operation */
    VOLLIKASH_BAD_FLAG = 11,        /* an indirect flag is neither 0 nor 1 */
    VOLLIKASH_BAD_TYPE = 12,        /* a field has no known type */
    VOLLIKASH_REAL_VALUE = 13,      /* a field is a floating-point value */
    VOLLIKASH_BAD_TEXT = 14,        /* a text is not UTF-8 */
    VOLLIKASH_UNDEFINED_FIELD = 15, /* a field that must be defined is not */
    VOLLIKASH_UNPAIRED = 16,        /* an update has a field only before or only after */
    VOLLIKASH_NULL_KEY = 17,        /* a key column is NULL */
    VOLLIKASH_DUPLICATE_KEY = 18,   /* a key is in a table twice */

    VOLLIKASH_DAMAGED_STORE = 37, /* the file is a database that is no store */
    VOLLIKASH_STORE_FAULT = 38,   /* the file is no database, or the database refuses, also if
                                  ** memory runs out as a file grows */

    VOLLIKASH_SCHEMA = 43,    /* a table has other columns or another key than in an earlier file */
    VOLLIKASH_NO_MEMORY = 60, /* memory ran out */
    VOLLIKASH_NO_ROOM = 80,   /* `out` is too small, and `written` has the length; or `values` is */
    VOLLIKASH_DONE = 81,      /* no change is left */
    VOLLIKASH_RANGE = 82,     /* a column, a side, a length or a number is out of range */
    VOLLIKASH_NOT_OPEN = 83,  /* the store is not open */
    VOLLIKASH_TRANSACTION_OPEN = 95 /* a transaction of the store is open */
};

/*
** SQLite's result code for a number above, without sqlite3.h: SQLITE_OK,
** SQLITE_CORRUPT, SQLITE_SCHEMA, SQLITE_NOMEM, SQLITE_TOOBIG, SQLITE_DONE,
** SQLITE_RANGE, SQLITE_MISUSE, and SQLITE_ERROR for other numbers.
*/
static inline int vollikash_class(int code)
{
    if (VOLLIKASH_TRUNCATED <= code && code <= VOLLIKASH_DUPLICATE_KEY) {
        return 11;
    }
    switch (code) {
    case VOLLIKASH_OK:
        return 0;
    case VOLLIKASH_SCHEMA:
        return 17;
    case VOLLIKASH_NO_MEMORY:
        return 7;
    case VOLLIKASH_NO_ROOM:
        return 18;
    case VOLLIKASH_DONE:
        return 101;
    case VOLLIKASH_RANGE:
        return 25;
    case VOLLIKASH_DAMAGED_STORE:
        return 11;
    case VOLLIKASH_NOT_OPEN:
        return 21;
    default:
        return 1;
    }
}

/*
** Puts a sentence for people for a number above into `out`, with a zero byte after it,
** and the number of its bytes, the zero byte included, into `written`. A buffer of
** VOLLIKASH_MESSAGE_ROOM bytes is enough. Returns OK; NO_ROOM, with the number that is
** needed; or RANGE for another number. Unless it returns OK, `out` is unchanged.
*/
#define VOLLIKASH_MESSAGE_ROOM 80
int vollikash_message(int code, char *out, size_t room, size_t *written) VOLLIKASH_NONNULL;

/*
** The report of a call. Every call that takes one fills it in.
*/
struct vollikash_fault {
    int code;     /* what the call returns */
    int file;     /* the file at fault: 1 the first or only one, 2 the second and so on; 0 for
                  ** OK, DONE, NO_ROOM, RANGE, NO_MEMORY and of a store */
    size_t place; /* for 1 to 18 a byte offset in that file; for SCHEMA the zero-based
                  ** index, in that file, of the table that differs; else 0 */
};

/*
** Checks whether `length` bytes are the file of a changeset. No bytes are the file of
** the changeset without a table. Returns OK, 1 to 18 or NO_MEMORY.
*/
int vollikash_check(const uint8_t *file, size_t length, struct vollikash_fault *fault) VOLLIKASH_NONNULL;

/*
** Where a change lies in a file, and where its table's name and flags do. A span has
** offsets from the start of the file and no pointers, so it stays valid as long as the
** bytes are the same, wherever they are. vollikash_next fills it in.
*/
struct vollikash_change {
    size_t name;           /* the table's name: its offset, */
    size_t name_length;    /* and its bytes, which are UTF-8 */
    size_t flags;          /* the offset of the flags: a byte for each column, not 0 if it is of the key,
                           ** in SQLite's files its position in the PRIMARY KEY, from 1 */
    size_t columns;        /* the number of columns */
    size_t records;        /* the records of the change: their offset, */
    size_t records_length; /* and their bytes, which end at the new `place` */
    int operation;         /* SQLITE_INSERT 18, SQLITE_DELETE 9 or SQLITE_UPDATE 23 */
    int indirect;          /* 1 if a trigger or a foreign key made the change, else 0 */
};

enum { VOLLIKASH_INSERT = 18, VOLLIKASH_DELETE = 9, VOLLIKASH_UPDATE = 23 };

/*
** Goes to the next change of a file. `place` is 0 before the first call; each later
** call takes `place` and `change` as the previous one left them, and the same file:
**
**     struct vollikash_change change;
**     struct vollikash_fault fault;
**     size_t place = 0;
**     int code;
**     while ((code = vollikash_next(file, length, &place, &change, &fault)) == VOLLIKASH_OK) {
**         ..
**     }
**
** Returns OK, or DONE at the end of the file, or an error, 1 to 7 or 9 to 17, if no
** further change can be read; then `place` and `change` are unchanged. The error and its
** place are those of vollikash_check. But vollikash_next does not notice that a table or
** a key is in the file twice, 8 and 18: it goes on, to the end or to another error. A
** call takes time in proportion to the change.
*/
int vollikash_next(const uint8_t *file, size_t length, size_t *place, struct vollikash_change *change,
                   struct vollikash_fault *fault) VOLLIKASH_NONNULL;

/* The table's name, a string: `name_length` bytes, none of them zero, and a zero byte. */
static inline const char *vollikash_table(const uint8_t *file, const struct vollikash_change *change)
{
    return (const char *)(file + change->name);
}

/* Whether a column is one of the key. `column` is less than `columns`. */
static inline int vollikash_is_key(const uint8_t *file, const struct vollikash_change *change, size_t column)
{
    return file[change->flags + column] != 0;
}

/* What a value is: SQLite's numbers of the types, and 0 if the change does not have it. */
enum {
    VOLLIKASH_UNDEFINED = 0,
    VOLLIKASH_INTEGER = 1,
    VOLLIKASH_TEXT = 3,
    VOLLIKASH_BLOB = 4,
    VOLLIKASH_NULL = 5
};

/* A value of a change, or where it lies in the file. */
struct vollikash_field {
    int kind;        /* one of the above */
    int64_t integer; /* the integer, else 0 */
    size_t offset;   /* the text or the blob: its offset, else 0, */
    size_t length;   /* and its bytes, else 0 */
};

/* A side of a change: before it, which an INSERT does not have, or after it, which a DELETE does not have. */
enum { VOLLIKASH_OLD = 0, VOLLIKASH_NEW = 1 };

/*
** Fills in what a change has in a zero-based column on one side. `change` is as
** vollikash_next left it for the same file. A column that an UPDATE does not modify,
** the key after an UPDATE, and the side that a change does not have are
** VOLLIKASH_UNDEFINED. A text is UTF-8. Returns OK, or RANGE if there is no such column
** or side. For a `change` that vollikash_next did not return for these bytes it may also
** return 1, 4 or 12 to 14, and a value that means nothing. Unless it returns OK, `value`
** is unchanged. A call takes time in proportion to the bytes of the change up to the
** value.
*/
int vollikash_value(const uint8_t *file, size_t length, const struct vollikash_change *change, int side,
                    size_t column, struct vollikash_field *value) VOLLIKASH_NONNULL;

/*
** Fills in what a change has in each column on one side, in the order of the columns, in
** one pass over the change: the first change->columns of `values`. `change`, `side` and
** each value are as for vollikash_value. Returns OK, or NO_ROOM if `count` is less than
** change->columns, or RANGE if there is no such side; then `values` is unchanged. For a
** `change` that vollikash_next did not return for these bytes it may also return 1, 4 or
** 12 to 14, and values that mean nothing. Values after those of the columns are always
** unchanged. A call takes time in proportion to the bytes of the change.
*/
int vollikash_values(const uint8_t *file, size_t length, const struct vollikash_change *change,
                     int side, struct vollikash_field *values, size_t count) VOLLIKASH_NONNULL;

/* The bytes of a text or a blob, of which there are `length`. No zero byte is after them. */
static inline const uint8_t *vollikash_bytes(const uint8_t *file, const struct vollikash_field *value)
{
    return file + value->offset;
}

/*
** The calls below make bytes from files. If these are at most `room`, a call puts
** them at the front of `out`, sets `written` to their number and returns OK. The rest
** of `out` is unchanged. If they are more, it sets `written` to their number and
** returns NO_ROOM. For any other error `written` is 0. After an error `out` is
** unchanged.
*/

/*
** Makes the inverse, which undoes what the file does. It is as long as the file.
** Errors: 1 to 18, NO_MEMORY, NO_ROOM.
*/
int vollikash_invert(const uint8_t *file, size_t length, uint8_t *out, size_t room, size_t *written,
                     struct vollikash_fault *fault) VOLLIKASH_NONNULL;

/*
** Makes the same changeset with the columns of each key numbered in column order, 1,
** 2 and so on, and 255 from the 255th on. It has the same changes and the same length.
** SQLite's sqlite3changeset_apply silently skips a table whose flags are not the
** positions of its columns in the PRIMARY KEY. A store's changeset marks each of them by
** 1, and this call numbers them. It takes them to be in column order, which is wrong for
** PRIMARY KEY(b, a). A file that SQLite recorded has the right numbers, and so has its
** inverse: do not call this on them. Errors: 1 to 18, NO_MEMORY, NO_ROOM.
*/
int vollikash_number_keys(const uint8_t *file, size_t length, uint8_t *out, size_t room, size_t *written,
                          struct vollikash_fault *fault) VOLLIKASH_NONNULL;

/*
** Makes the concatenation, which does what the first file does and then what the
** second does. It is at most as long as both together. Errors: 1 to 18 for the first
** file, else for the second, else SCHEMA for the second; NO_MEMORY, NO_ROOM.
*/
int vollikash_concat(const uint8_t *first, size_t first_length, const uint8_t *second, size_t second_length,
                     uint8_t *out, size_t room, size_t *written, struct vollikash_fault *fault) VOLLIKASH_NONNULL;

/*
** Makes the concatenation of many files, which are in one buffer, one after the other,
** and have these lengths. It does what the first does, then what the second does, and
** so on, and is at most as long as all together. Without a file it has no bytes. Errors:
** 1 to 18 and SCHEMA for the first file at fault, which is in `fault`, counted from
** 1; RANGE if a length is more than the bytes that are left, or bytes are left after the
** last file; NO_MEMORY, NO_ROOM. Wrong lengths can also look like a damaged file. It
** takes time in proportion to the bytes of the files, and for each change of a row that
** an earlier file has changed to both changes. Keys that were chosen to have the same hash
** take longer.
*/
int vollikash_concat_many(const uint8_t *files, size_t files_length, const size_t *lengths, size_t count,
                          uint8_t *out, size_t room, size_t *written,
                          struct vollikash_fault *fault) VOLLIKASH_NONNULL;

/*
** A concatenation to which files are added one by one, as SQLite's sqlite3_changegroup.
** {0} is one without files:
**
**     struct vollikash_group group = {0};
**     vollikash_group_add(&group, first, first_length, &fault);
**     vollikash_group_add(&group, second, second_length, &fault);
**     ..
**     uint8_t *out = malloc(vollikash_group_limit(&group) + 1);
**     vollikash_group_output(&group, out, vollikash_group_limit(&group), &written, &fault);
**     vollikash_group_close(&group);
**
** The calls may come in any order, also after vollikash_group_close.
*/
struct vollikash_group {
    void *at; /* what the group has, or NULL; only the calls use it */
};

/*
** Adds a file to a group, which then does what it did and then what the file does. The
** file is copied. Returns OK; 1 to 18 if the file is damaged; SCHEMA if a table has
** other columns or another key than in the group; or NO_MEMORY. After an error the group
** does what it did; it has to be closed also then. `fault` has file 1, or 0 for NO_MEMORY,
** and `place` as above. A call takes time as vollikash_concat_many does for the file, and
** after NO_MEMORY for all files.
*/
int vollikash_group_add(struct vollikash_group *group, const uint8_t *file, size_t length,
                        struct vollikash_fault *fault) VOLLIKASH_NONNULL;

/*
** Returns how many bytes of `out` are enough for vollikash_group_output: the sum of the
** lengths of the files that were added.
*/
size_t vollikash_group_limit(const struct vollikash_group *group) VOLLIKASH_NONNULL;

/*
** Makes the concatenation of the files that were added, in their order. Without a file,
** and if nothing is left, it has no bytes. More files can be added after that. Errors:
** NO_MEMORY, NO_ROOM. The file is made also for NO_ROOM. It takes time in proportion to
** all files that were added.
*/
int vollikash_group_output(struct vollikash_group *group, uint8_t *out, size_t room,
                           size_t *written, struct vollikash_fault *fault) VOLLIKASH_NONNULL;

/* Frees what a group has. After that it is {0}, a group without files. */
void vollikash_group_close(struct vollikash_group *group) VOLLIKASH_NONNULL;

/*
** Makes the file of the tables that are named, in the order of the file. A zero byte is
** between two names, and may be after the last, so "a\0b" with its length 4 names a and
** b. Names are compared byte by byte. One that the file does not have is ignored; without
** any the result has no bytes. It is at most as long as the file.
** Errors: 1 to 18, NO_MEMORY, NO_ROOM.
*/
int vollikash_select(const uint8_t *file, size_t length, const char *names, size_t names_length, uint8_t *out,
                     size_t room, size_t *written, struct vollikash_fault *fault) VOLLIKASH_NONNULL;

/*
** Makes a text in UTF-8, without a zero byte after it: a line for each table and each
** change. Errors: 1 to 18, NO_MEMORY, NO_ROOM.
*/
int vollikash_dump(const uint8_t *file, size_t length, uint8_t *out, size_t room, size_t *written,
                   struct vollikash_fault *fault) VOLLIKASH_NONNULL;

/*
** Makes readable SQL in UTF-8, without a zero byte after it: a statement for each
** change. The format has no names of columns, so they are c1, c2 and so on. Errors: 1
** to 18, NO_MEMORY, NO_ROOM.
*/
int vollikash_sql(const uint8_t *file, size_t length, uint8_t *out, size_t room, size_t *written,
                  struct vollikash_fault *fault) VOLLIKASH_NONNULL;

/*
** A store in memory: its tables are read and changed by the calls of docs/CALLS.md, each
** without its frame. vollikash_store.h makes them of values of C. {0} is one that is not
** open. Without the tests of what is returned:
**
**     struct vollikash_store store = {0};
**     vollikash_store_open(&store, file, length, &fault);
**     vollikash_store_call(&store, call, call_length, &answered);
**     vollikash_store_answer(&store, answer, room, &written);
**     ..
**     vollikash_store_close(&store);
**
** On one that is not open, `call`, `answer` and `save` return NOT_OPEN. Nothing lasts but
** the bytes that vollikash_store_save makes.
*/
struct vollikash_store {
    void *at; /* what the store has, or NULL; only the calls use it */
};

/*
** Opens the store in the bytes of a database file, as vollikash_store_save makes it, and
** as `changeset` and sqlite3 leave it once it is closed; "" with length 0 makes a new one.
** What a -wal or a -journal next to the file has is not in it. The file is copied. If a
** store was open, it is freed. Returns OK; DAMAGED_STORE if the database has a `rec` that
** is not the table of records, or has records that are invalid; STORE_FAULT if the file is
** no database, or the database refuses; or NO_MEMORY. Another database becomes a store next
** to its tables. After an error what was open stays as it was. `fault` has the code, and
** no file and place. It takes time in proportion to the file.
*/
int vollikash_store_open(struct vollikash_store *store, const uint8_t *file, size_t length,
                         struct vollikash_fault *fault) VOLLIKASH_NONNULL;

/*
** Carries out one call of any length, and keeps its answer until the next one. `answered`
** gets the length of the answer. Returns OK, also if the answer is that the call is
** refused; NOT_OPEN; or NO_MEMORY: then there is no answer, `answered` is 0, and the call
** was not carried out, or it was refused. After NO_MEMORY for *commit* or *roll back* send
** *roll back*.
*/
int vollikash_store_call(struct vollikash_store *store, const uint8_t *call, size_t length,
                         size_t *answered) VOLLIKASH_NONNULL;

/*
** Puts the answer to the last call into `out`, and its length into `written`. It can be
** asked for again. Before the first call, and after NO_MEMORY, it has no bytes. Returns
** OK; NO_ROOM, with the length that is needed; or NOT_OPEN. Unless it returns OK, `out` is
** unchanged.
*/
int vollikash_store_answer(struct vollikash_store *store, uint8_t *out, size_t room,
                           size_t *written) VOLLIKASH_NONNULL;

/*
** Puts the bytes of a database file that has the tables of the store, and no log, into
** `out`, and their number into `written`. The store keeps its tables, its session and the
** answer. Returns OK; NO_ROOM, with the length that is needed; NOT_OPEN; TRANSACTION_OPEN;
** STORE_FAULT; or NO_MEMORY. Unless it returns OK, `out` is unchanged. It takes time in
** proportion to the store, and so does the next call. Saved again without a call between,
** the bytes are the same, and are only copied. docs/C.md, "Saved files", says how to put
** them into a file.
*/
int vollikash_store_save(struct vollikash_store *store, uint8_t *out, size_t room,
                         size_t *written) VOLLIKASH_NONNULL;

/* Frees what a store has. After that it is {0}. An open transaction is rolled back. */
void vollikash_store_close(struct vollikash_store *store) VOLLIKASH_NONNULL;

#ifdef __cplusplus
}
#endif

#endif /* VOLLIKASH_H */
