/*
** Measures how much memory each call takes at most, for files whose parts are as short as they can be: tables of one
** change with names of two bytes, and changes of one column. Prints it for each call, and ends with status 1 if it is
** more than vollikash.h says. It is linked so that calls of malloc, calloc, realloc and free come here, and counts what
** their blocks can hold.
*/
#include <malloc.h>
#include <stdio.h>
#include <stdlib.h>
#include <string.h>

#include "vollikash.h"

/* What vollikash.h says: twenty times the bytes of the files, and three kilobytes; of many files
** a hundred times, and four kilobytes.
*/
enum { TIMES = 20, MORE = 3 * 1024, MANY_TIMES = 100, MANY_MORE = 4 * 1024, LETTERS = 127, MOST = 8193 };

/* How many tables or changes a file has. What grows doubles, so one more than a power of two takes the most. */
static const int counts[] = {1, 9, 129, MOST};

void *__real_malloc(size_t size);
void *__real_calloc(size_t count, size_t size);
void *__real_realloc(void *memory, size_t size);
void __real_free(void *memory);
void *__wrap_malloc(size_t size);
void *__wrap_calloc(size_t count, size_t size);
void *__wrap_realloc(void *memory, size_t size);
void __wrap_free(void *memory);

/* The bytes of the blocks that are not yet freed, and how many they were at most. */
static size_t held = 0;
static size_t most = 0;

static void *counted(void *memory)
{
    held += malloc_usable_size(memory);
    most = held > most ? held : most;
    return memory;
}

void *__wrap_malloc(size_t size)
{
    return counted(__real_malloc(size));
}

void *__wrap_calloc(size_t count, size_t size)
{
    return counted(__real_calloc(count, size));
}

/* The new block is counted next to the old one, which is there until it is copied. */
void *__wrap_realloc(void *memory, size_t size)
{
    size_t before = malloc_usable_size(memory);
    void *moved = counted(__real_realloc(memory, size));
    if (moved != NULL) {
        held -= before;
    }
    return moved;
}

void __wrap_free(void *memory)
{
    held -= malloc_usable_size(memory);
    __real_free(memory);
}

/* Bytes that are written one after the other. */
struct bytes {
    uint8_t at[12 * MOST];
    size_t count;
};

static void add(struct bytes *bytes, const void *more, size_t count)
{
    memcpy(bytes->at + bytes->count, more, count);
    bytes->count += count;
}

/* So many tables of one change, or one table of so many changes, in falling order. */
static void make(struct bytes *bytes, int count, int in_tables, uint8_t operation)
{
    bytes->count = 0;
    if (!in_tables) {
        add(bytes, "\x54\x01\x01t", 5);
    }
    while (count-- > 0) {
        uint8_t high = (uint8_t)(1 + count / LETTERS), low = (uint8_t)(1 + count % LETTERS);
        uint8_t table[] = {0x54, 1, 1, high, low, 0, operation, 0, 3, 0}, change[] = {operation, 0, 3, 2, high, low};
        if (in_tables) {
            add(bytes, table, sizeof table);
        } else {
            add(bytes, change, sizeof change);
        }
    }
}

/* The names of so many tables. */
static void make_names(struct bytes *names, int count)
{
    names->count = 0;
    while (count-- > 0) {
        uint8_t name[] = {(uint8_t)(1 + count / LETTERS), (uint8_t)(1 + count % LETTERS), 0};
        add(names, name, sizeof name);
    }
}

static struct bytes first, second, names;
static uint8_t both[2 * sizeof first.at], out[2 * sizeof first.at];
static size_t lengths[2];

/* The numbers of the first call that takes both files, and of the first that takes many. */
enum { CONCAT = 4, CONCAT_MANY = 5 };

/* Adds both files to a group, makes its file, and closes it. */
static int call_group(size_t *written, struct vollikash_fault *fault)
{
    struct vollikash_group group = {0};
    int code = vollikash_group_add(&group, first.at, first.count, fault);
    if (code == VOLLIKASH_OK) {
        code = vollikash_group_add(&group, second.at, second.count, fault);
    }
    if (code == VOLLIKASH_OK) {
        code = vollikash_group_output(&group, out, sizeof out, written, fault);
    }
    vollikash_group_close(&group);
    return code;
}

/* Makes the call with a number, and returns its name, or NULL if there is none. */
static const char *call(int number, int *code)
{
    size_t written;
    struct vollikash_fault fault;
    switch (number) {
    case 0:
        *code = vollikash_check(first.at, first.count, &fault);
        return "check";
    case 1:
        *code = vollikash_invert(first.at, first.count, out, sizeof out, &written, &fault);
        return "invert";
    case 2:
        *code = vollikash_number_keys(first.at, first.count, out, sizeof out, &written, &fault);
        return "number_keys";
    case 3:
        *code = vollikash_select(first.at, first.count, (const char *)names.at, names.count, out, sizeof out, &written,
                                 &fault);
        return "select";
    case CONCAT:
        *code = vollikash_concat(first.at, first.count, second.at, second.count, out, sizeof out, &written, &fault);
        return "concat";
    case CONCAT_MANY:
        memcpy(both, first.at, first.count);
        memcpy(both + first.count, second.at, second.count);
        *code = vollikash_concat_many(both, first.count + second.count, lengths, 2, out, sizeof out, &written, &fault);
        return "concat_many";
    case CONCAT_MANY + 1:
        *code = call_group(&written, &fault);
        return "group";
    default:
        return NULL;
    }
}

/* Makes each call, and returns whether each takes as much as vollikash.h says, and frees it. */
static int measure(int count, int in_tables)
{
    int fits = 1, code;
    const char *name;
    make(&first, count, in_tables, VOLLIKASH_INSERT);
    make(&second, count, in_tables, VOLLIKASH_DELETE);
    make_names(&names, count);
    lengths[0] = first.count;
    lengths[1] = second.count;
    for (int number = 0; most = 0, (name = call(number, &code)) != NULL; number++) {
        size_t bytes = first.count + (number < CONCAT ? 0 : second.count);
        printf("%d %s, %s: %zu bytes for %zu, %.1f times\n", count, in_tables ? "tables" : "changes", name, most, bytes,
               (double)most / (double)bytes);
        size_t limit = number < CONCAT_MANY ? TIMES * bytes + MORE : MANY_TIMES * bytes + MANY_MORE;
        fits &= code == VOLLIKASH_OK && held == 0 && most <= limit;
    }
    return fits;
}

int main(void)
{
    int fits = 1;
    for (size_t i = 0; i < sizeof counts / sizeof *counts; i++) {
        fits &= measure(counts[i], 0) & measure(counts[i], 1);
    }
    return !fits;
}
