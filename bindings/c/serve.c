/*
** Serves a store as changeset-calls does, but by the library: it reads the frames of calls on standard input, and
** writes those of the answers to standard output (docs/CALLS.md).
**
**     serve STORE        opens the store in a file, or a new one if there is none, and saves it there at the end
**     serve :memory:     opens a new store, and saves it nowhere
**
** The status is 0 if the input ended after a call and the store was saved.
**
** If it is built with REFUSING, and linked so that calls of malloc, calloc, realloc and free come here, each allocation
** of each call outside a transaction is refused, one at a time, and the call is made again. A call that memory is
** refused to answers NO_MEMORY, or is refused with 60 or 38; any other answer counts. So the answers are those of
** calls that are made once, if a refused one changes nothing.
*/
#include <stdio.h>
#include <stdlib.h>
#include <string.h>

#include "vollikash.h"

enum { HEADER = 4, REFUSED = 11, CODE = 8, BEGIN = 11, COMMIT = 12, ROLL_BACK = 13 };

/* Bytes in a block that is just as long. */
struct bytes {
    uint8_t *at;
    size_t count;
};

static void require(int holds, const char *what)
{
    if (!holds) {
        fprintf(stderr, "serve: %s\n", what);
        exit(1);
    }
}

static struct bytes make(size_t count)
{
    struct bytes bytes = {malloc(count + (count == 0)), count};
    require(bytes.at != NULL, "out of memory");
    return bytes;
}

/* Reads bytes, or as many as the input has. */
static size_t read_bytes(void *at, size_t count, FILE *input)
{
    size_t got = fread(at, 1, count, input);
    require(!ferror(input), "an input is not read");
    return got;
}

static size_t size_in(const uint8_t *header)
{
    return (size_t)header[0] << 24 | (size_t)header[1] << 16 | (size_t)header[2] << 8 | header[3];
}

/* The bytes of a file, or none if there is no file. */
static struct bytes contents_of(const char *path)
{
    FILE *file = fopen(path, "rb");
    if (file == NULL) {
        return make(0);
    }
    require(fseek(file, 0, SEEK_END) == 0, "a file has no end");
    long size = ftell(file);
    require(size >= 0, "a file has no size");
    rewind(file);
    struct bytes bytes = make((size_t)size);
    require(read_bytes(bytes.at, bytes.count, file) == bytes.count, "a file is not read");
    fclose(file);
    return bytes;
}

#ifdef REFUSING

#include "refusing.h"

/* Whether the answer to a call says that memory ran out, or that the database refuses. */
static int ran_out(struct vollikash_store *store, int code, size_t answered)
{
    struct bytes answer = make(answered);
    size_t written = 0;
    if (code == VOLLIKASH_NO_MEMORY) {
        require(answered == 0, "a call that memory is refused to has an answer");
    } else {
        require(vollikash_store_answer(store, answer.at, answered, &written) == VOLLIKASH_OK, "there is no answer");
    }
    int says_so = written > CODE && answer.at[0] == REFUSED && (answer.at[CODE] == VOLLIKASH_NO_MEMORY ||
                                                                answer.at[CODE] == VOLLIKASH_STORE_FAULT);
    free(answer.at);
    return code == VOLLIKASH_NO_MEMORY || says_so;
}

/* Makes a call again and again, with each of its allocations refused in turn, until none is. */
static int call(struct vollikash_store *store, struct bytes call, size_t *answered)
{
    static int is_inside = 0;
    int number = call.count == 1 ? call.at[0] : 0;
    int code;
    for (long at = is_inside ? 0 : 1;; at++) {
        allocations = 0;
        refused = at;
        code = vollikash_store_call(store, call.at, call.count, answered);
        refused = 0;
        if (at == 0 || allocations < at || !ran_out(store, code, *answered)) {
            break;
        }
    }
    is_inside = number == BEGIN || (is_inside && number != COMMIT && number != ROLL_BACK);
    return code;
}

#else

static int call(struct vollikash_store *store, struct bytes call, size_t *answered)
{
    return vollikash_store_call(store, call.at, call.count, answered);
}

#endif

/* Writes the frame of the answer to a call. */
static void answer(struct vollikash_store *store, struct bytes given)
{
    size_t answered, written;
    require(call(store, given, &answered) == VOLLIKASH_OK, "a call is not answered");
    struct bytes made = make(answered);
    if (answered > 0) {
        require(vollikash_store_answer(store, made.at, answered - 1, &written) == VOLLIKASH_NO_ROOM,
                "an answer has room where there is none");
        require(written == answered, "an answer needs another room");
    }
    require(vollikash_store_answer(store, made.at, answered, &written) == VOLLIKASH_OK && written == answered,
            "an answer is not the one that was announced");
    uint8_t header[HEADER] = {(uint8_t)(answered >> 24), (uint8_t)(answered >> 16), (uint8_t)(answered >> 8),
                              (uint8_t)answered};
    require(fwrite(header, 1, HEADER, stdout) == HEADER && fwrite(made.at, 1, answered, stdout) == answered &&
                fflush(stdout) == 0,
            "an answer is not written");
    free(made.at);
}

/* Answers the calls of the input, up to its end. */
static void answer_all(struct vollikash_store *store)
{
    uint8_t header[HEADER];
    size_t got;
    while ((got = read_bytes(header, HEADER, stdin)) == HEADER) {
        struct bytes given = make(size_in(header));
        require(read_bytes(given.at, given.count, stdin) == given.count, "the input ends within a call");
        answer(store, given);
        free(given.at);
    }
    require(got == 0, "the input ends within a length");
}

/* The bytes of the store's file. */
static struct bytes saved(struct vollikash_store *store)
{
    size_t needed, written;
    struct bytes none = make(0);
    int code = vollikash_store_save(store, none.at, 0, &needed);
    require(code == VOLLIKASH_NO_ROOM || (code == VOLLIKASH_OK && needed == 0), "a store is not saved");
    free(none.at);
    struct bytes made = make(needed);
    require(vollikash_store_save(store, made.at, needed, &written) == VOLLIKASH_OK && written == needed,
            "a store is saved otherwise the second time");
    return made;
}

static void write_file(const char *path, struct bytes bytes)
{
    FILE *file = fopen(path, "wb");
    require(file != NULL, "a file is not opened");
    require(fwrite(bytes.at, 1, bytes.count, file) == bytes.count && fclose(file) == 0, "a file is not written");
}

int main(int count, char **words)
{
    struct vollikash_store store = {0};
    struct vollikash_fault fault;
    require(count == 2, "usage: serve STORE");
    int has_file = strcmp(words[1], ":memory:") != 0;
    struct bytes file = has_file ? contents_of(words[1]) : make(0);
    require(vollikash_store_open(&store, file.at, file.count, &fault) == VOLLIKASH_OK, "a store is not opened");
    free(file.at);
    answer_all(&store);
    if (has_file) {
        size_t answered;
        uint8_t roll_back = ROLL_BACK;
        require(vollikash_store_call(&store, &roll_back, 1, &answered) == VOLLIKASH_OK, "a call is not answered");
        struct bytes made = saved(&store);
        write_file(words[1], made);
        free(made.at);
    }
    vollikash_store_close(&store);
    vollikash_store_close(&store);
    require(store.at == NULL, "a store that is closed is not empty");
    return 0;
}
