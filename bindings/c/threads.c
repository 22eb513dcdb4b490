/*
** Uses stores in several threads at once, one in each, with 2 MiB of stack. It ends with status 0 if each store has
** what its thread did. It is built with the thread sanitizer.
*/
#include <pthread.h>
#include <stdio.h>
#include <stdlib.h>
#include <string.h>

#include "vollikash.h"

enum { THREADS = 4, STACK = 2 * 1024 * 1024, ROWS = 200, ROUNDS = 3 };

static void require(int holds, const char *what)
{
    if (!holds) {
        fprintf(stderr, "threads: %s\n", what);
        exit(1);
    }
}

/* Makes a call, and requires that its answer begins with a number. */
static void ask(struct vollikash_store *store, const void *call, size_t length, uint8_t number, size_t last)
{
    uint8_t answer[64];
    size_t written;
    require(vollikash_store_call(store, call, length, &written) == VOLLIKASH_OK, "a call is not answered");
    require(written <= sizeof answer, "an answer is too long");
    require(vollikash_store_answer(store, answer, written, &written) == VOLLIKASH_OK, "there is no answer");
    require(answer[0] == number, "a call is answered otherwise");
    require(last == 0 || answer[written - 1] == last, "a number is another one");
}

/* Saves a store, closes it, and opens it again from its bytes. */
static void reopen(struct vollikash_store *store)
{
    struct vollikash_fault fault;
    size_t needed, written;
    require(vollikash_store_save(store, (uint8_t *)"", 0, &needed) == VOLLIKASH_NO_ROOM, "a store is not saved");
    uint8_t *file = malloc(needed);
    require(file != NULL, "out of memory");
    require(vollikash_store_save(store, file, needed, &written) == VOLLIKASH_OK, "a store is not saved");
    vollikash_store_close(store);
    require(vollikash_store_open(store, file, written, &fault) == VOLLIKASH_OK, "a store is not opened again");
    free(file);
}

static void *work(void *unused)
{
    struct vollikash_store store = {0};
    struct vollikash_fault fault;
    require(vollikash_store_open(&store, (const uint8_t *)"", 0, &fault) == VOLLIKASH_OK, "a store is not opened");
    /* Declare t(a), and count its rows. */
    ask(&store, "\x03\x01t\x01\x01" "a\x01", 7, 0, 0);
    for (int round = 0; round < ROUNDS; round++) {
        for (int key = 0; key < ROWS; key++) {
            uint8_t insert[13] = {7, 1, 't', 1, 1};
            insert[11] = (uint8_t)round;
            insert[12] = (uint8_t)key;
            ask(&store, insert, sizeof insert, 0, 0);
        }
        reopen(&store);
    }
    ask(&store, "\x06\x01t", 3, 5, ROUNDS * ROWS % 256);
    vollikash_store_close(&store);
    return unused;
}

int main(void)
{
    pthread_t threads[THREADS];
    pthread_attr_t attributes;
    require(pthread_attr_init(&attributes) == 0, "no attributes of threads");
    require(pthread_attr_setstacksize(&attributes, STACK) == 0, "no such stack");
    for (int i = 0; i < THREADS; i++) {
        require(pthread_create(&threads[i], &attributes, work, NULL) == 0, "no thread");
    }
    for (int i = 0; i < THREADS; i++) {
        require(pthread_join(threads[i], NULL) == 0, "a thread is lost");
    }
    pthread_attr_destroy(&attributes);
    return 0;
}
