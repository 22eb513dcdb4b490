/*
** An allocator for test programs that are linked so that calls of malloc, calloc, realloc and free come here; or those
** of one file, which is compiled so, if this is compiled with OF_ONE_FILE.
*/
#ifndef REFUSING_H
#define REFUSING_H

#include <stddef.h>
#include <stdlib.h>

#ifdef OF_ONE_FILE
#define __real_malloc malloc
#define __real_calloc calloc
#define __real_realloc realloc
#define __real_free free
#else
void *__real_malloc(size_t size);
void *__real_calloc(size_t count, size_t size);
void *__real_realloc(void *memory, size_t size);
void __real_free(void *memory);
#endif
void *__wrap_malloc(size_t size);
void *__wrap_calloc(size_t count, size_t size);
void *__wrap_realloc(void *memory, size_t size);
void __wrap_free(void *memory);

/*
** Which allocation is refused, counted from here on, or none for 0; whether those after it are refused too; how many
** were asked for, and how many blocks are not yet freed. Compilers take it that malloc does not look at them.
*/
static volatile long refused = 0;
static volatile int refuses_rest = 0;
static volatile long allocations = 0;
static volatile long blocks = 0;

/* Counts an allocation, and returns whether it is refused. */
static int is_refused(void)
{
    allocations++;
    return refused > 0 && (allocations == refused || (refuses_rest && allocations > refused));
}

/* Counts a block. */
static void *counted(void *memory)
{
    blocks = blocks + (memory != NULL);
    return memory;
}

void *__wrap_malloc(size_t size)
{
    return is_refused() ? NULL : counted(__real_malloc(size));
}

void *__wrap_calloc(size_t count, size_t size)
{
    return is_refused() ? NULL : counted(__real_calloc(count, size));
}

void *__wrap_realloc(void *memory, size_t size)
{
    if (is_refused()) {
        return NULL;
    }
    void *moved = __real_realloc(memory, size);
    return memory == NULL ? counted(moved) : moved;
}

void __wrap_free(void *memory)
{
    blocks = blocks - (memory != NULL);
    __real_free(memory);
}

#endif
