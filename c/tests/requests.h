/*
 * Requests for memory, counted and refused. A program that includes it is linked with
 * `-Wl,--wrap=malloc,--wrap=realloc`.
 */
#ifndef REQUESTS_H
#define REQUESTS_H

#include <malloc.h>
#include <stdlib.h>

/*
 * Memory that is refused: the request of this number, from 1 on. And how many bytes were asked for in all. To
 * cut a block is no request: the C library refuses none of these.
 */
static unsigned long requests, refused;
static size_t asked;
static int counts;

void *__real_malloc(size_t size);
void *__real_realloc(void *block, size_t size);
void *__wrap_malloc(size_t size);
void *__wrap_realloc(void *block, size_t size);

static int is_refused(size_t size) {
    asked += size;
    return counts && ++requests == refused;
}

void *__wrap_malloc(size_t size) { return is_refused(size) ? NULL : __real_malloc(size); }

void *__wrap_realloc(void *block, size_t size) {
    size_t has = block == NULL ? 0 : malloc_usable_size(block);
    if (size <= has) return __real_realloc(block, size);
    return is_refused(size) ? NULL : __real_realloc(block, size);
}

/* Refuses the next request of this number, from 1 on; and lets all pass again. */
static inline void refuse(unsigned long number) { requests = 0, refused = number, counts = 1; }

static inline void refuse_none(void) { counts = 0; }

/* Whether a call made fewer requests than the number of the one that was to be refused. */
static inline int none_was_refused(void) { return requests < refused; }

#endif
