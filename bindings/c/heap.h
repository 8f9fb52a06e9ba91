/* The heap of the tests: it counts blocks, and refuses a request for memory where it is told to. */
#ifndef RESP_HEAP_H
#define RESP_HEAP_H

#include <stdbool.h>
#include <stddef.h>

/* From here on the request of this number is refused, counted from 0; the others are granted. */
void heap_refuse(unsigned request);

/* All requests are granted again. */
void heap_grant(void);

/* Whether a request was refused since heap_refuse. */
bool heap_refused(void);

/* How many blocks are in use. */
size_t heap_blocks(void);

/* What resp_alloc.c calls in tests, where malloc, realloc and free are these names. */
void *heap_malloc(size_t size);
void *heap_realloc(void *block, size_t size);
void heap_free(void *block);

#endif
