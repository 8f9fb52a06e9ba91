#include "heap.h"

#include <stdlib.h>

static bool armed;    /* whether a request is to be refused */
static bool refused;  /* whether it was */
static unsigned left; /* how many requests are granted before it */
static size_t blocks;

void heap_refuse(unsigned request)
{
    armed = true;
    refused = false;
    left = request;
}

void heap_grant(void)
{
    armed = false;
}

bool heap_refused(void)
{
    return refused;
}

size_t heap_blocks(void)
{
    return blocks;
}

static bool refuses(void)
{
    if (!armed || left-- > 0)
        return false;
    armed = false;
    refused = true;
    return true;
}

void *heap_malloc(size_t size)
{
    void *block = refuses() ? NULL : malloc(size);

    blocks += block != NULL;
    return block;
}

void *heap_realloc(void *block, size_t size)
{
    return refuses() ? NULL : realloc(block, size);
}

void heap_free(void *block)
{
    blocks -= block != NULL;
    free(block);
}
