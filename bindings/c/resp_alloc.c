/*
 * The memory of the library, over malloc, realloc and free: for programs that are linked without
 * the heap of the Rattle kit. Compile it into the program, beside libresp_c.a.
 */
#include <stdbool.h>
#include <stddef.h>
#include <stdlib.h>

/* A block, where `ok` is true; else `at` is no block, and isn't NULL either. */
struct tried {
    bool ok;
    void *at;
};

struct tried rattle_alloc(size_t size, size_t align);
struct tried rattle_realloc(void *block, size_t kept, size_t size, size_t align);
void rattle_dealloc(void *block);

/* Blocks are never empty: a request for no bytes gets as many as its alignment. */
static size_t at_least_one(size_t size, size_t align)
{
    return size > 0 ? size : align;
}

static struct tried tried(void *block)
{
    static char no_block;
    struct tried result;

    result.ok = block != NULL;
    result.at = result.ok ? block : &no_block;
    return result;
}

/* A block of `size` bytes. `align` divides 16, and malloc aligns to 16. */
struct tried rattle_alloc(size_t size, size_t align)
{
    return tried(malloc(at_least_one(size, align)));
}

/* The block at its new size, with its first `kept` bytes; where that fails, it stays as it was. */
struct tried rattle_realloc(void *block, size_t kept, size_t size, size_t align)
{
    (void)kept;
    return tried(realloc(block, at_least_one(size, align)));
}

void rattle_dealloc(void *block)
{
    free(block);
}
