/* Stands before malloc, realloc and calloc of the C library (glibc), and refuses requests as the
   tests of crates/resp_tests_refused_memory tell it, by requests of sizes that no heap has (src/heap.rt there).
   REFUSED_REQUEST says which request is refused after each time it is told, counted from 0, and
   REFUSED_LATER, if it is set, that all later ones are refused too. At exit it writes to standard
   error how often it was told, and how many requests it refused. */
#include <stddef.h>
#include <stdint.h>
#include <stdio.h>
#include <stdlib.h>

extern void *__libc_malloc(size_t);
extern void *__libc_realloc(void *, size_t);
extern void *__libc_calloc(size_t, size_t);

#define REFUSE     0x5afe000000000000u
#define REFUSE_ALL 0x5afe000000000001u
#define ASK        0x5aff000000000000u

static uint64_t request;      /* which request is refused */
static int and_later;         /* whether all later ones are refused, too */
static int told;              /* whether requests are counted */
static int later;             /* whether all after the first refused one are refused */
static uint64_t left;         /* how many requests are granted before one is refused */
static uint64_t refused;      /* how many were refused since the heap was told */
static uint64_t calls, total; /* of the whole run */

static int refuses(void)
{
    if (!told)
        return 0;
    if (left > 0) {
        left--;
        return 0;
    }
    if (refused > 0 && !later)
        return 0;
    refused++;
    total++;
    return 1;
}

void *malloc(size_t size)
{
    if (size == REFUSE || size == REFUSE_ALL) {
        told = 1;
        later = and_later || size == REFUSE_ALL;
        left = size == REFUSE_ALL ? 0 : request;
        refused = 0;
        calls++;
        return NULL;
    }
    if (size == ASK) {
        told = 0;
        return refused > 0 ? __libc_malloc(16) : NULL;
    }
    return refuses() ? NULL : __libc_malloc(size);
}

void *realloc(void *block, size_t size)
{
    return refuses() ? NULL : __libc_realloc(block, size);
}

void *calloc(size_t count, size_t size)
{
    return refuses() ? NULL : __libc_calloc(count, size);
}

__attribute__((constructor)) static void begin(void)
{
    const char *text = getenv("REFUSED_REQUEST");

    request = text ? strtoull(text, NULL, 10) : 0;
    and_later = getenv("REFUSED_LATER") != NULL;
}

__attribute__((destructor)) static void report(void)
{
    told = 0;
    fprintf(stderr, "refused-memory: %llu calls, %llu refusals\n", (unsigned long long)calls,
            (unsigned long long)total);
}
