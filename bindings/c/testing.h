/* What the test programs share: checks that count, and values as text. */
#ifndef RESP_TESTING_H
#define RESP_TESTING_H

#include "resp_c.h"

#include <stdio.h>

/* A constant of bytes, with its size: BYTES("+OK\r\n"). It may hold NUL. */
#define BYTES(text) ((const uint8_t *)("" text)), (sizeof(text) - 1)

/* A text that grows. All zero is the empty one. */
struct text {
    char *bytes; /* with a NUL after them, or NULL */
    size_t size;
};

void text_clear(struct text *text);
void text_add(struct text *text, const char *more);
void text_add_number(struct text *text, long long number);
void text_add_size(struct text *text, size_t size);

/* Adds bytes in single quotes; what isn't printable ASCII stands as \xHH. */
void text_add_bytes(struct text *text, const uint8_t *bytes, size_t size);

/*
 * Adds a value, in a short notation:
 * nil ok true false :1 +'text' $'text' -'text' ,'1.5' ('12' ='txt:x' [array] {map} ~[set] >[push]
 * and |{attributes} value.
 */
void text_add_value(struct text *text, const resp_view *view);

/* Counts a test, and prints its input and both texts where they differ. */
void check_text(const char *name, const uint8_t *input, size_t size, const char *wanted,
                const char *got);

/* Counts a test of two numbers. */
void check_number(const char *name, long long wanted, long long got);

/* Prints `N tests, M failed`; the exit status of the program. */
int tests_end(void);

#endif
