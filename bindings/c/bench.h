/* What the measured parsers share. */
#ifndef RESP_BENCH_H
#define RESP_BENCH_H

#include <stddef.h>
#include <stdint.h>

/* Feeds the bytes, `piece` at a time, takes each reply, and returns how many there were. */
size_t parse(const uint8_t *bytes, size_t size, size_t piece);

/* Ends the program. */
void give_up(const char *why);

#endif
