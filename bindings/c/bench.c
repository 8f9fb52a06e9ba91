/*
 * Reads the replies of a file ROUNDS times over, PIECE bytes a feed, and prints how many there are:
 *
 *     bench FILE PIECE ROUNDS
 *
 * tools/bench-c links it with bench_resp_c.c and with bench_hiredis.c, and counts instructions.
 */
#include "bench.h"

#include <stdio.h>
#include <stdlib.h>

void give_up(const char *why)
{
    fprintf(stderr, "bench: %s\n", why);
    exit(2);
}

static size_t size_of(FILE *file)
{
    long size;

    if (fseek(file, 0, SEEK_END) != 0 || (size = ftell(file)) < 0)
        give_up("the file has no size");
    rewind(file);
    return (size_t)size;
}

static uint8_t *contents(const char *name, size_t *size)
{
    FILE *file = fopen(name, "rb");
    uint8_t *bytes;

    if (file == NULL)
        give_up("there is no such file");
    *size = size_of(file);
    bytes = malloc(*size + 1);
    if (bytes == NULL || fread(bytes, 1, *size, file) != *size)
        give_up("the file can't be read");
    fclose(file);
    return bytes;
}

int main(int argc, char **argv)
{
    size_t size, replies = 0;
    uint8_t *bytes;

    if (argc != 4 || atol(argv[2]) < 1)
        give_up("usage: bench FILE PIECE ROUNDS");
    bytes = contents(argv[1], &size);
    for (long rounds = atol(argv[3]); rounds > 0; rounds--)
        replies = parse(bytes, size, (size_t)atol(argv[2]));
    printf("%zu\n", replies);
    free(bytes);
    return 0;
}
