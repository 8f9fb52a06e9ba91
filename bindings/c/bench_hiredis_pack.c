/*
 * Packs a command COUNT times in each of ROUNDS rounds, as hiredis does, and prints COUNT:
 *
 *     bench_hiredis_pack set|big|reply COUNT ROUNDS
 *
 * `set` is a command of three short arguments, `big` the same with one of 1 MiB, `reply` one of 100
 * arguments of 20 bytes. tools/bench counts its instructions.
 */
#include <hiredis/hiredis.h>

#include <stdio.h>
#include <stdlib.h>
#include <string.h>

enum { MOST = 100, LARGE = 1 << 20 };

static const char *arguments[MOST];
static size_t sizes[MOST];

static void put(int at, const char *argument, size_t size)
{
    arguments[at] = argument;
    sizes[at] = size;
}

/* Fills the arguments of a command and returns how many it has, 0 of another word. */
static int load(const char *what)
{
    static char large[LARGE];
    int is_big = strcmp(what, "big") == 0;

    if (strcmp(what, "reply") == 0) {
        for (int i = 0; i < MOST; i++)
            put(i, "item-of-twenty-bytes", 20);
        return MOST;
    }
    if (!is_big && strcmp(what, "set") != 0)
        return 0;
    memset(large, 'x', sizeof large);
    put(0, "SET", 3);
    put(1, "key:000000001", 13);
    put(2, is_big ? large : "value-of-twenty-byte", is_big ? sizeof large : 20);
    return 3;
}

int main(int argc, char **argv)
{
    int count = argc == 4 ? load(argv[1]) : 0;
    char *packed;

    if (count == 0)
        return 1;
    for (long left = atol(argv[2]) * atol(argv[3]); left > 0; left--) {
        if (redisFormatCommandArgv(&packed, count, arguments, sizes) < 0)
            return 2;
        free(packed);
    }
    printf("%s\n", argv[2]);
    return 0;
}
