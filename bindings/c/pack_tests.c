/*
 * Tests of packing and of the version. The wanted bytes come from the RESP specification (a command
 * is an array of bulk strings) and from what the tests of hiredis hold of redisFormatCommandArgv.
 */
#include "heap.h"
#include "testing.h"

#include <string.h>

#define ROOM 256
#define UNTOUCHED 0xA5

/* A constant of text, with its size. */
#define TEXT(text) (text), (sizeof(text) - 1)

/* One command for resp_pack, or several for resp_pack_pipeline. */
struct example {
    const uint8_t *args; /* the bytes of all arguments */
    size_t args_size;
    size_t sizes[5]; /* of each argument */
    size_t size_count;
    const char *wanted;
    size_t wanted_size;
    bool is_pipeline;
    bool atomic;
    size_t counts[3]; /* of the arguments of each command */
    size_t command_count;
};

#define SET_FOO_BAR "*3\r\n$3\r\nSET\r\n$3\r\nfoo\r\n$3\r\nbar\r\n"
#define MULTI "*1\r\n$5\r\nMULTI\r\n"
#define EXEC "*1\r\n$4\r\nEXEC\r\n"
#define SET_AND_GET "*3\r\n$3\r\nSET\r\n$1\r\nk\r\n$1\r\n1\r\n*2\r\n$3\r\nGET\r\n$1\r\nk\r\n"

static const struct example examples[] = {
    {BYTES("SETfoobar"), {3, 3, 3}, 3, TEXT(SET_FOO_BAR), false, false, {0}, 0},
    {BYTES("SETfoo\0xxxbar"),
     {3, 7, 3},
     3,
     TEXT("*3\r\n$3\r\nSET\r\n$7\r\nfoo\0xxx\r\n$3\r\nbar\r\n"),
     false,
     false,
     {0},
     0},
    {BYTES("SETfoo"),
     {3, 3, 0},
     3,
     TEXT("*3\r\n$3\r\nSET\r\n$3\r\nfoo\r\n$0\r\n\r\n"),
     false,
     false,
     {0},
     0},
    {BYTES("PING"), {4}, 1, TEXT("*1\r\n$4\r\nPING\r\n"), false, false, {0}, 0},
    {BYTES("\r\n*1\r\n"),
     {2, 4},
     2,
     TEXT("*2\r\n$2\r\n\r\n\r\n$4\r\n*1\r\n\r\n"),
     false,
     false,
     {0},
     0},
    {BYTES("0123456789"), {10}, 1, TEXT("*1\r\n$10\r\n0123456789\r\n"), false, false, {0}, 0},
    {BYTES(""), {0}, 1, TEXT("*1\r\n$0\r\n\r\n"), false, false, {0}, 0},
    {BYTES(""), {0}, 0, TEXT(""), false, false, {0}, 0},
    {BYTES("SETfoobar"), {3, 3, 3}, 3, TEXT(SET_FOO_BAR), true, false, {3}, 1},
    {BYTES("SETk1GETk"), {3, 1, 1, 3, 1}, 5, TEXT(SET_AND_GET), true, false, {3, 2}, 2},
    {BYTES("SETk1GETk"), {3, 1, 1, 3, 1}, 5, TEXT(MULTI SET_AND_GET EXEC), true, true, {3, 2}, 2},
    {BYTES("AB"),
     {1, 1},
     2,
     TEXT("*1\r\n$1\r\nA\r\n*0\r\n*1\r\n$1\r\nB\r\n"),
     true,
     false,
     {1, 0, 1},
     3},
    {BYTES(""), {0}, 0, TEXT(""), true, false, {0}, 0},
    {BYTES(""), {0}, 0, TEXT(MULTI EXEC), true, true, {0}, 0},
};

/* Sizes that don't add up to the bytes, and counts that don't add up to the sizes. */
static const struct example out_of_range[] = {
    {BYTES("SETk"), {3, 2}, 2, TEXT(""), false, false, {0}, 0},
    {BYTES("SETk"), {3}, 1, TEXT(""), false, false, {0}, 0},
    {BYTES("SETk"), {0}, 0, TEXT(""), false, false, {0}, 0},
    {BYTES("SETk"), {SIZE_MAX, 5}, 2, TEXT(""), false, false, {0}, 0},
    {BYTES("SETk"), {SIZE_MAX, SIZE_MAX}, 2, TEXT(""), false, false, {0}, 0},
    {BYTES("SETk"), {3, 2}, 2, TEXT(""), true, false, {2}, 1},
    {BYTES("SETk"), {3, 1}, 2, TEXT(""), true, false, {1}, 1},
    {BYTES("SETk"), {3, 1}, 2, TEXT(""), true, true, {2, 1}, 2},
    {BYTES("SETk"), {3, 1}, 2, TEXT(""), true, false, {SIZE_MAX, 3}, 2},
    {BYTES("SETk"), {3, 1}, 2, TEXT(""), true, true, {0}, 0},
};

/* Where a call writes, with bytes around it. */
struct target {
    uint8_t around[ROOM + 2];
    size_t size;
};

static uint32_t pack(const struct example *it, struct target *target, size_t room)
{
    uint8_t *out = target->around + 1;

    memset(target->around, UNTOUCHED, sizeof target->around);
    target->size = 77;
    if (!it->is_pipeline)
        return resp_pack(it->args, it->args_size, it->sizes, it->size_count, out, room,
                         &target->size);
    return resp_pack_pipeline(it->args, it->args_size, it->sizes, it->size_count, it->counts,
                              it->command_count, it->atomic, out, room, &target->size);
}

/* The first `size` bytes were written as is wanted, and no other. */
static void check_written(const char *name, const struct example *it, const struct target *target,
                          size_t size)
{
    struct text wanted = {0}, got = {0};
    long long others = 0;

    text_add_bytes(&wanted, (const uint8_t *)it->wanted, size);
    text_add_bytes(&got, target->around + 1, size);
    check_text(name, it->args, it->args_size, wanted.bytes, got.bytes);
    for (size_t i = 0; i < sizeof target->around; i++)
        if (i < 1 || i > size)
            others += target->around[i] != UNTOUCHED;
    check_number("no byte beside them", 0, others);
    text_clear(&wanted);
    text_clear(&got);
}

static void check_done(const struct example *it, size_t room)
{
    struct target target;

    check_number("done", RESP_DONE, pack(it, &target, room));
    check_number("done: size", (long long)it->wanted_size, (long long)target.size);
    check_written("done: bytes", it, &target, it->wanted_size);
}

static void check_room(const struct example *it, size_t room)
{
    struct target target;

    check_number("room", RESP_ROOM, pack(it, &target, room));
    check_number("room: size", (long long)it->wanted_size, (long long)target.size);
    check_written("room: bytes", it, &target, 0);
}

static void check_range(const struct example *it)
{
    struct target target;

    check_number("range", RESP_RANGE, pack(it, &target, ROOM));
    check_number("range: size", 0, (long long)target.size);
    check_written("range: bytes", it, &target, 0);
}

/* Refuses each request for memory in turn, and then writes without a refusal. */
static void check_memory(const struct example *it)
{
    struct target target;
    unsigned request = 0;
    uint32_t status;

    for (;;) {
        heap_refuse(request++);
        status = pack(it, &target, ROOM);
        if (!heap_refused())
            break;
        check_number("memory", RESP_MEMORY, status);
        check_number("memory: size", 0, (long long)target.size);
        check_written("memory: bytes", it, &target, 0);
    }
    heap_grant();
    check_number("memory: in the end", RESP_DONE, status);
    check_number("memory: blocks that are left", 0, (long long)heap_blocks());
}

static void check_example(const struct example *it)
{
    check_done(it, it->wanted_size);
    check_done(it, it->wanted_size + 1);
    check_done(it, ROOM);
    for (size_t room = 0; room < it->wanted_size; room++)
        check_room(it, room);
    check_memory(it);
}

/* What is packed parses as an array of the arguments. */
static void test_parse_back(void)
{
    resp_parser parser = RESP_PARSER_INIT;
    resp_view view;
    struct target target;
    struct text got = {0};

    pack(&examples[1], &target, ROOM);
    resp_parser_open(&parser);
    resp_parser_feed(&parser, target.around + 1, target.size);
    check_number("parse back", RESP_DONE, resp_parser_next(&parser, &view));
    text_add_value(&got, &view);
    check_text("parse back", BYTES(""), "[$'SET' $'foo\\x00xxx' $'bar']", got.bytes);
    text_clear(&got);
    resp_parser_close(&parser);
}

int main(void)
{
    for (size_t i = 0; i < sizeof examples / sizeof *examples; i++)
        check_example(&examples[i]);
    for (size_t i = 0; i < sizeof out_of_range / sizeof *out_of_range; i++)
        check_range(&out_of_range[i]);
    test_parse_back();
    check_number("version", RESP_VERSION_NUMBER, resp_version());
    return tests_end();
}
