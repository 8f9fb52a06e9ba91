/*
 * Tests of the encoding of replies. The wanted bytes come from the RESP specification, and for what
 * RESP2 lacks from what Redis answers to a client of RESP2.
 */
#include "heap.h"
#include "testing.h"

#include <string.h>

#define ROOM 256
#define UNTOUCHED 0xA5

/* A constant of text, with its size. */
#define TEXT(text) (text), (sizeof(text) - 1)

/* A reply, and its bytes in both versions. */
struct example {
    resp_token tokens[6];
    size_t token_count;
    const uint8_t *text;
    size_t text_size;
    const char *wanted[2]; /* in RESP2 and in RESP3 */
};

static const struct example examples[] = {
    {{{RESP_NIL, 0, 0, 0}}, 1, BYTES(""), {"$-1\r\n", "_\r\n"}},
    {{{RESP_OKAY, 0, 0, 0}}, 1, BYTES(""), {"+OK\r\n", "+OK\r\n"}},
    {{{RESP_INT, 0, INT64_MIN, 0}},
     1,
     BYTES(""),
     {":-9223372036854775808\r\n", ":-9223372036854775808\r\n"}},
    {{{RESP_SIMPLE_STRING, 4, 0, 0}}, 1, BYTES("PONG"), {"+PONG\r\n", "+PONG\r\n"}},
    {{{RESP_BULK_STRING, 5, 0, 0}}, 1, BYTES("a\r\nbc"), {"$5\r\na\r\nbc\r\n", "$5\r\na\r\nbc\r\n"}},
    {{{RESP_BULK_STRING, 0, 0, 0}}, 1, BYTES(""), {"$0\r\n\r\n", "$0\r\n\r\n"}},
    {{{RESP_ARRAY, 2, 0, 0}, {RESP_INT, 0, 1, 0}, {RESP_BULK_STRING, 1, 0, 0}},
     3,
     BYTES("a"),
     {"*2\r\n:1\r\n$1\r\na\r\n", "*2\r\n:1\r\n$1\r\na\r\n"}},
    {{{RESP_MAP, 1, 0, 0}, {RESP_BULK_STRING, 1, 0, 0}, {RESP_NIL, 0, 0, 1}},
     3,
     BYTES("k"),
     {"*2\r\n$1\r\nk\r\n$-1\r\n", "%1\r\n$1\r\nk\r\n_\r\n"}},
    {{{RESP_SERVER_ERROR, 7, 0, 0}}, 1, BYTES("ERR bad"), {"-ERR bad\r\n", "-ERR bad\r\n"}},
    {{{RESP_BOOLEAN, 0, 1, 0}}, 1, BYTES(""), {":1\r\n", "#t\r\n"}},
    {{{RESP_DOUBLE, 3, 0, 0}}, 1, BYTES("1.5"), {"$3\r\n1.5\r\n", ",1.5\r\n"}},
    {{{RESP_BIG_NUMBER, 3, 0, 0}}, 1, BYTES("-12"), {"$3\r\n-12\r\n", "(-12\r\n"}},
    {{{RESP_SET, 1, 0, 0}, {RESP_INT, 0, 7, 0}}, 2, BYTES(""), {"*1\r\n:7\r\n", "~1\r\n:7\r\n"}},
    {{{RESP_VERBATIM_STRING, 7, 0, 0}},
     1,
     BYTES("txt:abc"),
     {"$3\r\nabc\r\n", "=7\r\ntxt:abc\r\n"}},
    {{{RESP_PUSH, 2, 0, 0}, {RESP_BULK_STRING, 7, 0, 0}, {RESP_INT, 0, 1, 7}},
     3,
     BYTES("message"),
     {"*2\r\n$7\r\nmessage\r\n:1\r\n", ">2\r\n$7\r\nmessage\r\n:1\r\n"}},
};

/* Tokens and a text of no value, or of one that no bytes spell. */
static const struct example out_of_range[] = {
    {{{RESP_NIL, 0, 0, 0}}, 0, BYTES(""), {"", ""}},
    {{{RESP_PUSH + 1, 0, 0, 0}}, 1, BYTES(""), {"", ""}},
    {{{255, 0, 0, 0}}, 1, BYTES(""), {"", ""}},
    {{{RESP_NIL, 0, 0, 0}, {RESP_NIL, 0, 0, 0}}, 2, BYTES(""), {"", ""}},
    {{{RESP_NIL, 0, 1, 0}}, 1, BYTES(""), {"", ""}},
    {{{RESP_INT, 1, 1, 0}}, 1, BYTES(""), {"", ""}},
    {{{RESP_BULK_STRING, 2, 0, 0}}, 1, BYTES("a"), {"", ""}},
    {{{RESP_BULK_STRING, SIZE_MAX, 0, 0}}, 1, BYTES("a"), {"", ""}},
    {{{RESP_BULK_STRING, 1, 0, 1}}, 1, BYTES("a"), {"", ""}},
    {{{RESP_BULK_STRING, 1, 0, 0}}, 1, BYTES("ab"), {"", ""}},
    {{{RESP_ARRAY, 2, 0, 0}, {RESP_NIL, 0, 0, 0}}, 2, BYTES(""), {"", ""}},
    {{{RESP_ARRAY, SIZE_MAX, 0, 0}}, 1, BYTES(""), {"", ""}},
    {{{RESP_SIMPLE_STRING, 3, 0, 0}}, 1, BYTES("a\r\n"), {"", ""}},
    {{{RESP_SIMPLE_STRING, 1, 0, 0}}, 1, BYTES("\xFF"), {"", ""}},
    {{{RESP_PUSH, 0, 0, 0}}, 1, BYTES(""), {"", ""}},
};

/* Where a call writes, with bytes around it. */
struct target {
    uint8_t around[ROOM + 2];
    size_t size;
};

static uint32_t encode(const struct example *it, uint32_t protocol, struct target *target,
                       size_t room)
{
    memset(target->around, UNTOUCHED, sizeof target->around);
    target->size = 77;
    return resp_encode_reply(it->tokens, it->token_count, it->text, it->text_size, protocol,
                             target->around + 1, room, &target->size);
}

/* The bytes that are wanted were written, so many of them, and no other. */
static void check_written(const char *name, const char *bytes, size_t size,
                          const struct target *target)
{
    struct text wanted = {0}, got = {0};
    long long others = 0;

    text_add_bytes(&wanted, (const uint8_t *)bytes, size);
    text_add_bytes(&got, target->around + 1, size);
    check_text(name, BYTES(""), wanted.bytes, got.bytes);
    for (size_t i = 0; i < sizeof target->around; i++)
        if (i < 1 || i > size)
            others += target->around[i] != UNTOUCHED;
    check_number("no byte beside them", 0, others);
    text_clear(&wanted);
    text_clear(&got);
}

/* In room that is there, and in each that is too small. */
static void check_rooms(const struct example *it, uint32_t protocol)
{
    const char *wanted = it->wanted[protocol - 2];
    size_t size = strlen(wanted);
    struct target target;

    for (size_t room = 0; room <= size + 1; room++) {
        uint32_t status = encode(it, protocol, &target, room);

        check_number("status", room < size ? RESP_ROOM : RESP_DONE, status);
        check_number("size", (long long)size, (long long)target.size);
        check_written("bytes", wanted, room < size ? 0 : size, &target);
    }
}

/* Refuses each request for memory in turn, and then encodes without a refusal. */
static void check_memory(const struct example *it, uint32_t protocol)
{
    struct target target;
    unsigned request = 0;
    uint32_t status;

    for (;;) {
        heap_refuse(request++);
        status = encode(it, protocol, &target, ROOM);
        if (!heap_refused())
            break;
        check_number("memory", RESP_MEMORY, status);
        check_number("memory: size", 0, (long long)target.size);
        check_written("memory: bytes", "", 0, &target);
    }
    heap_grant();
    check_number("memory: in the end", RESP_DONE, status);
    check_number("memory: blocks that are left", 0, (long long)heap_blocks());
}

static void check_range(const struct example *it, uint32_t protocol)
{
    struct target target;

    check_number("range", RESP_RANGE, encode(it, protocol, &target, ROOM));
    check_number("range: size", 0, (long long)target.size);
    check_written("range: bytes", "", 0, &target);
}

/* What is sent in RESP3 is parsed as the same tokens and the same text. */
static void check_parsed(const struct example *it)
{
    resp_parser parser = RESP_PARSER_INIT;
    resp_view view, given = {it->tokens, it->token_count, it->text, it->text_size};
    struct target target;
    struct text wanted = {0}, got = {0};

    encode(it, 3, &target, ROOM);
    resp_parser_open(&parser);
    resp_parser_feed(&parser, target.around + 1, target.size);
    check_number("parsed", RESP_DONE, resp_parser_next(&parser, &view));
    text_add_value(&wanted, &given);
    text_add_value(&got, &view);
    check_text("parsed", BYTES(""), wanted.bytes, got.bytes);
    text_clear(&wanted);
    text_clear(&got);
    resp_parser_close(&parser);
}

int main(void)
{
    for (size_t i = 0; i < sizeof examples / sizeof *examples; i++) {
        for (uint32_t protocol = 2; protocol <= 3; protocol++) {
            check_rooms(&examples[i], protocol);
            check_memory(&examples[i], protocol);
        }
        check_parsed(&examples[i]);
    }
    for (size_t i = 0; i < sizeof out_of_range / sizeof *out_of_range; i++)
        for (uint32_t protocol = 2; protocol <= 3; protocol++)
            check_range(&out_of_range[i], protocol);
    check_range(&examples[0], 1);
    check_range(&examples[0], 4);
    return tests_end();
}
