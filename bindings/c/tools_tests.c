/*
 * Tests of resp_tools.c. The wanted bytes of commands are those of hiredis' redisvFormatCommand and
 * redisFormatCommandArgv, which are asked, too, where WITH_HIREDIS is defined; the values of
 * replies are those of the RESP specification.
 */
#include "resp_tools.h"
#include "testing.h"

#include <stdlib.h>
#include <string.h>
#ifdef WITH_HIREDIS
#include <hiredis/hiredis.h>
#endif

#define ROOM 512

/* Compares bytes, which are shown where they differ. */
static void check_bytes(const char *name, const char *wanted, size_t wanted_size,
                        const uint8_t *got, size_t got_size)
{
    struct text one = {0}, other = {0};

    text_add_bytes(&one, (const uint8_t *)wanted, wanted_size);
    text_add_bytes(&other, got, got_size);
    check_text(name, BYTES(""), one.bytes, other.bytes);
    text_clear(&one);
    text_clear(&other);
}

/* What hiredis makes of the format, where it is there: -1 of one that it refuses. */
static void check_hiredis(const char *format, const char *wanted, long long wanted_size,
                          va_list values)
{
#ifdef WITH_HIREDIS
    char *packed = NULL;
    int size = redisvFormatCommand(&packed, format, values);

    check_number(format, wanted_size, size < 0 ? -1 : size);
    if (size >= 0)
        check_bytes(format, wanted, (size_t)wanted_size, (uint8_t *)packed, (size_t)size);
    free(packed);
#else
    (void)format, (void)wanted, (void)wanted_size, (void)values;
#endif
}

/* A format makes these bytes, or none where `wanted` is NULL. */
static void check_format(const char *wanted, size_t wanted_size, const char *format, ...)
{
    uint8_t out[ROOM];
    size_t size = 77;
    va_list values;
    uint32_t status;

    va_start(values, format);
    status = resp_pack_vformat(out, sizeof out, &size, format, values);
    va_end(values);
    check_number(format, wanted != NULL ? RESP_DONE : RESP_RANGE, status);
    check_bytes(format, wanted != NULL ? wanted : "", wanted_size, out, size);
    va_start(values, format);
    check_hiredis(format, wanted, wanted != NULL ? (long long)wanted_size : -1, values);
    va_end(values);
}

#define WANTED(text) (text), (sizeof(text) - 1)
#define REFUSED NULL, 0
#define SET_FOO_BAR "*3\r\n$3\r\nSET\r\n$3\r\nfoo\r\n$3\r\nbar\r\n"

static void test_formats(void)
{
    check_format(WANTED(SET_FOO_BAR), "SET foo bar");
    check_format(WANTED(SET_FOO_BAR), "  SET   foo bar ");
    check_format(WANTED(SET_FOO_BAR), "SET %s %s", "foo", "bar");
    check_format(WANTED(SET_FOO_BAR), "%s %b %b", "SET", "foo", (size_t)3, "bar", (size_t)3);
    check_format(WANTED("*3\r\n$3\r\nSET\r\n$3\r\nfoo\r\n$0\r\n\r\n"), "SET %s %s", "foo", "");
    check_format(WANTED("*3\r\n$3\r\nSET\r\n$0\r\n\r\n$3\r\nbar\r\n"), "SET %b bar", "", (size_t)0);
    check_format(WANTED("*2\r\n$3\r\nGET\r\n$3\r\na b\r\n"), "GET %s", "a b");
    check_format(WANTED("*2\r\n$3\r\nGET\r\n$4\r\nb\0c \r\n"), "GET %b", "b\0c ", (size_t)4);
    check_format(WANTED("*2\r\n$3\r\nGET\r\n$6\r\nuser:7\r\n"), "GET user:%d", 7);
    check_format(WANTED("*2\r\n$3\r\nGET\r\n$7\r\nab%c:de\r\n"), "GET %s%%c:%s", "ab", "de");
    check_format(WANTED("*1\r\n$2\r\n%%\r\n"), "%%%");
    check_format(WANTED("*1\r\n$5\r\na\tb\nc\r\n"), "a\tb\nc");
    check_format(WANTED("*2\r\n$1\r\na\r\n$1\r\nb\r\n"), "%s %s", "a", "b");
}

static void test_numbers(void)
{
    check_format(WANTED("*1\r\n$3\r\n-12\r\n"), "%d", -12);
    check_format(WANTED("*2\r\n$1\r\n5\r\n$2\r\n 6\r\n"), "%i %2i", 5, 6);
    check_format(WANTED("*1\r\n$10\r\n4294967295\r\n"), "%u", 4294967295u);
    check_format(WANTED("*1\r\n$6\r\nff:0FF\r\n"), "%x:%03X", 255, 255);
    check_format(WANTED("*1\r\n$2\r\n17\r\n"), "%o", 15);
    check_format(WANTED("*1\r\n$5\r\n44:-1\r\n"), "%hhd:%hd", 300, 65535);
    check_format(WANTED("*1\r\n$20\r\n-9223372036854775808\r\n"), "%ld", -9223372036854775807L - 1);
    check_format(WANTED("*1\r\n$20\r\n18446744073709551615\r\n"), "%llu", ~0ull);
    check_format(WANTED("*2\r\n$8\r\n1.500000\r\n$5\r\n +2.2\r\n"), "%f %+5.1f", 1.5, 2.25);
    check_format(WANTED("*2\r\n$5\r\n1e+20\r\n$1\r\nx\r\n"), "%g %s", 1e20, "x");
    check_format(WANTED("*1\r\n$5\r\n7:x:8\r\n"), "%d:%s:%d", 7, "x", 8);
}

/* Where hiredis makes something else: an empty array, and the text of the conversion. */
static void test_departures(void)
{
    static const char wanted[] = "*1\r\n$8\r\n00000007\r\n";
    uint8_t out[ROOM];
    size_t size = 77;

    check_number("empty", RESP_DONE, resp_pack_format(out, ROOM, &size, ""));
    check_number("empty: size", 0, (long long)size);
    check_format(WANTED(wanted), "%00000000008d", 7);
    check_number("14 characters", RESP_RANGE,
                 resp_pack_format(out, ROOM, &size, "%000000000008d", 7));
    check_number("14 characters: size", 0, (long long)size);
    check_number("a wide one", RESP_RANGE, resp_pack_format(out, ROOM, &size, "%99999999999d", 7));
}

static void test_refused_formats(void)
{
    check_format(REFUSED, "GET %z", 1);
    check_format(REFUSED, "GET %ls", 1);
    check_format(REFUSED, "GET %lf", 1.0);
    check_format(REFUSED, "GET %hhhd", 1);
    check_format(REFUSED, "GET %p", "");
    check_format(REFUSED, "GET %*d", 3, 1);
    check_format(REFUSED, "GET %d %c", 1, 'x');
}

/* Room and memory as of resp_pack. */
static void test_room(void)
{
    static const char wanted[] = "*2\r\n$3\r\nGET\r\n$1\r\nk\r\n";
    uint8_t out[ROOM] = {0};
    size_t size;

    check_number("no room", RESP_ROOM, resp_pack_format(out, 19, &size, "GET %s", "k"));
    check_number("no room: size", 20, (long long)size);
    check_number("no room: out", 0, out[0]);
    check_number("room", RESP_DONE, resp_pack_format(out, 20, &size, "GET %s", "k"));
    check_bytes("room: bytes", wanted, sizeof wanted - 1, out, size);
    check_number("no arguments", RESP_DONE, resp_pack_format(out, 0, &size, "  "));
    check_number("no arguments: size", 0, (long long)size);
    check_number("a conversion without an end", RESP_RANGE,
                 resp_pack_format(out, ROOM, &size, "GET %-"));
    check_number("a conversion without an end: size", 0, (long long)size);
}

/* A long command, whose parts are made in turn of all that it may hold. */
static void test_long_format(void)
{
    static char value[100000];
    uint8_t *out = malloc(sizeof value + 100);
    size_t size;
    static const char wanted[] = "*3\r\n$3\r\nSET\r\n$1\r\nk\r\n$99999\r\nxxxx";

    memset(value, 'x', sizeof value - 1);
    check_number("long", RESP_DONE,
                 resp_pack_format(out, sizeof value + 100, &size, "SET k %s", value));
    check_bytes("long: bytes", wanted, sizeof wanted - 1, out, sizeof wanted - 1);
    check_number("long: size", 30 + 99999, (long long)size);
    free(out);
}

static void check_argv(const char *wanted, size_t wanted_size, int argc, const char **argv,
                       const size_t *lens)
{
    uint8_t out[ROOM];
    size_t size;

    check_number("argv", RESP_DONE, resp_pack_argv(argc, argv, lens, out, sizeof out, &size));
    check_bytes("argv: bytes", wanted, wanted_size, out, size);
#ifdef WITH_HIREDIS
    char *packed;
    int packed_size = redisFormatCommandArgv(&packed, argc, argv, lens);

    check_bytes("argv: hiredis", wanted, wanted_size, (uint8_t *)packed, (size_t)packed_size);
    free(packed);
#endif
}

static void test_argv(void)
{
    const char *argv[] = {"SET", "foo\0xxx", "bar"};
    const size_t lens[] = {3, 7, 3};
    const size_t short_lens[] = {1, 0, 2};
    const size_t large_lens[] = {3, SIZE_MAX / 2 + 2};
    uint8_t out[ROOM];
    size_t size;

    check_argv(WANTED(SET_FOO_BAR), 3, argv, NULL);
    check_argv(WANTED("*3\r\n$3\r\nSET\r\n$7\r\nfoo\0xxx\r\n$3\r\nbar\r\n"), 3, argv, lens);
    check_argv(WANTED("*3\r\n$1\r\nS\r\n$0\r\n\r\n$2\r\nba\r\n"), 3, argv, short_lens);
    check_number("argv: negative", RESP_RANGE, resp_pack_argv(-1, argv, NULL, out, ROOM, &size));
    check_number("argv: none", RESP_DONE, resp_pack_argv(0, argv, NULL, out, 0, &size));
    check_number("argv: size of none", 0, (long long)size);
    check_number("argv: memory", RESP_MEMORY,
                 resp_pack_argv(2, argv, large_lens, out, ROOM, &size));
}

/* Opens a parser that holds these bytes, and takes their value. */
static void read_value(resp_parser *parser, const char *bytes, resp_view *view)
{
    resp_parser_open(parser);
    resp_parser_feed(parser, (const uint8_t *)bytes, strlen(bytes));
    check_number("a value", RESP_DONE, resp_parser_next(parser, view));
}

#define REPLY                                                                                      \
    "*4\r\n%1\r\n+a\r\n*2\r\n:1\r\n:2\r\n|1\r\n+t\r\n:9\r\n|0\r\n-ERR x\r\n$0\r\n\r\n+OK\r\n"

/* Places: 0 array, 1 map, 2 a, 3 array, 4 1, 5 2, 6 attribute, 7 t, 8 9, 9 attribute, 10 error, 11,
 * 12 */
static void test_walking(void)
{
    static const size_t skips[] = {13, 6, 3, 6, 5, 6, 11, 8, 9, 11, 11, 12, 13, 13, 13};
    static const size_t counts[] = {4, 2, 0, 2, 0, 0, 3, 0, 0, 1, 0, 0, 0, 0, 0};
    static const size_t children[] = {1, 6, 11, 12, 13, 13};
    resp_parser parser = RESP_PARSER_INIT;
    resp_view view;

    read_value(&parser, REPLY, &view);
    for (size_t at = 0; at < sizeof skips / sizeof *skips; at++) {
        check_number("skip", (long long)skips[at], (long long)resp_skip(&view, at));
        check_number("count", (long long)counts[at], (long long)resp_child_count(&view, at));
    }
    for (size_t index = 0; index < sizeof children / sizeof *children; index++)
        check_number("child", (long long)children[index], (long long)resp_child(&view, 0, index));
    check_number("child: value of a pair", 3, (long long)resp_child(&view, 1, 1));
    check_number("child: of a leaf", 13, (long long)resp_child(&view, 2, 0));
    check_number("described", 10, (long long)resp_described(&view, 6));
    check_number("described: no attribute", 3, (long long)resp_described(&view, 3));
    check_number("described: no value", 99, (long long)resp_described(&view, 99));
    check_number("error", 1, resp_is_error(&view, 10));
    check_number("error: an attribute", 0, resp_is_error(&view, 6));
    check_number("error: no value", 0, resp_is_error(&view, 13));
    resp_parser_close(&parser);
}

static void test_texts(void)
{
    static const char *const texts[] = {"(none)", "(none)", "a",  "(none)", "(none)",
                                        "(none)", "(none)", "t",  "(none)", "(none)",
                                        "ERR x",  "",       "OK", "(none)"};
    resp_parser parser = RESP_PARSER_INIT;
    resp_view view, none = {0};
    size_t size = 77;

    check_number("text: an empty view", 1, resp_text(&none, 0, &size) == NULL && size == 0);
    read_value(&parser, REPLY, &view);
    for (size_t at = 0; at < sizeof texts / sizeof *texts; at++) {
        const char *text = resp_text(&view, at, &size);

        if (text == NULL)
            check_bytes("no text", texts[at], strlen(texts[at]), BYTES("(none)"));
        else
            check_bytes("text", texts[at], strlen(texts[at]), (const uint8_t *)text, size);
    }
    resp_parser_close(&parser);
}

/* A copy of the value at a place is that value, when the parser is gone. */
static void check_copy(size_t at, const char *wanted)
{
    resp_parser parser = RESP_PARSER_INIT;
    resp_view view, copy;
    struct text got = {0};

    read_value(&parser, REPLY, &view);
    check_number("copy", RESP_DONE, resp_copy(&view, at, &copy));
    resp_parser_close(&parser);
    text_add_value(&got, &copy);
    check_text("copy", BYTES(REPLY), wanted, got.bytes);
    text_clear(&got);
    resp_free_copy(&copy);
    check_number("copy: freed", 0, (long long)copy.token_count);
}

static void test_copies(void)
{
    resp_parser parser = RESP_PARSER_INIT;
    resp_view view, copy;

    check_copy(0, "[{+'a' [:1 :2]} |{+'t' :9} |{} -'ERR x' $'' ok]");
    check_copy(1, "{+'a' [:1 :2]}");
    check_copy(3, "[:1 :2]");
    check_copy(6, "|{+'t' :9} |{} -'ERR x'");
    check_copy(10, "-'ERR x'");
    check_copy(11, "$''");
    check_copy(12, "ok");
    read_value(&parser, REPLY, &view);
    check_number("copy: no value", RESP_RANGE, resp_copy(&view, 13, &copy));
    resp_free_copy(&copy);
    resp_parser_close(&parser);
}

static void check_name(const char *wanted, const char *got)
{
    check_text("name", BYTES(""), wanted, got);
}

/* A number of the header has its name. */
#define NAMED(function, number) check_name(#number, function(number))

static void test_names(void)
{
    NAMED(resp_status_name, RESP_MORE);
    NAMED(resp_status_name, RESP_DONE);
    NAMED(resp_status_name, RESP_FAULT);
    NAMED(resp_status_name, RESP_MEMORY);
    NAMED(resp_status_name, RESP_FAILED);
    NAMED(resp_status_name, RESP_CLOSED);
    NAMED(resp_status_name, RESP_ROOM);
    NAMED(resp_status_name, RESP_RANGE);
    NAMED(resp_kind_name, RESP_NIL);
    NAMED(resp_kind_name, RESP_OKAY);
    NAMED(resp_kind_name, RESP_INT);
    NAMED(resp_kind_name, RESP_SIMPLE_STRING);
    NAMED(resp_kind_name, RESP_BULK_STRING);
    NAMED(resp_kind_name, RESP_ARRAY);
    NAMED(resp_kind_name, RESP_MAP);
    NAMED(resp_kind_name, RESP_ATTRIBUTE);
    NAMED(resp_kind_name, RESP_SERVER_ERROR);
    NAMED(resp_kind_name, RESP_BOOLEAN);
    NAMED(resp_kind_name, RESP_DOUBLE);
    NAMED(resp_kind_name, RESP_BIG_NUMBER);
    NAMED(resp_kind_name, RESP_SET);
    NAMED(resp_kind_name, RESP_VERBATIM_STRING);
    NAMED(resp_kind_name, RESP_PUSH);
    NAMED(resp_fault_name, RESP_NO_FAULT);
    NAMED(resp_fault_name, RESP_TOO_DEEP);
    NAMED(resp_fault_name, RESP_UNKNOWN_TYPE);
    NAMED(resp_fault_name, RESP_LINE_NOT_UTF8);
    NAMED(resp_fault_name, RESP_NOT_INTEGER);
    NAMED(resp_fault_name, RESP_NEGATIVE_LENGTH);
    NAMED(resp_fault_name, RESP_BODY_END);
    NAMED(resp_fault_name, RESP_NOT_BOOLEAN);
    NAMED(resp_fault_name, RESP_NOT_DOUBLE);
    NAMED(resp_fault_name, RESP_NO_VERBATIM_FORMAT);
    NAMED(resp_fault_name, RESP_BAD_PUSH_KIND);
    NAMED(resp_fault_name, RESP_TOO_LONG);
    NAMED(resp_fault_name, RESP_TOO_MANY_PUSHES);
    check_name("?", resp_status_name(RESP_RANGE + 1));
    check_name("?", resp_kind_name(RESP_PUSH + 1));
    check_name("?", resp_fault_name(RESP_TOO_MANY_PUSHES + 1));
}

int main(void)
{
    test_formats();
    test_numbers();
    test_refused_formats();
    test_departures();
    test_room();
    test_long_format();
    test_argv();
    test_walking();
    test_texts();
    test_copies();
    test_names();
    return tests_end();
}
