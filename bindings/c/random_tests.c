/*
 * Random inputs for each call, a fixed number of them: random_tests [RUNS]
 *
 * Bytes are fed whole, in pieces and value by value, now and then within small limits, which must
 * agree; each value that they give is walked, copied, sent in RESP3 and read again, which must be the
 * same value, and sent in RESP2. Replies in RESP2 and commands are compared with bytes that are put
 * together here, numbers in formats with what printf makes of them, and pipelines are read back.
 * Random tokens are encoded or refused. tools/test-c builds this with sanitizers, which see the
 * accesses of the C sources.
 */
#include "resp_tools.h"
#include "testing.h"

#include <stdlib.h>
#include <string.h>

#define RUNS 20000
#define ROOM 4096

static uint32_t state = 1;

/* A random number below `limit`. */
static uint32_t below(uint32_t limit)
{
    state = state * 1664525u + 1013904223u;
    return (uint32_t)((uint64_t)state * limit >> 32);
}

/* Parts of replies, and bytes that are none. */
static const char *const parts[] = {
    "+OK\r\n",
    "+a\xC3\xA9\r\n",
    ":1\r\n",
    ":-77\r\n",
    "$3\r\nabc\r\n",
    "$0\r\n\r\n",
    "$-1\r\n",
    "*2\r\n",
    "*0\r\n",
    "*3\r\n",
    "%1\r\n",
    "%2\r\n",
    "~2\r\n",
    ">2\r\n+kind\r\n",
    "|1\r\n+ttl\r\n:9\r\n",
    "_\r\n",
    "#t\r\n",
    "#f\r\n",
    ",1.5\r\n",
    ",inf\r\n",
    "(123456789\r\n",
    "-ERR x\r\n",
    "-A\r\n",
    "!5\r\nERR y\r\n",
    "!8\r\nERR x\r\ny\r\n",
    "=7\r\ntxt:abc\r\n",
    "@",
    "$2\r\nabc",
    ":x\r\n",
    "+\xFF\r\n",
    "%-1\r\n",
};

/* Writes random parts, now and then with a byte that is changed; how many bytes. */
static size_t random_bytes(uint8_t *out)
{
    size_t size = 0, count = 1 + below(12);
    uint32_t kinds = sizeof parts / sizeof *parts - (below(8) > 0 ? 5 : 0);

    for (size_t i = 0; i < count; i++) {
        const char *part = parts[below(kinds)];

        memcpy(out + size, part, strlen(part));
        size += strlen(part);
    }
    if (below(16) == 0)
        out[below((uint32_t)size)] = (uint8_t)below(256);
    return size;
}

/* Bytes that are put together. */
struct bytes {
    uint8_t at[ROOM];
    size_t size;
    bool refused; /* no bytes may be made */
};

static void put(struct bytes *out, const void *bytes, size_t size)
{
    memcpy(out->at + out->size, bytes, size);
    out->size += size;
}

static void put_number(struct bytes *out, char type, long long number)
{
    out->size += (size_t)sprintf((char *)out->at + out->size, "%c%lld\r\n", type, number);
}

static void put_line(struct bytes *out, char type, const void *text, size_t size)
{
    put(out, &type, 1);
    put(out, text, size);
    put(out, BYTES("\r\n"));
}

static void put_bulk(struct bytes *out, const void *text, size_t size)
{
    put_number(out, '$', (long long)size);
    put(out, text, size);
    put(out, BYTES("\r\n"));
}

static void check_bytes(const char *name, const struct bytes *wanted, const uint8_t *got,
                        size_t size)
{
    check_number(name, 1, size == wanted->size && memcmp(got, wanted->at, size) == 0);
}

static bool has_line_end(const uint8_t *text, size_t size)
{
    for (size_t i = 0; i + 1 < size; i++)
        if (text[i] == '\r' && text[i + 1] == '\n')
            return true;
    return false;
}

/* Puts a value as a client of RESP2 is sent it. An error with CR LF in it can't be sent. */
static void put_resp2(struct bytes *out, const resp_view *view, size_t at)
{
    const resp_token *token = &view->tokens[at];
    const uint8_t *text = view->text + token->start, *colon;

    switch (token->kind) {
    case RESP_NIL:
        put(out, BYTES("$-1\r\n"));
        break;
    case RESP_OKAY:
        put(out, BYTES("+OK\r\n"));
        break;
    case RESP_INT:
    case RESP_BOOLEAN:
        put_number(out, ':', token->number);
        break;
    case RESP_SIMPLE_STRING:
        put_line(out, '+', text, token->size);
        break;
    case RESP_SERVER_ERROR:
        put_line(out, '-', text, token->size);
        out->refused |= has_line_end(text, token->size);
        break;
    case RESP_BULK_STRING:
    case RESP_DOUBLE:
    case RESP_BIG_NUMBER:
        put_bulk(out, text, token->size);
        break;
    case RESP_VERBATIM_STRING:
        colon = memchr(text, ':', token->size);
        put_bulk(out, colon + 1, (size_t)(text + token->size - colon - 1));
        break;
    case RESP_ATTRIBUTE:
        put_resp2(out, view, resp_described(view, at));
        break;
    default:
        put_number(out, '*', (long long)resp_child_count(view, at));
        for (size_t i = 0; i < resp_child_count(view, at); i++)
            put_resp2(out, view, resp_child(view, at, i));
    }
}

static bool same_view(const resp_view *one, const resp_view *other)
{
    bool same = one->token_count == other->token_count && one->text_size == other->text_size &&
                (one->text_size == 0 || memcmp(one->text, other->text, one->text_size) == 0);

    for (size_t i = 0; same && i < one->token_count; i++) {
        const resp_token *a = &one->tokens[i], *b = &other->tokens[i];

        same = a->kind == b->kind && a->size == b->size && a->number == b->number &&
               a->start == b->start;
    }
    return same;
}

/* Each place has a next one, and children that cover what lies between. */
static void check_walk(const resp_view *view)
{
    for (size_t at = 0; at < view->token_count; at++) {
        size_t end = resp_skip(view, at), count = resp_child_count(view, at), size;
        size_t last = count > 0 ? resp_child(view, at, count - 1) : at;
        const char *text = resp_text(view, at, &size);

        check_number("walk", (long long)end,
                     (long long)(count > 0 ? resp_skip(view, last) : at + 1));
        check_number("walk: described", 1,
                     view->tokens[resp_described(view, at)].kind != RESP_ATTRIBUTE);
        for (size_t i = 0; text != NULL && i < size; i++)
            state += (uint8_t)text[i];
    }
}

static void check_sent_in_resp2(const resp_view *value)
{
    struct bytes wanted = {.size = 0};
    uint8_t out[ROOM];
    size_t size;
    uint32_t status = resp_encode_reply(value->tokens, value->token_count, value->text,
                                        value->text_size, 2, out, sizeof out, &size);

    put_resp2(&wanted, value, 0);
    if (wanted.refused)
        wanted.size = 0;
    check_number("send in RESP2", wanted.refused ? RESP_RANGE : RESP_DONE, status);
    check_bytes("send in RESP2: bytes", &wanted, out, size);
}

/* The value at a place, copied, sent and read again, is the copy. */
static void check_sent(const resp_view *view, size_t at)
{
    resp_parser parser = RESP_PARSER_INIT;
    resp_view copy, again;
    uint8_t out[ROOM];
    size_t size, taken;

    check_number("copy", RESP_DONE, resp_copy(view, at, &copy));
    check_number("send", RESP_DONE,
                 resp_encode_reply(copy.tokens, copy.token_count, copy.text, copy.text_size, 3, out,
                                   sizeof out, &size));
    resp_parser_open(&parser);
    check_number("read again", RESP_DONE, resp_parser_first(&parser, out, size, &again, &taken));
    check_number("read again: all of it", (long long)size, (long long)taken);
    check_number("read again: the value", 1, same_view(&copy, &again));
    resp_parser_close(&parser);
    check_sent_in_resp2(&copy);
    resp_free_copy(&copy);
}

/* Feeds a random piece of what is left, and returns its size. */
static size_t feed_piece(resp_parser *parser, const uint8_t *bytes, size_t left)
{
    size_t size = 1 + below(9);

    if (size > left)
        size = left;
    check_number("feed", RESP_DONE, resp_parser_feed(parser, bytes, size));
    return size;
}

/* The levels and the bytes that a value may have. */
struct limits {
    size_t depth, bytes;
};

static struct limits random_limits(void)
{
    struct limits limits = {100, INT64_MAX};

    if (below(4) == 0) {
        limits.depth = 1 + below(4);
        limits.bytes = 1 + below(60);
    }
    return limits;
}

/* Opens a parser within limits. Those out of their range are refused, and it stays as it was. */
static void open_within(resp_parser *parser, const struct limits *limits)
{
    check_number("limits", RESP_DONE,
                 resp_parser_open_within(parser, limits->depth, limits->bytes));
    check_number("limits: no level", RESP_RANGE, resp_parser_open_within(parser, 0, limits->bytes));
    check_number("limits: levels", RESP_RANGE,
                 resp_parser_open_within(parser, 1001 + below(9), limits->bytes));
    check_number("limits: bytes", RESP_RANGE,
                 resp_parser_open_within(parser, limits->depth, below(2) * (SIZE_MAX - below(9))));
    check_number("limits: state", RESP_STATE_BETWEEN_VALUES, resp_parser_state(parser));
}

/* How many levels the value at a place has. */
static size_t levels(const resp_view *view, size_t at)
{
    size_t most = 0;

    for (size_t i = 0; i < resp_child_count(view, at); i++) {
        size_t inner = levels(view, resp_child(view, at, i));

        if (inner > most)
            most = inner;
    }
    return 1 + most;
}

/* The value at the start of bytes is the one that a parser took, if any; how many bytes it has. */
static size_t check_first(resp_parser *parser, const uint8_t *bytes, size_t size, uint32_t status,
                          const resp_view *wanted, const struct limits *limits)
{
    resp_view view;
    size_t taken;

    check_number("first", status, resp_parser_first(parser, bytes, size, &view, &taken));
    check_number("first: value", 1, same_view(wanted, &view));
    if (status == RESP_DONE)
        check_number("first: limits", 1,
                     taken <= limits->bytes && levels(&view, 0) <= limits->depth);
    return taken;
}

/* Parsers in the same state have the same fault, at the same place. */
static void check_fault(const char *name, resp_parser *one, resp_parser *other)
{
    size_t place, wanted;

    check_number(name, resp_parser_fault(one, &wanted), resp_parser_fault(other, &place));
    check_number(name, (long long)wanted, (long long)place);
}

/* The same bytes whole, in pieces and value by value: equal values, then the same status. */
static void check_parsing(void)
{
    resp_parser whole = RESP_PARSER_INIT, pieces = RESP_PARSER_INIT, values = RESP_PARSER_INIT;
    struct limits limits = random_limits();
    uint8_t bytes[ROOM];
    size_t size = random_bytes(bytes), fed = 0, at = 0;
    resp_view one, other;
    uint32_t status, same;

    open_within(&whole, &limits);
    open_within(&pieces, &limits);
    open_within(&values, &limits);
    resp_parser_feed(&whole, bytes, size);
    do {
        status = resp_parser_next(&whole, &one);
        while ((same = resp_parser_next(&pieces, &other)) == RESP_MORE && fed < size)
            fed += feed_piece(&pieces, bytes + fed, size - fed);
        check_number("status", status, same);
        check_number("value", 1, same_view(&one, &other));
        at += check_first(&values, bytes + at, size - at, status, &one, &limits);
        if (status == RESP_DONE) {
            check_walk(&one);
            check_sent(&one, 0);
            check_sent(&one, below((uint32_t)one.token_count));
        }
    } while (status == RESP_DONE);
    check_fault("fault", &whole, &pieces);
    check_fault("fault of the first value", &whole, &values);
    resp_parser_close(&whole);
    resp_parser_close(&pieces);
    resp_parser_close(&values);
}

/* A command of random arguments, by each way of packing. */
static void check_packing(void)
{
    struct bytes wanted = {.size = 0};
    char letters[64];
    const char *argv[6];
    size_t lens[6], size;
    uint8_t out[ROOM];
    int argc = 1 + (int)below(6);

    for (size_t i = 0; i < sizeof letters; i++)
        letters[i] = (char)below(256);
    put_number(&wanted, '*', argc);
    for (int i = 0; i < argc; i++) {
        lens[i] = below(sizeof letters);
        argv[i] = letters;
        put_bulk(&wanted, letters, lens[i]);
    }
    check_number("argv", RESP_DONE, resp_pack_argv(argc, argv, lens, out, ROOM, &size));
    check_bytes("argv: bytes", &wanted, out, size);
    check_number("argv: room", RESP_ROOM,
                 resp_pack_argv(argc, argv, lens, out, below((uint32_t)wanted.size), &size));
    if (argc == 2) {
        check_number(
            "format", RESP_DONE,
            resp_pack_format(out, ROOM, &size, "%b %b", argv[0], lens[0], argv[1], lens[1]));
        check_bytes("format: bytes", &wanted, out, size);
    }
}

/* Commands, as resp_pack_pipeline takes them. */
struct commands {
    uint8_t args[ROOM];
    size_t args_size;
    size_t sizes[12];
    size_t size_count;
    size_t counts[3];
    size_t command_count;
};

static void make_commands(struct commands *it)
{
    it->args_size = it->size_count = 0;
    it->command_count = below(4);
    for (size_t i = 0; i < it->command_count; i++) {
        it->counts[i] = below(5);
        for (size_t j = 0; j < it->counts[i]; j++)
            it->args_size += it->sizes[it->size_count++] = below(64);
    }
    for (size_t i = 0; i < it->args_size; i++)
        it->args[i] = (uint8_t)below(256);
}

static uint32_t pack_commands(const struct commands *it, bool atomic, uint8_t *out, size_t room,
                              size_t *size)
{
    return resp_pack_pipeline(it->args, it->args_size, it->sizes, it->size_count, it->counts,
                              it->command_count, atomic, out, room, size);
}

/* The bytes begin with a command of these arguments; how many bytes it has. */
static size_t check_command(const uint8_t *bytes, size_t size, const void *args,
                            const size_t *sizes, size_t count)
{
    resp_parser parser = RESP_PARSER_INIT;
    resp_view view;
    size_t taken;

    resp_parser_open(&parser);
    check_number("command", RESP_DONE, resp_parser_first(&parser, bytes, size, &view, &taken));
    check_number("command: array", RESP_ARRAY, view.tokens[0].kind);
    check_number("command: arguments", (long long)count, (long long)view.tokens[0].size);
    for (size_t i = 0; i < count; i++) {
        check_number("argument", RESP_BULK_STRING, view.tokens[1 + i].kind);
        check_number("argument: size", (long long)sizes[i], (long long)view.tokens[1 + i].size);
    }
    check_number("arguments", 0, view.text_size > 0 ? memcmp(view.text, args, view.text_size) : 0);
    resp_parser_close(&parser);
    return taken;
}

/* What is packed is read back. Counts and sizes that don't add up are refused. */
static void check_pipeline(void)
{
    static const size_t multi[] = {5}, exec[] = {4};
    struct commands it;
    uint8_t out[ROOM];
    size_t size, wanted, at = 0, args = 0, sizes = 0;
    bool atomic = below(2) > 0;

    make_commands(&it);
    check_number("pipeline", RESP_DONE, pack_commands(&it, atomic, out, ROOM, &size));
    if (atomic)
        at = check_command(out, size, "MULTI", multi, 1);
    for (size_t i = 0; i < it.command_count; i++) {
        at += check_command(out + at, size - at, it.args + args, it.sizes + sizes, it.counts[i]);
        for (size_t end = sizes + it.counts[i]; sizes < end; sizes++)
            args += it.sizes[sizes];
    }
    if (atomic)
        at += check_command(out + at, size - at, "EXEC", exec, 1);
    check_number("pipeline: all of it", (long long)at, (long long)size);
    if (at > 0) {
        check_number("pipeline: room", RESP_ROOM,
                     pack_commands(&it, atomic, out, below((uint32_t)at), &wanted));
        check_number("pipeline: wanted", (long long)at, (long long)wanted);
    }
    if (it.command_count > 0 && below(2) > 0)
        it.counts[below((uint32_t)it.command_count)] += 1 + below(3);
    else
        it.args_size++;
    check_number("pipeline: sums", RESP_RANGE, pack_commands(&it, atomic, out, ROOM, &size));
    check_number("pipeline: no size", 0, (long long)size);
}

/* Makes a conversion with random flags, width and precision, of at most 11 characters. */
static void make_conversion(char *out, const char *size, const char *letters)
{
    int at = sprintf(out, "%%");

    while (at < 3 && below(3) == 0)
        out[at++] = "-+ #0"[below(5)];
    if (below(3) == 0)
        at += sprintf(out + at, "%u", 1 + below(20));
    if (below(3) == 0)
        at += sprintf(out + at, ".%u", below(12));
    sprintf(out + at, "%s%c", size, letters[below((uint32_t)strlen(letters))]);
}

/* A conversion of one of these letters makes what printf makes of the value. */
static void check_conversion(const char *sized, const char *letters, ...)
{
    char conversion[16], format[32], argument[512] = "a";
    struct bytes wanted = {.size = 0};
    uint8_t out[ROOM];
    size_t size;
    va_list values;

    make_conversion(conversion, sized, letters);
    sprintf(format, "  SET a%s  b%%%% %%", conversion);
    va_start(values, letters);
    vsnprintf(argument + 1, sizeof argument - 1, conversion, values);
    va_end(values);
    put_number(&wanted, '*', 4);
    put_bulk(&wanted, "SET", 3);
    put_bulk(&wanted, argument, strlen(argument));
    put_bulk(&wanted, "b%", 2);
    put_bulk(&wanted, "%", 1);
    va_start(values, letters);
    check_number(format, RESP_DONE, resp_pack_vformat(out, ROOM, &size, format, values));
    va_end(values);
    check_bytes(format, &wanted, out, size);
}

/* Texts and bytes stand as they are, with spaces in them and beside others. */
static void check_texts(void)
{
    char text[16] = "", bytes[16], joined[48];
    size_t length = below(sizeof text), count = below(sizeof bytes), size;
    struct bytes wanted = {.size = 0};
    uint8_t out[ROOM];

    for (size_t i = 0; i < length; i++)
        text[i] = (char)(1 + below(255));
    for (size_t i = 0; i < sizeof bytes; i++)
        bytes[i] = (char)below(256);
    memcpy(joined, bytes, count);
    sprintf(joined + count, "%s%%", text);
    put_number(&wanted, '*', 2);
    put_bulk(&wanted, text, length);
    put_bulk(&wanted, joined, count + length + 1);
    check_number("texts", RESP_DONE,
                 resp_pack_format(out, ROOM, &size, "%s %b%s%%", text, bytes, count, text));
    check_bytes("texts: bytes", &wanted, out, size);
}

/* Other letters, sizes and forms are refused, and nothing is packed. */
static void check_refused_format(void)
{
    static const char *const sizes[] = {"", "h", "hh", "l", "ll"};
    static const char *const wrong[] = {"%lf", "%Lf", "%hhhd",  "%llld", "%zu",  "%jd",
                                        "%*d", "%5s", "%.*f",   "%1$d",  "%'d",  "%-",
                                        "%.",  "%l",  "%lb x ", "%ls",   "%-% ", "%000000000000d"};
    char conversion[16];
    const char *format = conversion;
    uint8_t out[ROOM];
    size_t size;

    make_conversion(conversion, sizes[below(5)], "cpnSCmkzjLtqw&");
    if (below(2) > 0)
        format = wrong[below(sizeof wrong / sizeof *wrong)];
    check_number(format, RESP_RANGE, resp_pack_format(out, ROOM, &size, format, 1));
    check_number(format, 0, (long long)size);
}

static void check_formats(void)
{
    static const double doubles[] = {0, -1.5, 1e300, -1.0 / 3, 123456789, 5e-324};
    const long long number = (long long)((uint64_t)below(UINT32_MAX) << 32 | below(UINT32_MAX));

    check_conversion("", "diouxX", (int)number);
    check_conversion("hh", "diouxX", (int)number);
    check_conversion("h", "diouxX", (int)number);
    check_conversion("l", "diouxX", (long)number);
    check_conversion("ll", "diouxX", number);
    check_conversion("", "eEfFgGaA", doubles[below(6)]);
    check_texts();
    check_refused_format();
}

/* Tokens that may be no reply: they are encoded or refused. */
static void check_encoding(void)
{
    resp_token tokens[5];
    uint8_t text[8] = "a\r\nb:c \xFF", out[ROOM];
    size_t size, count = below(6), at = 0;
    uint32_t status;

    for (size_t i = 0; i < count; i++) {
        tokens[i].kind = (uint8_t)below(16);
        tokens[i].size = below(64) == 0 ? SIZE_MAX / (1 + below(4)) : below(4);
        tokens[i].number = (int64_t)below(3) - 1;
        tokens[i].start = at;
        at += below(3);
    }
    status = resp_encode_reply(tokens, count, text, below(sizeof text + 1), 2 + below(2), out,
                               sizeof out, &size);
    check_number("encode", 1, status == RESP_DONE || status == RESP_RANGE);
    check_number("encode: size", 1, (status == RESP_DONE) == (size > 0));
}

int main(int argc, char **argv)
{
    long runs = argc > 1 ? atol(argv[1]) : RUNS;

    for (long i = 0; i < runs; i++) {
        check_parsing();
        check_packing();
        check_pipeline();
        check_formats();
        check_encoding();
    }
    return tests_end();
}
