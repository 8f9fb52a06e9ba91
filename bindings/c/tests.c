/*
 * Tests of the parser's calls. The wanted values come from the RESP specification, from what the
 * reader tests of hiredis hold, and from docs/GRAMMAR.md where it departs from these.
 */
#include "heap.h"
#include "testing.h"

#include <string.h>

/* Bytes, and what they hold: values, and then `..` within a value, or `!fault@offset`. */
struct example {
    const uint8_t *bytes;
    size_t size;
    const char *wanted;
};

/* From the RESP specification. */
static const struct example specified[] = {
    {BYTES("+OK\r\n"), "ok"},
    {BYTES("-Error message\r\n"), "-'Error message'"},
    {BYTES("-ERR unknown command 'asdf'\r\n"), "-'ERR unknown command 'asdf''"},
    {BYTES("-WRONGTYPE Operation against a key\r\n"), "-'WRONGTYPE Operation against a key'"},
    {BYTES(":0\r\n:1000\r\n"), ":0 :1000"},
    {BYTES(":-1\r\n:+1\r\n"), ":-1 :1"},
    {BYTES("$5\r\nhello\r\n"), "$'hello'"},
    {BYTES("$0\r\n\r\n"), "$''"},
    {BYTES("$-1\r\n"), "nil"},
    {BYTES("$4\r\n\r\n\0\xFF\r\n"), "$'\\x0D\\x0A\\x00\\xFF'"},
    {BYTES("*0\r\n"), "[]"},
    {BYTES("*-1\r\n"), "nil"},
    {BYTES("*2\r\n$5\r\nhello\r\n$5\r\nworld\r\n"), "[$'hello' $'world']"},
    {BYTES("*3\r\n:1\r\n:2\r\n:3\r\n"), "[:1 :2 :3]"},
    {BYTES("*5\r\n:1\r\n:2\r\n:3\r\n:4\r\n$5\r\nhello\r\n"), "[:1 :2 :3 :4 $'hello']"},
    {BYTES("*2\r\n*3\r\n:1\r\n:2\r\n:3\r\n*2\r\n+Hello\r\n-World\r\n"),
     "[[:1 :2 :3] [+'Hello' -'World']]"},
    {BYTES("*3\r\n$5\r\nhello\r\n$-1\r\n$5\r\nworld\r\n"), "[$'hello' nil $'world']"},
    {BYTES("_\r\n"), "nil"},
    {BYTES("#t\r\n#f\r\n"), "true false"},
    {BYTES(",1.23\r\n,10\r\n"), ",'1.23' ,'10'"},
    {BYTES(",inf\r\n,-inf\r\n,nan\r\n"), ",'inf' ,'-inf' ,'nan'"},
    {BYTES("(3492890328409238509324850943850943825024385\r\n"),
     "('3492890328409238509324850943850943825024385'"},
    {BYTES("!21\r\nSYNTAX invalid syntax\r\n"), "-'SYNTAX invalid syntax'"},
    {BYTES("=15\r\ntxt:Some string\r\n"), "='txt:Some string'"},
    {BYTES("%2\r\n+first\r\n:1\r\n+second\r\n:2\r\n"), "{+'first' :1 +'second' :2}"},
    {BYTES("~5\r\n+orange\r\n+apple\r\n#t\r\n:100\r\n:999\r\n"),
     "~[+'orange' +'apple' true :100 :999]"},
    {BYTES("|1\r\n+key-popularity\r\n%2\r\n$1\r\na\r\n,0.1923\r\n$1\r\nb\r\n,0.0012\r\n"
           "*2\r\n:2039123\r\n:9543892\r\n"),
     "|{+'key-popularity' {$'a' ,'0.1923' $'b' ,'0.0012'}} [:2039123 :9543892]"},
    {BYTES("*3\r\n:1\r\n:2\r\n|1\r\n+ttl\r\n:3600\r\n:3\r\n"), "[:1 :2 |{+'ttl' :3600} :3]"},
    {BYTES(">4\r\n+pubsub\r\n+message\r\n+somechannel\r\n+this is the message\r\n"),
     ">[$'pubsub' +'message' +'somechannel' +'this is the message']"},
    {BYTES(">2\r\n+message\r\n:1\r\n$9\r\nGet-Reply\r\n"), ">[$'message' :1] $'Get-Reply'"},
};

/* What hiredis reads in the same way. */
static const struct example as_hiredis[] = {
    {BYTES(""), ""},
    {BYTES("@foo\r\n"), "!2@1"},
    {BYTES("x"), "!2@1"},
    {BYTES("*2\r\n$5\r\nhello\r\n@foo\r\n"), "!2@16"},
    {BYTES(":9223372036854775807\r\n"), ":9223372036854775807"},
    {BYTES(":9223372036854775808\r\n"), "!4@22"},
    {BYTES(":-9223372036854775808\r\n"), ":-9223372036854775808"},
    {BYTES(":-9223372036854775809\r\n"), "!4@23"},
    {BYTES("*1\r\n*1\r\n*1\r\n*1\r\n*1\r\n*1\r\n*1\r\n*1\r\n*1\r\n$6\r\nLOLWUT\r\n"),
     "[[[[[[[[[$'LOLWUT']]]]]]]]]"},
    {BYTES("=10\r\ntxt:LOLWUT\r\n"), "='txt:LOLWUT'"},
    {BYTES(">2\r\n$6\r\nLOLWUT\r\n:42\r\n"), ">[$'LOLWUT' :42]"},
    {BYTES(",3.14159265358979323846\r\n"), ",'3.14159265358979323846'"},
    {BYTES(",3.14159\000265358979323846\r\n"), "!8@26"},
    {BYTES(",1.5x\r\n"), "!8@7"},
    {BYTES("#foobar\r\n"), "!7@9"},
    {BYTES("%2\r\n+first\r\n:123\r\n$6\r\nsecond\r\n#t\r\n"), "{+'first' :123 $'second' true}"},
    {BYTES("~5\r\n+orange\r\n$5\r\napple\r\n#f\r\n:100\r\n:999\r\n"),
     "~[+'orange' $'apple' false :100 :999]"},
    {BYTES("*1\r\n,1e5\r\n"), "[,'1e5']"},
    {BYTES("$10\r\nab"), ".."},
    {BYTES("*2\r\n:1\r\n"), ".."},
    {BYTES("+OK\r"), ".."},
    {BYTES(":12a\r\n"), "!4@6"},
    {BYTES(":\r\n"), "!4@3"},
    {BYTES("$\r\n"), "!4@3"},
    {BYTES("*x\r\n"), "!4@4"},
};

/* What hiredis reads otherwise: its answer in a remark. */
static const struct example departures[] = {
    {BYTES("*-2\r\n+asdf\r\n"), "nil +'asdf'"},               /* refused */
    {BYTES("$-2\r\nasdf\r\n"), "nil !2@1"},                   /* refused at the length */
    {BYTES("*1025\r\n:1\r\n"), ".."},                         /* refused by maxelements */
    {BYTES("*2305843009213693954\r\n+asdf\r\n"), ".."},       /* out of memory */
    {BYTES("*9223372036854775807\r\n+asdf\r\n"), ".."},       /* refused */
    {BYTES("$9223372036854775807\r\nasdf\r\n"), ".."},        /* awaited */
    {BYTES("_nil\r\n"), "nil"},                               /* refused */
    {BYTES("#T\r\n"), "!7@4"},                                /* true */
    {BYTES(",nan\r\n,-NaN\r\n"), ",'nan' ,'-NaN'"},           /* 1.0 refuses the first */
    {BYTES(",+InFinity\r\n, 1. \r\n"), ",'+InFinity' ,'1.'"}, /* refused */
    {BYTES(",0x10\r\n"), "!8@7"},                             /* 16 */
    {BYTES("(x\r\n"), "('x'"},                                /* refused */
    {BYTES(": 7 \r\n:+007\r\n"), ":7 :7"},                    /* refused */
    {BYTES("$+02\r\nab\r\n"), "$'ab'"},                       /* refused */
    {BYTES("+a\nb\r\n+a\rb\r\n"), "+'a\\x0Ab' +'a\\x0Db'"},   /* refused */
    {BYTES("$2\r\nabcd"), "!6@7"},                            /* ab */
    {BYTES("$2\r\nab\rd"), "!6@8"},                           /* ab */
    {BYTES("=3\r\na:b\r\n=2\r\n:b\r\n"), "='a:b' =':b'"},     /* refused */
    {BYTES("=5\r\ntxt:\xFF\r\n"), "='txt:\\xEF\\xBF\\xBD'"},  /* the byte itself */
    {BYTES(">0\r\n>-1\r\n"), ">[$''] >[$'']"},                /* no elements, and a nil */
    {BYTES(">1\r\n:1\r\n"), "!10@8"},                         /* a push of 1 */
    {BYTES(">1\r\n+OK\r\n"), "!10@9"},                        /* a push of OK */
    {BYTES("~-1\r\n"), "nil"},                                /* the same */
    {BYTES("%-1\r\n"), "!5@5"},                               /* nil */
};

/* Each fault, and where it shows; two limits have tests of their own. */
static const struct example faults[] = {
    {BYTES("?\r\n"), "!2@1"},
    {BYTES("GET k\r\n"), "!2@1"},
    {BYTES("+\xFF\r\n"), "!3@4"},
    {BYTES("-\xC3\r\n"), "!3@4"},
    {BYTES(":\xFF\r\n"), "!3@4"},
    {BYTES(":x\r\n"), "!4@4"},
    {BYTES("*?\r\n"), "!4@4"},
    {BYTES("$?\r\n"), "!4@4"},
    {BYTES("!-1\r\n"), "!5@5"},
    {BYTES("=-1\r\n"), "!5@5"},
    {BYTES("%-1\r\n"), "!5@5"},
    {BYTES("|-1\r\n"), "!5@5"},
    {BYTES("$0\r\nx"), "!6@5"},
    {BYTES("!1\r\nx\r\r"), "!6@7"},
    {BYTES("#\r\n"), "!7@3"},
    {BYTES("#tt\r\n"), "!7@5"},
    {BYTES(",\r\n"), "!8@3"},
    {BYTES(",1e\r\n"), "!8@5"},
    {BYTES("=1\r\na\r\n"), "!9@7"},
    {BYTES(">2\r\n:1\r\n:2\r\n"), "!10@12"},
    {BYTES(":1\r\n+a\r\n:x\r\n"), ":1 +'a' !4@4"},
    {BYTES("*2\r\n:1\r\n*1\r\n:x\r\n:2\r\n"), "!4@16"},
};

static void add_part(struct text *text, const char *part)
{
    if (text->size > 0)
        text_add(text, " ");
    text_add(text, part);
}

static void add_fault(struct text *text, resp_parser *parser)
{
    size_t offset = 0;
    uint32_t fault = resp_parser_fault(parser, &offset);

    add_part(text, "!");
    text_add_number(text, fault);
    text_add(text, "@");
    text_add_size(text, offset);
}

/* Adds each value that is there, and a fault. */
static void add_values(struct text *text, resp_parser *parser)
{
    resp_view view;
    uint32_t status;

    while ((status = resp_parser_next(parser, &view)) == RESP_DONE) {
        add_part(text, "");
        text_add_value(text, &view);
    }
    if (status == RESP_FAULT)
        add_fault(text, parser);
    else if (status != RESP_MORE && status != RESP_FAILED)
        add_part(text, "no such status");
    if (view.token_count != 0)
        add_part(text, "a view that isn't empty");
}

static void feed_and_add(struct text *text, resp_parser *parser, const uint8_t *bytes, size_t size)
{
    uint32_t state = resp_parser_state(parser);
    uint32_t wanted = state == RESP_STATE_HAS_FAILED ? RESP_FAILED : RESP_DONE;

    if (resp_parser_feed(parser, bytes, size) != wanted)
        add_part(text, "feed is refused");
    add_values(text, parser);
}

static void add_end(struct text *text, resp_parser *parser)
{
    if (resp_parser_state(parser) == RESP_STATE_IN_PROGRESS)
        add_part(text, "..");
}

/* The bytes in pieces of `piece` bytes, the first of which has `first`. */
static void check_pieces(const char *name, const struct example *example, size_t first,
                         size_t piece)
{
    resp_parser parser = RESP_PARSER_INIT;
    struct text got = {0};
    size_t at = 0, next = first;

    text_add(&got, "");
    check_number("open", RESP_DONE, resp_parser_open(&parser));
    while (at < example->size) {
        if (next > example->size - at)
            next = example->size - at;
        feed_and_add(&got, &parser, example->bytes + at, next);
        at += next;
        next = piece;
    }
    add_end(&got, &parser);
    resp_parser_close(&parser);
    check_text(name, example->bytes, example->size, example->wanted, got.bytes);
    text_clear(&got);
}

/* The same by resp_parser_first, value after value. */
static void check_first(const struct example *example)
{
    resp_parser parser = RESP_PARSER_INIT;
    resp_view view;
    struct text got = {0};
    size_t at = 0, taken = 0;
    uint32_t status;

    text_add(&got, "");
    resp_parser_open(&parser);
    while ((status = resp_parser_first(&parser, example->bytes + at, example->size - at, &view,
                                       &taken)) == RESP_DONE) {
        add_part(&got, "");
        text_add_value(&got, &view);
        at += taken;
    }
    if (status == RESP_FAULT) {
        size_t offset = 1;

        add_part(&got, "!");
        text_add_number(&got, resp_parser_fault(&parser, &offset));
        text_add(&got, "@");
        text_add_size(&got, taken);
        check_number("first: offset", (long long)taken, (long long)offset);
    } else if (at < example->size) {
        add_part(&got, "..");
        check_number("first: taken of more", 0, (long long)taken);
    }
    check_number("first: view", 0, (long long)(status == RESP_DONE ? 0 : view.token_count));
    check_number("first: state", RESP_STATE_BETWEEN_VALUES, resp_parser_state(&parser));
    resp_parser_close(&parser);
    check_text("first", example->bytes, example->size, example->wanted, got.bytes);
    text_clear(&got);
}

static void check_examples(const struct example *examples, size_t count)
{
    for (size_t i = 0; i < count; i++) {
        const struct example *it = &examples[i];

        check_pieces("whole", it, it->size, 1);
        check_pieces("single bytes", it, 1, 1);
        for (size_t cut = 1; cut < it->size; cut++)
            check_pieces("cut", it, cut, it->size);
        check_first(it);
    }
}

#define CHECK_EXAMPLES(examples) check_examples(examples, sizeof(examples) / sizeof *(examples))

static uint32_t feed(resp_parser *parser, const char *text)
{
    return resp_parser_feed(parser, (const uint8_t *)text, strlen(text));
}

/* Takes a value and checks it; RESP_DONE is wanted. */
static void check_next(const char *name, resp_parser *parser, const char *wanted)
{
    resp_view view;
    struct text got = {0};

    check_number(name, RESP_DONE, resp_parser_next(parser, &view));
    text_add_value(&got, &view);
    check_text(name, BYTES(""), wanted, got.bytes);
    text_clear(&got);
}

/* Fields of the tokens, and the text: start counts the bytes of all leaves before. */
static void test_view(void)
{
    static const resp_token wanted[] = {
        {RESP_MAP, 2, 0, 0},         {RESP_SIMPLE_STRING, 1, 0, 0}, {RESP_INT, 0, -7, 1},
        {RESP_BULK_STRING, 2, 0, 1}, {RESP_ARRAY, 3, 0, 3},         {RESP_BOOLEAN, 0, 1, 3},
        {RESP_DOUBLE, 3, 0, 3},      {RESP_NIL, 0, 0, 6},
    };
    resp_parser parser = RESP_PARSER_INIT;
    resp_view view;

    resp_parser_open(&parser);
    feed(&parser, "%2\r\n+a\r\n:-7\r\n$2\r\nbc\r\n*3\r\n#t\r\n,1.5\r\n_\r\n");
    check_number("view: status", RESP_DONE, resp_parser_next(&parser, &view));
    check_number("view: tokens", 8, (long long)view.token_count);
    check_number("view: text", 6, (long long)view.text_size);
    check_number("view: bytes", 0, memcmp(view.text, "abc1.5", 6));
    for (size_t i = 0; i < view.token_count && i < 8; i++) {
        check_number("view: kind", wanted[i].kind, view.tokens[i].kind);
        check_number("view: size", (long long)wanted[i].size, (long long)view.tokens[i].size);
        check_number("view: number", wanted[i].number, view.tokens[i].number);
        check_number("view: start", (long long)wanted[i].start, (long long)view.tokens[i].start);
    }
    resp_parser_close(&parser);
}

static void test_layout(void)
{
    check_number("layout: parser", 16, sizeof(resp_parser));
    check_number("layout: view", 32, sizeof(resp_view));
    check_number("layout: token", 32, sizeof(resp_token));
    check_number("layout: size", 8, offsetof(resp_token, size));
    check_number("layout: number", 16, offsetof(resp_token, number));
    check_number("layout: start", 24, offsetof(resp_token, start));
}

/* Every call of a handle without a parser. */
static void check_closed(resp_parser *parser)
{
    const resp_token token = {RESP_INT, 1, 2, 3};
    resp_view view = {&token, 1, (const uint8_t *)"t", 1};
    size_t taken = 77, offset = 77;

    check_number("closed: state", RESP_STATE_CLOSED, resp_parser_state(parser));
    check_number("closed: feed", RESP_CLOSED, feed(parser, ":1\r\n"));
    check_number("closed: next", RESP_CLOSED, resp_parser_next(parser, &view));
    check_number("closed: first", RESP_CLOSED,
                 resp_parser_first(parser, BYTES(":1\r\n"), &view, &taken));
    check_number("closed: fault", RESP_NO_FAULT, resp_parser_fault(parser, &offset));
    check_number("closed: offset", 0, (long long)offset);
    check_number("closed: taken", 77, (long long)taken);
    check_number("closed: view", 1,
                 view.tokens == &token && view.token_count == 1 && view.text_size == 1);
    check_number("closed: state", RESP_STATE_CLOSED, resp_parser_state(parser));
}

static void test_closing(void)
{
    resp_parser parser = RESP_PARSER_INIT, zeroed;

    memset(&zeroed, 0, sizeof zeroed);
    check_closed(&zeroed);
    resp_parser_close(&parser);
    check_closed(&parser);
    check_number("open", RESP_DONE, resp_parser_open(&parser));
    feed(&parser, "*2\r\n:1\r\n");
    resp_parser_close(&parser);
    check_closed(&parser);
    resp_parser_close(&parser);
    check_closed(&parser);
    check_number("open again", RESP_DONE, resp_parser_open(&parser));
    feed(&parser, ":5\r\n");
    check_next("open again", &parser, ":5");
    resp_parser_close(&parser);
}

/* A parser that is open is closed by the next opening: what it held is gone. */
static void test_opening_again(void)
{
    resp_parser parser = RESP_PARSER_INIT;

    resp_parser_open(&parser);
    feed(&parser, "$5\r\nhel");
    check_number("reopened", RESP_DONE, resp_parser_open(&parser));
    check_number("reopened: state", RESP_STATE_BETWEEN_VALUES, resp_parser_state(&parser));
    feed(&parser, ":6\r\n");
    check_next("reopened", &parser, ":6");
    resp_parser_close(&parser);
}

static void test_states(void)
{
    resp_parser parser = RESP_PARSER_INIT;
    resp_view view;

    resp_parser_open(&parser);
    check_number("state: open", RESP_STATE_BETWEEN_VALUES, resp_parser_state(&parser));
    check_number("state: more", RESP_MORE, resp_parser_next(&parser, &view));
    check_number("state: after more", RESP_STATE_BETWEEN_VALUES, resp_parser_state(&parser));
    check_number("state: no bytes", RESP_DONE, feed(&parser, ""));
    check_number("state: after no bytes", RESP_STATE_BETWEEN_VALUES, resp_parser_state(&parser));
    feed(&parser, ":1\r\n:2\r\n:3");
    check_number("state: fed", RESP_STATE_IN_PROGRESS, resp_parser_state(&parser));
    check_next("state", &parser, ":1");
    check_next("state", &parser, ":2");
    check_number("state: more", RESP_MORE, resp_parser_next(&parser, &view));
    check_number("state: within", RESP_STATE_IN_PROGRESS, resp_parser_state(&parser));
    feed(&parser, "\r\n");
    check_next("state", &parser, ":3");
    check_number("state: between", RESP_STATE_BETWEEN_VALUES, resp_parser_state(&parser));
    resp_parser_close(&parser);
}

/* After a fault the parser refuses everything but first, state, fault and close. */
static void test_failed(void)
{
    resp_parser parser = RESP_PARSER_INIT;
    resp_view view;
    size_t taken, offset;

    resp_parser_open(&parser);
    feed(&parser, ":1\r\n:x\r\n:3\r\n");
    check_next("failed", &parser, ":1");
    check_number("failed: fault", RESP_FAULT, resp_parser_next(&parser, &view));
    for (int i = 0; i < 2; i++) {
        check_number("failed: state", RESP_STATE_HAS_FAILED, resp_parser_state(&parser));
        check_number("failed: next", RESP_FAILED, resp_parser_next(&parser, &view));
        check_number("failed: view", 0, (long long)view.token_count);
        check_number("failed: feed", RESP_FAILED, feed(&parser, ":4\r\n"));
        check_number("failed: number", RESP_NOT_INTEGER, resp_parser_fault(&parser, &offset));
        check_number("failed: offset", 4, (long long)offset);
    }
    check_number("failed: first", RESP_DONE,
                 resp_parser_first(&parser, BYTES(":5\r\n"), &view, &taken));
    check_number("failed: number stays", RESP_NOT_INTEGER, resp_parser_fault(&parser, &offset));
    check_number("failed: offset stays", 4, (long long)offset);
    check_number("failed: first of fault", RESP_FAULT,
                 resp_parser_first(&parser, BYTES("@"), &view, &taken));
    check_number("failed: its number", RESP_UNKNOWN_TYPE, resp_parser_fault(&parser, &offset));
    check_number("failed: its offset", 1, (long long)offset);
    check_number("failed: reopened", RESP_DONE, resp_parser_open(&parser));
    check_number("failed: no fault", RESP_NO_FAULT, resp_parser_fault(&parser, &offset));
    check_number("failed: no offset", 0, (long long)offset);
    resp_parser_close(&parser);
}

/* resp_parser_first leaves the value in progress alone. */
static void test_first_beside(void)
{
    resp_parser parser = RESP_PARSER_INIT;
    resp_view view;
    size_t taken;

    resp_parser_open(&parser);
    feed(&parser, "$5\r\nhe");
    check_number("beside", RESP_DONE,
                 resp_parser_first(&parser, BYTES(":12\r\n:3\r\n"), &view, &taken));
    check_number("beside: taken", 5, (long long)taken);
    check_number("beside: number", 12, view.tokens[0].number);
    check_number("beside: more", RESP_MORE, resp_parser_first(&parser, BYTES(":1"), &view, &taken));
    check_number("beside: fault", RESP_FAULT,
                 resp_parser_first(&parser, BYTES(":x\r\n"), &view, &taken));
    check_number("beside: place", 4, (long long)taken);
    check_number("beside: state", RESP_STATE_IN_PROGRESS, resp_parser_state(&parser));
    feed(&parser, "llo\r\n");
    check_next("beside", &parser, "$'hello'");
    resp_parser_close(&parser);
}

/* `levels` arrays, one inside another, and then an integer. */
static void feed_nested(resp_parser *parser, size_t levels)
{
    for (size_t i = 0; i < levels; i++)
        feed(parser, "*1\r\n");
    feed(parser, ":1\r\n");
}

static void test_depth(size_t limit)
{
    resp_parser parser = RESP_PARSER_INIT;
    resp_view view;
    size_t offset;

    check_number("depth: open", RESP_DONE, resp_parser_open_within(&parser, limit, 1 << 20));
    feed_nested(&parser, limit - 1);
    check_number("depth: value", RESP_DONE, resp_parser_next(&parser, &view));
    check_number("depth: tokens", (long long)limit, (long long)view.token_count);
    feed_nested(&parser, limit);
    check_number("depth: fault", RESP_FAULT, resp_parser_next(&parser, &view));
    check_number("depth: number", RESP_TOO_DEEP, resp_parser_fault(&parser, &offset));
    check_number("depth: offset", (long long)(4 * limit + 1), (long long)offset);
    resp_parser_close(&parser);
}

/* The usual limit; hiredis reads 128 arrays. */
static void test_usual_depth(void)
{
    resp_parser parser = RESP_PARSER_INIT;
    resp_view view;
    size_t offset;

    resp_parser_open(&parser);
    feed_nested(&parser, 99);
    check_number("usual depth: value", RESP_DONE, resp_parser_next(&parser, &view));
    feed_nested(&parser, 128);
    check_number("usual depth: fault", RESP_FAULT, resp_parser_next(&parser, &view));
    check_number("usual depth: number", RESP_TOO_DEEP, resp_parser_fault(&parser, &offset));
    check_number("usual depth: offset", 401, (long long)offset);
    resp_parser_close(&parser);
}

/* A value of as many bytes as the limit is read; the byte after them shows the fault. */
static void test_size(void)
{
    resp_parser parser = RESP_PARSER_INIT;
    resp_view view;
    size_t offset;

    resp_parser_open_within(&parser, 100, 5);
    feed(&parser, ":12\r\n+ab\r\n:123\r");
    check_next("size", &parser, ":12");
    check_next("size", &parser, "+'ab'");
    check_number("size: more", RESP_MORE, resp_parser_next(&parser, &view));
    feed(&parser, "\n");
    check_number("size: fault", RESP_FAULT, resp_parser_next(&parser, &view));
    check_number("size: number", RESP_TOO_LONG, resp_parser_fault(&parser, &offset));
    check_number("size: offset", 6, (long long)offset);
    resp_parser_close(&parser);
}

/* A string of 1 MiB, in pieces that are no part of it. */
static void test_large_string(void)
{
    static uint8_t bytes[1 << 20];
    resp_parser parser = RESP_PARSER_INIT;
    resp_view view;

    for (size_t i = 0; i < sizeof bytes; i++)
        bytes[i] = (uint8_t)(i * 7 % 251);
    resp_parser_open(&parser);
    feed(&parser, "$1048576\r\n");
    for (size_t at = 0, piece; at < sizeof bytes; at += piece) {
        check_number("large: more", RESP_MORE, resp_parser_next(&parser, &view));
        piece = sizeof bytes - at < 10007 ? sizeof bytes - at : 10007;
        check_number("large: feed", RESP_DONE, resp_parser_feed(&parser, bytes + at, piece));
    }
    feed(&parser, "\r\n");
    check_number("large: done", RESP_DONE, resp_parser_next(&parser, &view));
    check_number("large: text", sizeof bytes, (long long)view.text_size);
    check_number("large: bytes", 0, memcmp(view.text, bytes, sizeof bytes));
    resp_parser_close(&parser);
}

/* An array of 100,000 integers, of which each is its place. */
static void test_large_array(void)
{
    resp_parser parser = RESP_PARSER_INIT;
    resp_view view;
    char line[32];
    long long wrong = 0;

    resp_parser_open(&parser);
    feed(&parser, "*100000\r\n");
    for (int i = 1; i <= 100000; i++) {
        snprintf(line, sizeof line, ":%d\r\n", i);
        feed(&parser, line);
    }
    check_number("array: done", RESP_DONE, resp_parser_next(&parser, &view));
    check_number("array: tokens", 100001, (long long)view.token_count);
    for (size_t i = 1; i < view.token_count; i++)
        wrong += view.tokens[i].kind != RESP_INT || view.tokens[i].number != (int64_t)i;
    check_number("array: numbers", 0, wrong);
    resp_parser_close(&parser);
}

/* Limits that can't be chosen leave the handle as it was. */
static void test_range(void)
{
    static const size_t wrong[][2] = {
        {0, 1}, {1001, 1}, {SIZE_MAX, 1}, {1, 0}, {1, (size_t)1 << 63}, {1, SIZE_MAX}, {0, 0},
    };
    resp_parser parser = RESP_PARSER_INIT;

    check_number("range: lowest", RESP_DONE, resp_parser_open_within(&parser, 1, 1));
    check_number("range: highest", RESP_DONE, resp_parser_open_within(&parser, 1000, SIZE_MAX / 2));
    feed(&parser, "$5\r\nhe");
    for (size_t i = 0; i < sizeof wrong / sizeof *wrong; i++)
        check_number("range", RESP_RANGE,
                     resp_parser_open_within(&parser, wrong[i][0], wrong[i][1]));
    feed(&parser, "llo\r\n");
    check_next("range: as it was", &parser, "$'hello'");
    resp_parser_close(&parser);
    check_number("range: closed", RESP_RANGE, resp_parser_open_within(&parser, 0, 1));
    check_closed(&parser);
}

static const char memory_input[] = "*2\r\n$5\r\nhello\r\n%1\r\n+a\r\n(12\r\n";
static const char memory_value[] = "[$'hello' {+'a' ('12'}]";

static void check_memory_of_open(resp_parser *parser, uint32_t status)
{
    check_number("memory: open", RESP_MEMORY, status);
    check_closed(parser);
}

static void check_memory_of_feed(resp_parser *parser, uint32_t status)
{
    check_number("memory: feed", RESP_MEMORY, status);
    check_number("memory: feed, state", RESP_STATE_BETWEEN_VALUES, resp_parser_state(parser));
    check_number("memory: feed again", RESP_DONE, feed(parser, memory_input));
    check_next("memory: feed again", parser, memory_value);
}

static void check_memory_of_first(resp_parser *parser, uint32_t status, const resp_view *view,
                                  size_t taken)
{
    check_number("memory: first", RESP_MEMORY, status);
    check_number("memory: first, view", 0, (long long)view->token_count);
    check_number("memory: first, taken", 0, (long long)taken);
    check_next("memory: after first", parser, memory_value);
}

static void check_memory_of_next(resp_parser *parser, uint32_t status, resp_view *view)
{
    size_t offset;

    check_number("memory: next", RESP_MEMORY, status);
    check_number("memory: next, view", 0, (long long)view->token_count);
    check_number("memory: next, state", RESP_STATE_HAS_FAILED, resp_parser_state(parser));
    check_number("memory: next, feed", RESP_FAILED, feed(parser, ":1\r\n"));
    check_number("memory: next again", RESP_FAILED, resp_parser_next(parser, view));
    check_number("memory: next, fault", RESP_NO_FAULT, resp_parser_fault(parser, &offset));
}

/* Opens, feeds, reads and takes, up to the call whose request for memory is refused. */
static void run_to_refusal(resp_parser *parser)
{
    resp_view view;
    size_t taken;
    uint32_t status = resp_parser_open(parser);

    if (heap_refused()) {
        check_memory_of_open(parser, status);
        return;
    }
    status = feed(parser, memory_input);
    if (heap_refused()) {
        check_memory_of_feed(parser, status);
        return;
    }
    status = resp_parser_first(parser, (const uint8_t *)memory_input, strlen(memory_input), &view,
                               &taken);
    if (heap_refused()) {
        check_memory_of_first(parser, status, &view, taken);
        return;
    }
    status = resp_parser_next(parser, &view);
    if (heap_refused())
        check_memory_of_next(parser, status, &view);
}

/* Whether the request of this number was refused. */
static bool run_short_of_memory(unsigned request)
{
    resp_parser parser = RESP_PARSER_INIT;

    heap_refuse(request);
    run_to_refusal(&parser);
    resp_parser_close(&parser);
    return heap_refused();
}

/* Opening again without memory leaves the parser that was open. */
static bool reopen_short_of_memory(unsigned request)
{
    resp_parser parser = RESP_PARSER_INIT;
    uint32_t status;

    heap_grant();
    resp_parser_open(&parser);
    feed(&parser, ":7\r\n");
    heap_refuse(request);
    status = resp_parser_open(&parser);
    check_number("memory: reopen", heap_refused() ? RESP_MEMORY : RESP_DONE, status);
    if (heap_refused())
        check_next("memory: reopen", &parser, ":7");
    resp_parser_close(&parser);
    return heap_refused();
}

/* Once two replies have come, others of their size ask for no memory. */
static void test_kept_memory(void)
{
    static const char input[] = "*3\r\n$5\r\nhello\r\n%1\r\n+a\r\n:12\r\n~2\r\n#t\r\n_\r\n";
    static const char value[] = "[$'hello' {+'a' :12} ~[true nil]]";
    resp_parser parser = RESP_PARSER_INIT;

    resp_parser_open(&parser);
    for (int round = 0; round < 5; round++) {
        if (round == 2)
            heap_refuse(0);
        check_number("kept memory: feed", RESP_DONE, feed(&parser, input));
        check_next("kept memory", &parser, value);
    }
    check_number("kept memory: requests", 0, heap_refused());
    heap_grant();
    resp_parser_close(&parser);
}

/* Refuses the first request for memory, then the second, until a run has no refusal. */
static void test_memory(void)
{
    unsigned request = 0;

    while (run_short_of_memory(request))
        request++;
    check_number("memory: requests were refused", 1, request > 3);
    for (request = 0; reopen_short_of_memory(request);)
        request++;
    heap_grant();
    check_number("memory: blocks that are left", 0, (long long)heap_blocks());
}

int main(void)
{
    CHECK_EXAMPLES(specified);
    CHECK_EXAMPLES(as_hiredis);
    CHECK_EXAMPLES(departures);
    CHECK_EXAMPLES(faults);
    test_view();
    test_layout();
    test_closing();
    test_opening_again();
    test_states();
    test_failed();
    test_first_beside();
    test_depth(1);
    test_depth(7);
    test_depth(9);
    test_depth(100);
    test_depth(128);
    test_depth(1000);
    test_usual_depth();
    test_size();
    test_large_string();
    test_large_array();
    test_range();
    test_kept_memory();
    test_memory();
    return tests_end();
}
