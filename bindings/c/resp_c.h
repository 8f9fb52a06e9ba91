/*
 * resp_c: a proved parser and packer of RESP, the protocol of Redis (RESP2 and RESP3).
 *
 * A parser is fed bytes in pieces of any size, and gives one value after another. A value is shown
 * as an array of tokens and one block of text, which the program reads where they lie.
 *
 * The library is proved for every sequence of calls of a program that keeps these rules:
 *
 *   1. It sets a handle to RESP_PARSER_INIT, or all its bytes to zero, before it opens it.
 *   2. It never copies a handle, moves it or compares it, and never reads or writes its fields.
 *   3. It closes a handle before the memory of the handle is freed or used again.
 *   4. It uses a handle in one thread at a time. Where another thread goes on with it, a lock, the
 *      start or the end of a thread or a sequentially consistent atomic stands between their calls.
 *   5. It never passes NULL. Where a length is 0, the pointer may be any that isn't NULL.
 *   6. A pointer leads to as many bytes, sizes or tokens as the length beside it says. They may be read,
 *      those of `out` may be written, and nothing else writes them during the call.
 *   7. What a call writes (handle, view, size, `out`) overlaps nothing else that it is passed.
 *   8. It uses what a view shows until the next call with the same handle, whichever that is, and
 *      doesn't write it. To keep a value for longer, it copies the tokens and the text.
 *
 * Memory comes from rattle_alloc, rattle_realloc and rattle_dealloc: resp_alloc.c defines them over
 * malloc, and the libraries of a release have it. Calls for different handles may run in different
 * threads at once where these functions may. Memory that one thread asked for may be freed by
 * another, where a handle went there. The library has no global state, and makes no other call to
 * the system. The layout of the structs is that of x86-64 Linux, for which the library is built.
 */
#ifndef RESP_C_H
#define RESP_C_H

#include <stdbool.h>
#include <stddef.h>
#include <stdint.h>

#ifdef __cplusplus
extern "C" {
#endif

/* The version that this header describes, as resp_version gives it. */
#define RESP_VERSION_NUMBER 256

/* What calls return, in a uint32_t. */
enum resp_status {
    RESP_MORE = 0,   /* No whole value is there: feed more bytes. */
    RESP_DONE = 1,   /* The call did what it is for. */
    RESP_FAULT = 2,  /* The bytes can't begin a value: resp_parser_fault says why. */
    RESP_MEMORY = 3, /* Memory ran out. */
    RESP_FAILED = 4, /* The parser failed in an earlier call: close it. */
    RESP_CLOSED = 5, /* No parser is open in this handle. */
    RESP_ROOM = 6,   /* The buffer is too small. */
    RESP_RANGE = 7   /* A limit, a size or a reply is out of range. */
};

/* The kind of a token, in a uint8_t. */
enum resp_kind {
    RESP_NIL = 0,           /* A null, or a bulk string, array or set of negative length. */
    RESP_OKAY = 1,          /* The simple string OK. */
    RESP_INT = 2,           /* An integer: `number`. */
    RESP_SIMPLE_STRING = 3, /* A line of UTF-8: `size` bytes of text. */
    RESP_BULK_STRING = 4,   /* Any bytes: `size` bytes of text. */
    RESP_ARRAY = 5,         /* `size` values follow. */
    RESP_MAP = 6,           /* `size` pairs follow, each a key and then a value. */
    RESP_ATTRIBUTE = 7,     /* `size` pairs follow, and then the value that they describe. */
    RESP_SERVER_ERROR = 8,  /* An error: `size` bytes, its code, or the code, ' ' and a detail. */
    RESP_BOOLEAN = 9,       /* A truth value: `number` is 1 or 0. */
    RESP_DOUBLE = 10,       /* A floating point number: `size` bytes, as sent, trimmed. */
    RESP_BIG_NUMBER = 11,   /* An integer of any size: `size` bytes, as sent, unchecked. */
    RESP_SET = 12,          /* `size` values follow, without an order. */
    RESP_VERBATIM_STRING = 13, /* A text for display: `size` bytes, its format, ':' and the text. */
    RESP_PUSH = 14             /* `size` values follow. The first names its kind, a bulk string. */
};

/* Why bytes can't begin a value. docs/GRAMMAR.md says at which byte each shows. */
enum resp_fault {
    RESP_NO_FAULT = 0,
    RESP_TOO_DEEP = 1,           /* A value below the limit on depth. */
    RESP_UNKNOWN_TYPE = 2,       /* A first byte that is no type byte. */
    RESP_LINE_NOT_UTF8 = 3,      /* A line that isn't UTF-8. */
    RESP_NOT_INTEGER = 4,        /* No integer of 64 bits where one stands. */
    RESP_NEGATIVE_LENGTH = 5,    /* A negative length of a type that has no null. */
    RESP_BODY_END = 6,           /* No CR LF after a body. */
    RESP_NOT_BOOLEAN = 7,        /* A boolean other than t and f. */
    RESP_NOT_DOUBLE = 8,         /* No floating point number where one stands. */
    RESP_NO_VERBATIM_FORMAT = 9, /* A verbatim string without a colon. */
    RESP_BAD_PUSH_KIND = 10,     /* A push whose first element names no kind. */
    RESP_TOO_LONG = 11,          /* A value of more bytes than the limit on size. */
    RESP_TOO_MANY_PUSHES = 12    /* A connection's fault; no call of this interface answers it. */
};

/* Where a parser stands. */
enum resp_state {
    RESP_STATE_CLOSED = 0,         /* No parser is open. */
    RESP_STATE_BETWEEN_VALUES = 1, /* Between values: it holds no bytes. */
    RESP_STATE_IN_PROGRESS = 2,    /* It holds bytes, of a part of a value or of whole ones. */
    RESP_STATE_HAS_FAILED = 3      /* It has failed. */
};

/* A handle of a parser. All zero is a handle without one. The fields belong to the library. */
typedef struct resp_parser {
    void *at;
    bool live;
} resp_parser;

/* clang-format off */
#define RESP_PARSER_INIT { NULL, false }
/* clang-format on */

/* One value of a reply. The values inside it have the tokens after it. */
typedef struct resp_token {
    uint8_t kind;   /* one of enum resp_kind */
    size_t size;    /* how many bytes of text, values or pairs; 0 where it has none of these */
    int64_t number; /* the integer or the truth value; else 0 */
    size_t start;   /* where in the text its bytes begin, or those of the values inside it */
} resp_token;

/*
 * A reply: its tokens in preorder, each value before those inside it, and the bytes of its leaves,
 * one after another. The bytes of a leaf are text[start] up to, without, text[start + size]; no NUL
 * stands after them. Where a count is 0 the pointer beside it leads nowhere.
 *
 * The library owns what the pointers lead to, and lends it until the next call with that handle. It
 * uses this memory again for later replies, and frees it where the parser is closed. The program
 * owns the struct itself; it needs no value before a call fills it.
 */
typedef struct resp_view {
    const resp_token *tokens;
    size_t token_count;
    const uint8_t *text;
    size_t text_size;
} resp_view;

/*
 * Opens a parser of up to 100 levels and 2^63 - 1 bytes a value. One that was open is closed.
 *
 * RESP_DONE    the parser is between values and holds no bytes
 * RESP_MEMORY  the handle is as it was
 */
uint32_t resp_parser_open(resp_parser *parser);

/*
 * Opens a parser that reads values of up to `depth` levels, 1 to 1000, and `bytes` bytes, 1 to
 * 2^63 - 1. A value that isn't inside another is at level 1. One that was open is closed. Choose
 * `bytes` where the other side isn't trusted: it bounds the memory that a value takes.
 *
 * RESP_DONE    the parser is between values and holds no bytes
 * RESP_MEMORY  the handle is as it was
 * RESP_RANGE   a limit is out of its range; the handle is as it was
 */
uint32_t resp_parser_open_within(resp_parser *parser, size_t depth, size_t bytes);

/* Closes the parser and frees what it holds. A handle without one stays so. */
void resp_parser_close(resp_parser *parser);

/*
 * Adds `size` bytes to those that the parser holds. It copies them: they may go after the call.
 *
 * RESP_DONE    the bytes were added
 * RESP_MEMORY  no byte was added, and the parser is as it was; the call may be made again
 * RESP_FAILED  the parser failed before, and is as it was
 * RESP_CLOSED  no parser is open
 */
uint32_t resp_parser_feed(resp_parser *parser, const uint8_t *bytes, size_t size);

/*
 * Takes the next value. Call it after each feed until it returns RESP_MORE: one piece may hold the
 * end of many values. Each call fills the view, but for RESP_CLOSED, and the view is empty where
 * there is no value.
 *
 * RESP_DONE    the value is in the view; the parser keeps the bytes after it
 * RESP_MORE    the bytes are the beginning of a value, or there are none; feed more
 * RESP_FAULT   the bytes can't begin a value; the parser has failed
 * RESP_MEMORY  memory ran out over a value; the parser has failed
 * RESP_FAILED  the parser failed before
 * RESP_CLOSED  no parser is open; the view is as it was
 *
 * A parser that has failed stays so: where the next value begins can't be known. Close it, or open
 * another in the same handle, and drop the connection.
 */
uint32_t resp_parser_next(resp_parser *parser, resp_view *view);

/*
 * Reads the value at the start of bytes that are all there, within the limits of the parser. What
 * the parser was fed plays no part and stays, also where the parser has failed. *taken is written
 * but for RESP_CLOSED; the view as by resp_parser_next.
 *
 * RESP_DONE    the value is in the view; *taken is how many bytes spell it
 * RESP_MORE    the bytes are the beginning of a value, or there are none; *taken is 0
 * RESP_FAULT   the bytes can't begin a value; *taken says after how many bytes that shows, and
 *              resp_parser_fault has the fault; the parser hasn't failed by this
 * RESP_MEMORY  memory ran out; *taken is 0; the parser hasn't failed by this
 * RESP_CLOSED  no parser is open; the view and *taken are as they were
 */
uint32_t resp_parser_first(resp_parser *parser, const uint8_t *bytes, size_t size, resp_view *view,
                           size_t *taken);

/* Where the parser stands: one of enum resp_state. */
uint32_t resp_parser_state(resp_parser *parser);

/*
 * The fault that resp_parser_next or resp_parser_first met last: one of enum resp_fault. *offset is
 * after how many bytes it showed, the byte that shows it included: of resp_parser_next since the
 * last value, of resp_parser_first of the bytes that it was given. Both are 0 before a fault, and
 * where no parser is open.
 */
uint32_t resp_parser_fault(resp_parser *parser, size_t *offset);

/*
 * Packs one command for a server. `args` holds the bytes of its arguments, one after another, and
 * `sizes` the size of each of the `count` arguments. A command without arguments has no bytes.
 *
 * RESP_DONE    the first *size bytes of `out` are the command, and no byte after them was written
 * RESP_ROOM    the command has *size bytes, more than `room`; `out` is as it was
 * RESP_RANGE   the sizes don't add up to args_size; *size is 0, and `out` is as it was
 * RESP_MEMORY  memory ran out; *size is 0, and `out` is as it was
 */
uint32_t resp_pack(const uint8_t *args, size_t args_size, const size_t *sizes, size_t count,
                   uint8_t *out, size_t room, size_t *size);

/*
 * Packs several commands, to be sent at once. `counts` holds the number of arguments of each of the
 * `command_count` commands, whose sizes stand one after another in the `size_count` entries of
 * `sizes`. Where `atomic` is true, they stand between MULTI and EXEC. A command without arguments
 * is an empty array here, which a server skips without a reply. Returns what resp_pack does, and
 * RESP_RANGE also where the counts don't add up to size_count.
 */
uint32_t resp_pack_pipeline(const uint8_t *args, size_t args_size, const size_t *sizes,
                            size_t size_count, const size_t *counts, size_t command_count,
                            bool atomic, uint8_t *out, size_t room, size_t *size);

/*
 * Encodes one reply, as a server sends it. Its tokens and its text are those of one value, laid out
 * as in a view: tokens in preorder, the bytes of leaves one after another, and each `start` where
 * they begin. `protocol` is 3, or 2 for a client of RESP2: what RESP2 lacks is then sent in its
 * types, as a map by an array of keys and values, and attributes are left out. A value may have
 * 1000 levels. The simple string OK is a RESP_OKAY, as in a view; a RESP_SIMPLE_STRING of this text
 * is refused.
 *
 * RESP_DONE    the first *size bytes of `out` are the reply, and no byte after them was written
 * RESP_ROOM    the reply has *size bytes, more than `room`; `out` is as it was
 * RESP_RANGE   the tokens and the text are not those of one value, no bytes spell it (a line with
 *              CR LF in it, say), or `protocol` is another number; *size is 0, and `out` is as it was
 * RESP_MEMORY  memory ran out; *size is 0, and `out` is as it was
 */
uint32_t resp_encode_reply(const resp_token *tokens, size_t token_count, const uint8_t *text,
                           size_t text_size, uint32_t protocol, uint8_t *out, size_t room,
                           size_t *size);

/* The version of the library: major << 16 | minor << 8 | patch. */
uint32_t resp_version(void);

#ifdef __cplusplus
}
#endif

#endif
