#include "resp_tools.h"

#include <stdio.h>
#include <stdlib.h>
#include <string.h>

/* The longest conversion of a format, as of hiredis, with its NUL. */
#define CONVERSION 14

static const char *name_in(const char *const *names, size_t count, size_t number)
{
    return number < count ? names[number] : "?";
}

const char *resp_status_name(uint32_t status)
{
    static const char *const names[] = {"RESP_MORE",   "RESP_DONE",   "RESP_FAULT", "RESP_MEMORY",
                                        "RESP_FAILED", "RESP_CLOSED", "RESP_ROOM",  "RESP_RANGE"};

    return name_in(names, sizeof names / sizeof *names, status);
}

const char *resp_kind_name(uint8_t kind)
{
    static const char *const names[] = {"RESP_NIL",          "RESP_OKAY",
                                        "RESP_INT",          "RESP_SIMPLE_STRING",
                                        "RESP_BULK_STRING",  "RESP_ARRAY",
                                        "RESP_MAP",          "RESP_ATTRIBUTE",
                                        "RESP_SERVER_ERROR", "RESP_BOOLEAN",
                                        "RESP_DOUBLE",       "RESP_BIG_NUMBER",
                                        "RESP_SET",          "RESP_VERBATIM_STRING",
                                        "RESP_PUSH"};

    return name_in(names, sizeof names / sizeof *names, kind);
}

const char *resp_fault_name(uint32_t fault)
{
    static const char *const names[] = {
        "RESP_NO_FAULT",    "RESP_TOO_DEEP",           "RESP_UNKNOWN_TYPE",  "RESP_LINE_NOT_UTF8",
        "RESP_NOT_INTEGER", "RESP_NEGATIVE_LENGTH",    "RESP_BODY_END",      "RESP_NOT_BOOLEAN",
        "RESP_NOT_DOUBLE",  "RESP_NO_VERBATIM_FORMAT", "RESP_BAD_PUSH_KIND", "RESP_TOO_LONG",
        "RESP_TOO_MANY_PUSHES"};

    return name_in(names, sizeof names / sizeof *names, fault);
}

/* The token at a place, or NULL. */
static const resp_token *token_at(const resp_view *view, size_t at)
{
    return at < view->token_count ? &view->tokens[at] : NULL;
}

size_t resp_child_count(const resp_view *view, size_t at)
{
    const resp_token *token = token_at(view, at);

    switch (token == NULL ? RESP_NIL : token->kind) {
    case RESP_ARRAY:
    case RESP_SET:
    case RESP_PUSH:
        return token->size;
    case RESP_MAP:
        return 2 * token->size;
    case RESP_ATTRIBUTE:
        return 2 * token->size + 1;
    default:
        return 0;
    }
}

size_t resp_skip(const resp_view *view, size_t at)
{
    for (size_t left = 1; left > 0 && at < view->token_count; at++)
        left += resp_child_count(view, at) - 1;
    return at < view->token_count ? at : view->token_count;
}

size_t resp_child(const resp_view *view, size_t at, size_t index)
{
    if (index >= resp_child_count(view, at))
        return view->token_count;
    for (at++; index > 0; index--)
        at = resp_skip(view, at);
    return at;
}

size_t resp_described(const resp_view *view, size_t at)
{
    const resp_token *token;

    while ((token = token_at(view, at)) != NULL && token->kind == RESP_ATTRIBUTE)
        at = resp_child(view, at, 2 * token->size);
    return at;
}

const char *resp_text(const resp_view *view, size_t at, size_t *size)
{
    const resp_token *token = token_at(view, at);

    *size = 0;
    switch (token == NULL ? RESP_NIL : token->kind) {
    case RESP_OKAY:
        *size = 2;
        return "OK";
    case RESP_SIMPLE_STRING:
    case RESP_BULK_STRING:
    case RESP_SERVER_ERROR:
    case RESP_DOUBLE:
    case RESP_BIG_NUMBER:
    case RESP_VERBATIM_STRING:
        *size = token->size;
        return token->size > 0 ? (const char *)view->text + token->start : "";
    default:
        return NULL;
    }
}

bool resp_is_error(const resp_view *view, size_t at)
{
    const resp_token *token = token_at(view, at);

    return token != NULL && token->kind == RESP_SERVER_ERROR;
}

uint32_t resp_copy(const resp_view *view, size_t at, resp_view *copy)
{
    const resp_token *first = token_at(view, at);
    size_t end = resp_skip(view, at), text_end;
    resp_token *tokens;
    uint8_t *text;

    memset(copy, 0, sizeof *copy);
    if (first == NULL)
        return RESP_RANGE;
    text_end = end < view->token_count ? view->tokens[end].start : view->text_size;
    copy->token_count = end - at;
    copy->text_size = text_end - first->start;
    tokens = malloc(copy->token_count * sizeof *tokens + copy->text_size);
    if (tokens == NULL) {
        memset(copy, 0, sizeof *copy);
        return RESP_MEMORY;
    }
    text = (uint8_t *)(tokens + copy->token_count);
    memcpy(tokens, first, copy->token_count * sizeof *tokens);
    for (size_t i = 0; i < copy->token_count; i++)
        tokens[i].start -= first->start;
    if (copy->text_size > 0)
        memcpy(text, view->text + first->start, copy->text_size);
    copy->tokens = tokens;
    copy->text = text;
    return RESP_DONE;
}

void resp_free_copy(resp_view *copy)
{
    free((void *)copy->tokens);
    memset(copy, 0, sizeof *copy);
}

/* A command as it is made: the bytes of its arguments, and the size of each. */
struct command {
    uint8_t *bytes;
    size_t size, room;
    size_t *sizes;
    size_t count, places;
    size_t start;    /* where in the bytes the last argument begins */
    bool open;       /* whether the last argument may go on */
    uint32_t status; /* RESP_DONE, or why there is no command */
};

/* Room for more bytes, and where they go; NULL where there is none. */
static uint8_t *reserve(struct command *it, size_t more)
{
    size_t room = 2 * it->room + 64;
    uint8_t *bytes;

    if (it->status != RESP_DONE)
        return NULL;
    if (it->bytes == NULL || more > it->room - it->size) {
        if (more > SIZE_MAX / 2 - room)
            bytes = NULL;
        else
            bytes = realloc(it->bytes, room + more);
        if (bytes == NULL) {
            it->status = RESP_MEMORY;
            return NULL;
        }
        it->bytes = bytes;
        it->room = room + more;
    }
    return it->bytes + it->size;
}

/* Adds bytes to the last argument, which begins by this. */
static void add(struct command *it, const char *bytes, size_t size)
{
    uint8_t *place = reserve(it, size);

    it->open = true;
    if (place == NULL || size == 0)
        return;
    memcpy(place, bytes, size);
    it->size += size;
}

/* Ends the argument that is open, if one is. */
static void end_argument(struct command *it)
{
    if (!it->open || it->status != RESP_DONE)
        return;
    it->open = false;
    if (it->count == it->places) {
        size_t places = 2 * it->places + 8;
        size_t *sizes = places <= SIZE_MAX / sizeof *sizes / 2
                            ? realloc(it->sizes, places * sizeof *sizes)
                            : NULL;

        if (sizes == NULL) {
            it->status = RESP_MEMORY;
            return;
        }
        it->sizes = sizes;
        it->places = places;
    }
    it->sizes[it->count++] = it->size - it->start;
    it->start = it->size;
}

/* Packs the command, and frees it. */
static uint32_t pack(struct command *it, uint8_t *out, size_t room, size_t *size)
{
    static const uint8_t no_bytes[1];
    static const size_t no_sizes[1];
    uint32_t status = it->status;

    *size = 0;
    if (status == RESP_DONE)
        status = resp_pack(it->bytes != NULL ? it->bytes : no_bytes, it->size,
                           it->sizes != NULL ? it->sizes : no_sizes, it->count, out, room, size);
    free(it->bytes);
    free(it->sizes);
    return status;
}

uint32_t resp_pack_argv(int argc, const char *const *argv, const size_t *lens, uint8_t *out,
                        size_t room, size_t *size)
{
    struct command command = {.status = argc >= 0 ? RESP_DONE : RESP_RANGE};

    for (int i = 0; i < argc; i++) {
        add(&command, argv[i], lens != NULL ? lens[i] : strlen(argv[i]));
        end_argument(&command);
    }
    return pack(&command, out, room, size);
}

/* The values of a format, which calls take in turn. */
struct values {
    va_list list;
};

/* What a conversion takes, by the letters before it and its own. */
enum taken { TAKES_NOTHING, TAKES_INT, TAKES_LONG, TAKES_LONG_LONG, TAKES_DOUBLE };

/* Reads flags, width, precision, size and letter, and how many characters these are. */
static enum taken conversion_of(const char *text, size_t *size)
{
    const char *at = text + strspn(text, "#0-+ ");
    enum taken taken = TAKES_INT;
    const char *sized;

    at += strspn(at, "0123456789");
    if (*at == '.')
        at += 1 + strspn(at + 1, "0123456789");
    sized = at;
    if (*at == 'h') {
        at += at[1] == 'h' ? 2 : 1;
    } else if (*at == 'l') {
        taken = at[1] == 'l' ? TAKES_LONG_LONG : TAKES_LONG;
        at += at[1] == 'l' ? 2 : 1;
    }
    *size = (size_t)(at - text) + 1;
    if (*at != '\0' && strchr("diouxX", *at) != NULL)
        return taken;
    if (*at != '\0' && sized == at && strchr("eEfFgGaA", *at) != NULL)
        return TAKES_DOUBLE;
    return TAKES_NOTHING;
}

static void take(struct values *values, enum taken taken)
{
    switch (taken) {
    case TAKES_LONG_LONG:
        (void)va_arg(values->list, long long);
        break;
    case TAKES_LONG:
        (void)va_arg(values->list, long);
        break;
    case TAKES_DOUBLE:
        (void)va_arg(values->list, double);
        break;
    default:
        (void)va_arg(values->list, int);
    }
}

/* Prints a value by a conversion of printf, to `room` bytes; how many bytes it has. */
static int print(char *out, size_t room, const char *conversion, struct values *values)
{
    va_list copy;
    int size;

    va_copy(copy, values->list);
    size = vsnprintf(out, room, conversion, copy);
    va_end(copy);
    return size;
}

/* Adds a number, and returns how many characters after the percent sign spell its conversion. */
static size_t add_number(struct command *it, const char *text, struct values *values)
{
    char conversion[CONVERSION] = "%";
    size_t length;
    enum taken taken = conversion_of(text, &length);
    uint8_t *place;
    int size;

    if (taken == TAKES_NOTHING || length > sizeof conversion - 2) {
        it->status = RESP_RANGE;
        return 0;
    }
    memcpy(conversion + 1, text, length);
    size = print(NULL, 0, conversion, values);
    place = size < 0 ? NULL : reserve(it, (size_t)size + 1);
    if (size < 0)
        it->status = RESP_RANGE;
    if (place != NULL) {
        print((char *)place, (size_t)size + 1, conversion, values);
        it->size += (size_t)size;
    }
    it->open = true;
    take(values, taken);
    return length;
}

/* Adds what a conversion stands for, and returns how many characters after the percent sign spell
 * it. */
static size_t add_value(struct command *it, const char *text, struct values *values)
{
    const char *bytes;

    switch (*text) {
    case 's':
        bytes = va_arg(values->list, const char *);
        add(it, bytes, strlen(bytes));
        return 1;
    case 'b':
        bytes = va_arg(values->list, const char *);
        add(it, bytes, va_arg(values->list, size_t));
        return 1;
    case '%':
        add(it, "%", 1);
        return 1;
    default:
        return add_number(it, text, values);
    }
}

uint32_t resp_pack_vformat(uint8_t *out, size_t room, size_t *size, const char *format,
                           va_list values)
{
    struct command command = {.status = RESP_DONE};
    struct values rest;

    va_copy(rest.list, values);
    for (const char *at = format; *at != '\0' && command.status == RESP_DONE; at++) {
        if (*at == ' ')
            end_argument(&command);
        else if (*at == '%' && at[1] != '\0')
            at += add_value(&command, at + 1, &rest);
        else
            add(&command, at, 1);
    }
    end_argument(&command);
    va_end(rest.list);
    return pack(&command, out, room, size);
}

uint32_t resp_pack_format(uint8_t *out, size_t room, size_t *size, const char *format, ...)
{
    va_list values;
    uint32_t status;

    va_start(values, format);
    status = resp_pack_vformat(out, room, size, format, values);
    va_end(values);
    return status;
}
