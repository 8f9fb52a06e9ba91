/*
 * The departures of resp_c from hiredis. Each follows from docs/GRAMMAR.md, which says where the
 * library is wider and narrower than RESP; hiredis is so elsewhere. A departure counts only where
 * the bytes hold what causes it: each entry of the tables has a test of a line.
 */
#include "departures.h"

#include <ctype.h>
#include <stdlib.h>
#include <string.h>

/* A line: its type byte, and what follows. A line of a body counts as one too. */
struct line {
    uint8_t type;
    const uint8_t *text;
    size_t size;
};

static bool is_one_of(uint8_t byte, const char *bytes)
{
    return byte != 0 && strchr(bytes, byte) != NULL;
}

static bool is_digit(uint8_t byte)
{
    return byte >= '0' && byte <= '9';
}

/* The only integers that hiredis reads: no sign but '-', no zeros in front, no white space. */
static bool is_strict_integer(const struct line *line)
{
    size_t at = line->size > 0 && line->text[0] == '-';

    if (at == line->size || (line->text[at] == '0' && line->size > 1))
        return false;
    while (at < line->size && is_digit(line->text[at]))
        at++;
    return at == line->size;
}

static long long number_of(const struct line *line)
{
    char text[32] = "";

    if (line->size < sizeof text)
        memcpy(text, line->text, line->size);
    return strtoll(text, NULL, 10);
}

/* An integer in a spelling that is wider: a plus, zeros in front, white space around it. */
static bool is_wide_integer(const struct line *line)
{
    return line->type == ':' && !is_strict_integer(line);
}

static bool is_wide_length(const struct line *line)
{
    return is_one_of(line->type, "$=*~%>") && !is_strict_integer(line);
}

/* A null of another length than -1. */
static bool is_odd_null(const struct line *line)
{
    return is_one_of(line->type, "$*~>") && number_of(line) < -1;
}

static bool is_many(const struct line *line)
{
    return is_one_of(line->type, "*~%>") && number_of(line) > MOST_ELEMENTS / 2;
}

static bool is_length_out_of_range(const struct line *line)
{
    return is_odd_null(line) || is_many(line);
}

/* A spelling of infinity, not a number, white space, or a number beyond what a double holds. */
static bool is_odd_double(const struct line *line)
{
    char text[512] = "", *end;
    double number;

    if (line->type != ',' || line->size >= sizeof text)
        return line->type == ',';
    memcpy(text, line->text, line->size);
    number = strtod(text, &end);
    return line->size > 325 || end != text + line->size || number - number != 0 ||
           isspace((unsigned char)text[0]);
}

/* A double of C that is none of RESP: in hexadecimal, or after white space. */
static bool is_double_of_c(const struct line *line)
{
    return line->type == ',';
}

static bool is_null_with_text(const struct line *line)
{
    return line->type == '_' && line->size > 0;
}

static bool is_odd_big_number(const struct line *line)
{
    size_t at = line->size > 0 && line->text[0] == '-';

    while (at < line->size && is_digit(line->text[at]))
        at++;
    return line->type == '(' && at < line->size;
}

static bool is_broken_text(const struct line *line)
{
    return is_one_of(line->type, "+-") && (memchr(line->text, '\r', line->size) != NULL ||
                                           memchr(line->text, '\n', line->size) != NULL);
}

/* A verbatim string whose format hasn't three bytes: the body follows this line. */
static bool is_verbatim(const struct line *line)
{
    return line->type == '=';
}

/* Bulk errors and attributes, which hiredis lacks. */
static bool is_unknown_type(const struct line *line)
{
    return is_one_of(line->type, "!|");
}

/* hiredis takes T and F as well, and a NUL as false. */
static bool is_odd_boolean(const struct line *line)
{
    return line->type == '#' && line->size == 1 &&
           (line->text[0] == 0 || is_one_of(line->text[0], "TF"));
}

static bool is_negative(const struct line *line)
{
    return is_one_of(line->type, "=%") && number_of(line) < 0;
}

static bool is_push(const struct line *line)
{
    return line->type == '>';
}

/* hiredis takes the two bytes after a body as they are. */
static bool has_body(const struct line *line)
{
    return is_one_of(line->type, "$=");
}

static bool is_text(const struct line *line)
{
    return is_one_of(line->type, "+-:_,#($*~%>=");
}

static bool is_aggregate(const struct line *line)
{
    return is_one_of(line->type, "*~%>");
}

/* What hiredis refuses, by its text, and is no fault here. */
static const struct refused {
    const char *error;
    bool (*causes)(const struct line *line);
} refused[] = {
    {"Bad integer value", is_wide_integer},
    {"Bad bulk string length", is_wide_length},
    {"Bad multi-bulk length", is_wide_length},
    {"Bulk string length out of range", is_odd_null},
    {"Multi-bulk length out of range", is_length_out_of_range},
    {"Bad double value", is_odd_double},
    {"Double value is too large", is_odd_double},
    {"Bad nil value", is_null_with_text},
    {"Bad bignum value", is_odd_big_number},
    {"Bad simple string value", is_broken_text},
    {"Verbatim string 4 bytes", is_verbatim},
    {"Protocol error, got \"!\"", is_unknown_type},
    {"Protocol error, got \"|\"", is_unknown_type},
};

/* What is a fault here, and is none of hiredis, or not yet. */
static const struct accepted {
    uint32_t fault;
    bool (*causes)(const struct line *line);
} accepted[] = {
    {RESP_TOO_DEEP, is_aggregate},     {RESP_LINE_NOT_UTF8, is_text},
    {RESP_BODY_END, has_body},         {RESP_NOT_BOOLEAN, is_odd_boolean},
    {RESP_NOT_DOUBLE, is_double_of_c}, {RESP_NEGATIVE_LENGTH, is_negative},
    {RESP_BAD_PUSH_KIND, is_push},
};

/* Takes the next line off the bytes. */
static bool next_line(const uint8_t **bytes, size_t *size, struct line *line)
{
    size_t end = 0;

    if (*size == 0)
        return false;
    while (end + 1 < *size && !((*bytes)[end] == '\r' && (*bytes)[end + 1] == '\n'))
        end++;
    if (end + 1 >= *size)
        end = *size;
    line->type = (*bytes)[0];
    line->text = *bytes + 1;
    line->size = end > 0 ? end - 1 : 0;
    end = end + 2 < *size ? end + 2 : *size;
    *bytes += end;
    *size -= end;
    return true;
}

static bool has_line(const struct answers *answers, bool (*causes)(const struct line *line))
{
    const uint8_t *bytes = answers->bytes;
    size_t size = answers->size;
    struct line line;

    while (next_line(&bytes, &size, &line))
        if (causes(&line))
            return true;
    return false;
}

static bool may_refuse(const struct answers *answers)
{
    for (size_t i = 0; i < sizeof refused / sizeof *refused; i++)
        if (strncmp(answers->error, refused[i].error, strlen(refused[i].error)) == 0)
            return has_line(answers, refused[i].causes);
    return false;
}

static bool may_accept(const struct answers *answers)
{
    for (size_t i = 0; i < sizeof accepted / sizeof *accepted; i++)
        if (answers->fault == accepted[i].fault)
            return has_line(answers, accepted[i].causes);
    return false;
}

/* Where a walk through both values stands. */
struct walk {
    const resp_view *view;
    size_t at;
};

static bool same_value(struct walk *walk, const redisReply *reply);

static bool same_bytes(const struct walk *walk, const resp_token *token, const char *bytes,
                       size_t size)
{
    return token->size == size && memcmp(walk->view->text + token->start, bytes, size) == 0;
}

static bool same_values(struct walk *walk, const redisReply *reply, size_t from)
{
    for (size_t i = from; i < reply->elements; i++)
        if (!same_value(walk, reply->element[i]))
            return false;
    return true;
}

/* hiredis keeps the white space before a double. */
static bool same_double(const struct walk *walk, const resp_token *token, const redisReply *reply)
{
    const char *text = reply->str;
    size_t size = reply->len;

    while (size > 0 && isspace((unsigned char)*text)) {
        text++;
        size--;
    }
    return same_bytes(walk, token, text, size);
}

/* Bytes that are no UTF-8 stand as U+FFFD in a verbatim string; its text isn't compared then. */
static bool same_verbatim(const struct walk *walk, const resp_token *token, const redisReply *reply)
{
    const uint8_t *text = walk->view->text + token->start;

    for (size_t i = 0; i + 2 < token->size; i++)
        if (memcmp(text + i, "\xEF\xBF\xBD", 3) == 0)
            return true;
    return token->size == reply->len + 4 && memcmp(text, reply->vtype, 3) == 0 && text[3] == ':' &&
           memcmp(text + 4, reply->str, reply->len) == 0;
}

/* The name of a push is a bulk string here, and it is empty where there are no elements. */
static bool same_push(struct walk *walk, const resp_token *token, const redisReply *reply)
{
    const resp_token *name = &walk->view->tokens[walk->at++];
    const redisReply *first;

    if (reply->type == REDIS_REPLY_NIL || reply->elements == 0)
        return token->size == 1 && name->size == 0;
    first = reply->element[0];
    return reply->type == REDIS_REPLY_PUSH && token->size == reply->elements &&
           (first->type == REDIS_REPLY_STRING || first->type == REDIS_REPLY_STATUS) &&
           same_bytes(walk, name, first->str, first->len) && same_values(walk, reply, 1);
}

static bool same_list(struct walk *walk, const resp_token *token, const redisReply *reply, int type)
{
    size_t elements = type == REDIS_REPLY_MAP ? 2 * token->size : token->size;

    return reply->type == type && reply->elements == elements && same_values(walk, reply, 0);
}

static bool same_text(const struct walk *walk, const resp_token *token, const redisReply *reply,
                      int type)
{
    return reply->type == type && same_bytes(walk, token, reply->str, reply->len);
}

static bool same_value(struct walk *walk, const redisReply *reply)
{
    const resp_token *token = &walk->view->tokens[walk->at++];

    switch (token->kind) {
    case RESP_NIL:
        return reply->type == REDIS_REPLY_NIL;
    case RESP_OKAY:
        return reply->type == REDIS_REPLY_STATUS && strcmp(reply->str, "OK") == 0;
    case RESP_INT:
        return reply->type == REDIS_REPLY_INTEGER && reply->integer == token->number;
    case RESP_BOOLEAN:
        return reply->type == REDIS_REPLY_BOOL && reply->integer == token->number;
    case RESP_SIMPLE_STRING:
        return same_text(walk, token, reply, REDIS_REPLY_STATUS);
    case RESP_BULK_STRING:
        return same_text(walk, token, reply, REDIS_REPLY_STRING);
    case RESP_SERVER_ERROR:
        return same_text(walk, token, reply, REDIS_REPLY_ERROR);
    case RESP_BIG_NUMBER:
        return same_text(walk, token, reply, REDIS_REPLY_BIGNUM);
    case RESP_DOUBLE:
        return reply->type == REDIS_REPLY_DOUBLE && same_double(walk, token, reply);
    case RESP_VERBATIM_STRING:
        return reply->type == REDIS_REPLY_VERB && same_verbatim(walk, token, reply);
    case RESP_ARRAY:
        return same_list(walk, token, reply, REDIS_REPLY_ARRAY);
    case RESP_MAP:
        return same_list(walk, token, reply, REDIS_REPLY_MAP);
    case RESP_SET:
        return same_list(walk, token, reply, REDIS_REPLY_SET);
    case RESP_PUSH:
        return same_push(walk, token, reply);
    default:
        return false; /* an attribute, which hiredis refuses */
    }
}

static bool same_reply(const struct answers *answers)
{
    struct walk walk = {answers->view, 0};

    return answers->reply != NULL && same_value(&walk, answers->reply) &&
           walk.at == answers->view->token_count;
}

bool are_documented(const struct answers *answers)
{
    if (answers->refused)
        return answers->status == RESP_FAULT || may_refuse(answers);
    if (answers->status == RESP_DONE)
        return same_reply(answers);
    if (answers->status == RESP_FAULT)
        return may_accept(answers);
    return answers->reply == NULL;
}
