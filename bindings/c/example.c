/*
 * Reads replies from standard input, and prints each as an indented tree.
 *
 *     printf '*2\r\n$5\r\nhello\r\n:42\r\n' | ./example
 */
#include "resp_c.h"

#include <inttypes.h>
#include <stdio.h>

static const char *const kind_names[] = {
    "nil",    "okay",       "int",       "simple string",   "bulk string",
    "array",  "map",        "attribute", "server error",    "boolean",
    "double", "big number", "set",       "verbatim string", "push",
};

static bool has_text(const resp_token *token)
{
    switch (token->kind) {
    case RESP_SIMPLE_STRING:
    case RESP_BULK_STRING:
    case RESP_SERVER_ERROR:
    case RESP_DOUBLE:
    case RESP_BIG_NUMBER:
    case RESP_VERBATIM_STRING:
        return true;
    default:
        return false;
    }
}

/* How many values stand directly inside the value of a token. */
static size_t values_inside(const resp_token *token)
{
    switch (token->kind) {
    case RESP_ARRAY:
    case RESP_SET:
    case RESP_PUSH:
        return token->size;
    case RESP_MAP:
        return 2 * token->size;
    case RESP_ATTRIBUTE:
        return 2 * token->size + 1;
    default:
        return 0;
    }
}

static void print_text(const uint8_t *text, size_t size)
{
    for (size_t i = 0; i < size; i++) {
        if (text[i] < ' ' || text[i] > '~' || text[i] == '\\')
            printf("\\x%02X", text[i]);
        else
            putchar(text[i]);
    }
}

/* Prints the value of the token `at`, and returns where the next value's token stands. */
static size_t print_value(const resp_view *view, size_t at, int indent)
{
    const resp_token *token = &view->tokens[at++];

    printf("%*s%s", indent, "", kind_names[token->kind]);
    if (has_text(token)) {
        printf(" ");
        print_text(view->text + token->start, token->size);
    } else if (token->kind == RESP_INT || token->kind == RESP_BOOLEAN) {
        printf(" %" PRId64, token->number);
    } else if (values_inside(token) > 0) {
        printf(" of %zu", token->size);
    }
    printf("\n");
    for (size_t left = values_inside(token); left > 0; left--)
        at = print_value(view, at, indent + 2);
    return at;
}

/* Prints each value that the parser has whole; returns what ended this. */
static uint32_t print_values(resp_parser *parser)
{
    resp_view view;
    uint32_t status;

    while ((status = resp_parser_next(parser, &view)) == RESP_DONE)
        print_value(&view, 0, 0);
    return status;
}

/* Reads standard input to its end, or until something stops it. */
static uint32_t print_input(resp_parser *parser)
{
    uint8_t piece[4096];
    uint32_t status = RESP_MORE;
    size_t size;

    while (status == RESP_MORE && (size = fread(piece, 1, sizeof piece, stdin)) > 0) {
        status = resp_parser_feed(parser, piece, size);
        if (status == RESP_DONE)
            status = print_values(parser);
    }
    return status;
}

/* Says what stopped the program; returns its exit status, 0 at the end of a value. */
static int report(resp_parser *parser, uint32_t status)
{
    size_t offset;
    uint32_t fault = resp_parser_fault(parser, &offset);

    if (status == RESP_FAULT)
        fprintf(stderr, "fault %" PRIu32 " after %zu bytes\n", fault, offset);
    else if (status != RESP_MORE)
        fprintf(stderr, "status %" PRIu32 "\n", status);
    else if (resp_parser_state(parser) == RESP_STATE_IN_PROGRESS)
        fprintf(stderr, "the input ends within a value\n");
    else
        return 0;
    return 1;
}

int main(void)
{
    resp_parser parser = RESP_PARSER_INIT;
    uint32_t status = resp_parser_open(&parser);
    int result;

    if (status == RESP_DONE)
        status = print_input(&parser);
    result = report(&parser, status);
    resp_parser_close(&parser);
    return result;
}
