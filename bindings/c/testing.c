#include "testing.h"

#include <inttypes.h>
#include <stdlib.h>
#include <string.h>

static unsigned long tests, failed;

void text_clear(struct text *text)
{
    free(text->bytes);
    text->bytes = NULL;
    text->size = 0;
}

static void add(struct text *text, const char *more, size_t size)
{
    text->bytes = realloc(text->bytes, text->size + size + 1);
    if (text->bytes == NULL) {
        fprintf(stderr, "no memory for a test\n");
        exit(2);
    }
    memcpy(text->bytes + text->size, more, size);
    text->size += size;
    text->bytes[text->size] = '\0';
}

void text_add(struct text *text, const char *more)
{
    add(text, more, strlen(more));
}

void text_add_number(struct text *text, long long number)
{
    char digits[32];

    snprintf(digits, sizeof digits, "%lld", number);
    text_add(text, digits);
}

void text_add_size(struct text *text, size_t size)
{
    char digits[32];

    snprintf(digits, sizeof digits, "%zu", size);
    text_add(text, digits);
}

void text_add_bytes(struct text *text, const uint8_t *bytes, size_t size)
{
    text_add(text, "'");
    for (size_t i = 0; i < size; i++) {
        char shown[8] = {(char)bytes[i]};

        if (bytes[i] < ' ' || bytes[i] > '~')
            snprintf(shown, sizeof shown, "\\x%02X", bytes[i]);
        text_add(text, shown);
    }
    text_add(text, "'");
}

static size_t add_value(struct text *text, const resp_view *view, size_t at);

/* Adds values, with a space between two, and returns where the next value stands. */
static size_t add_values(struct text *text, const resp_view *view, size_t at, size_t count)
{
    for (size_t i = 0; i < count; i++) {
        if (i > 0)
            text_add(text, " ");
        at = add_value(text, view, at);
    }
    return at;
}

static size_t add_list(struct text *text, const resp_view *view, size_t at, size_t count,
                       const char *open, const char *close)
{
    text_add(text, open);
    at = add_values(text, view, at, count);
    text_add(text, close);
    return at;
}

static void add_leaf(struct text *text, const resp_view *view, const resp_token *token,
                     const char *mark)
{
    text_add(text, mark);
    text_add_bytes(text, view->text + token->start, token->size);
}

static size_t add_aggregate(struct text *text, const resp_view *view, size_t at)
{
    const resp_token *token = &view->tokens[at++];

    switch (token->kind) {
    case RESP_ARRAY:
        return add_list(text, view, at, token->size, "[", "]");
    case RESP_SET:
        return add_list(text, view, at, token->size, "~[", "]");
    case RESP_PUSH:
        return add_list(text, view, at, token->size, ">[", "]");
    case RESP_MAP:
        return add_list(text, view, at, 2 * token->size, "{", "}");
    case RESP_ATTRIBUTE:
        at = add_list(text, view, at, 2 * token->size, "|{", "} ");
        return add_value(text, view, at);
    default:
        text_add(text, "no kind");
        return at;
    }
}

/* Adds the value of the token `at`, and returns where the next value stands. */
static size_t add_value(struct text *text, const resp_view *view, size_t at)
{
    const resp_token *token = &view->tokens[at];
    static const char *const marks[] = {
        [RESP_SIMPLE_STRING] = "+", [RESP_BULK_STRING] = "$", [RESP_SERVER_ERROR] = "-",
        [RESP_DOUBLE] = ",",        [RESP_BIG_NUMBER] = "(",  [RESP_VERBATIM_STRING] = "=",
        [RESP_PUSH] = NULL,
    };

    if (token->kind <= RESP_PUSH && marks[token->kind] != NULL) {
        add_leaf(text, view, token, marks[token->kind]);
    } else if (token->kind == RESP_NIL) {
        text_add(text, "nil");
    } else if (token->kind == RESP_OKAY) {
        text_add(text, "ok");
    } else if (token->kind == RESP_INT) {
        text_add(text, ":");
        text_add_number(text, token->number);
    } else if (token->kind == RESP_BOOLEAN) {
        text_add(text, token->number == 1 ? "true" : token->number == 0 ? "false" : "no boolean");
    } else {
        return add_aggregate(text, view, at);
    }
    return at + 1;
}

void text_add_value(struct text *text, const resp_view *view)
{
    if (view->token_count == 0)
        text_add(text, "no value");
    else if (add_value(text, view, 0) != view->token_count)
        text_add(text, " and tokens after it");
}

void check_text(const char *name, const uint8_t *input, size_t size, const char *wanted,
                const char *got)
{
    struct text shown = {0};

    tests++;
    if (strcmp(wanted, got) == 0)
        return;
    failed++;
    text_add_bytes(&shown, input, size);
    printf("failed: %s\n  input:  %s\n  wanted: %s\n  got:    %s\n", name, shown.bytes, wanted,
           got);
    text_clear(&shown);
}

void check_number(const char *name, long long wanted, long long got)
{
    tests++;
    if (wanted == got)
        return;
    failed++;
    printf("failed: %s\n  wanted: %lld\n  got:    %lld\n", name, wanted, got);
}

int tests_end(void)
{
    printf("%lu tests, %lu failed\n", tests, failed);
    return failed > 0;
}
