/*
 * Works out rows of crates/resp_vectors through the C interface: `read`, `cut` and `limits`, by the
 * value of each reply, its fault and the place of the fault.
 *
 *     rows FILE.rows ..
 *
 * crates/resp_vectors/ROWS.md says what a row is. Wanted values are texts of Debug, with which the
 * tokens are compared. They don't show the pairs of an attribute, which are only counted here.
 */
#include "row.h"
#include "testing.h"

#include <stdlib.h>
#include <string.h>

/* Where a comparison of tokens with the wanted text stands. */
struct walk {
    const resp_view *view;
    size_t at;
    const char *wanted;
};

static const char *const fault_names[] = {
    "none",    "TooDeep",    "UnknownType", "LineNotUtf8",      "NotInteger",  "NegativeLength",
    "BodyEnd", "NotBoolean", "NotDouble",   "NoVerbatimFormat", "BadPushKind", "TooLong",
    "TooManyPushes",
};

/* Kinds of pushes, and formats, that have a name of their own; the last stands for all others. */
static const struct name {
    const char *sent;
    const char *shown;
} push_names[] =
    {
        {"invalidate", "Invalidate"},
        {"message", "Message"},
        {"pmessage", "PMessage"},
        {"smessage", "SMessage"},
        {"unsubscribe", "Unsubscribe"},
        {"punsubscribe", "PUnsubscribe"},
        {"sunsubscribe", "SUnsubscribe"},
        {"subscribe", "Subscribe"},
        {"psubscribe", "PSubscribe"},
        {"ssubscribe", "SSubscribe"},
        {NULL, "Other"},
},
  format_names[] = {
      {"mkd", "Markdown"},
      {"txt", "Text"},
      {NULL, "Unknown"},
};

/* Takes a text off the wanted one, if it stands there. */
static bool skip(struct walk *walk, const char *text)
{
    size_t size = strlen(text);

    if (strncmp(walk->wanted, text, size) != 0)
        return false;
    walk->wanted += size;
    return true;
}

static bool skip_number(struct walk *walk, long long number)
{
    char digits[32];

    snprintf(digits, sizeof digits, "%lld", number);
    return skip(walk, digits);
}

/* The UTF-8 bytes of a character; returns how many. */
static size_t encode(unsigned long letter, uint8_t *out)
{
    size_t count = letter < 0x80 ? 1 : letter < 0x800 ? 2 : letter < 0x10000 ? 3 : 4;
    static const uint8_t marks[] = {0, 0x00, 0xC0, 0xE0, 0xF0};

    for (size_t i = count; i-- > 1; letter >>= 6)
        out[i] = (uint8_t)(0x80 | (letter & 0x3F));
    out[0] = (uint8_t)(marks[count] | letter);
    return count;
}

/* A letter after a backslash in a text of Debug. */
static unsigned long escaped(char letter)
{
    switch (letter) {
    case 'n':
        return '\n';
    case 'r':
        return '\r';
    case 't':
        return '\t';
    case '0':
        return 0;
    default:
        return (unsigned char)letter;
    }
}

/* Takes the next character of a text of Debug, as its bytes. */
static size_t take_letter(struct walk *walk, uint8_t *out)
{
    char *end;
    unsigned long letter;

    if (skip(walk, "\\u{")) {
        letter = strtoul(walk->wanted, &end, 16);
        walk->wanted = end + (*end == '}');
        return encode(letter, out);
    }
    if (skip(walk, "\\"))
        return encode(escaped(*walk->wanted++), out);
    out[0] = (uint8_t)*walk->wanted++;
    return 1;
}

/* A text in double quotes, as Debug shows it. */
static bool same_quoted(struct walk *walk, const uint8_t *text, size_t size)
{
    uint8_t letter[4];
    size_t at = 0, count;

    if (!skip(walk, "\""))
        return false;
    while (*walk->wanted != '\0' && *walk->wanted != '"') {
        count = take_letter(walk, letter);
        if (count > size - at || memcmp(text + at, letter, count) != 0)
            return false;
        at += count;
    }
    return at == size && skip(walk, "\"");
}

/* A text as it is, but for control characters. */
static bool same_plain(struct walk *walk, const uint8_t *text, size_t size)
{
    char shown[8];

    for (size_t i = 0; i < size; i++) {
        snprintf(shown, sizeof shown, text[i] < ' ' || text[i] == 127 ? "\\x%02X" : "%c", text[i]);
        if (text[i] == '\r' || text[i] == '\n' || text[i] == '\t')
            snprintf(shown, sizeof shown, "\\%c",
                     text[i] == '\r'   ? 'r'
                     : text[i] == '\n' ? 'n'
                                       : 't');
        if (!skip(walk, shown))
            return false;
    }
    return true;
}

/* Bytes as a list of numbers. */
static bool same_numbers(struct walk *walk, const uint8_t *bytes, size_t size)
{
    if (!skip(walk, "["))
        return false;
    for (size_t i = 0; i < size; i++)
        if ((i > 0 && !skip(walk, ", ")) || !skip_number(walk, bytes[i]))
            return false;
    return skip(walk, "]");
}

static bool same_bulk(struct walk *walk, const uint8_t *text, size_t size)
{
    if (skip(walk, "bulk-string('"))
        return same_quoted(walk, text, size) && skip(walk, "')");
    return skip(walk, "binary-data(") && same_numbers(walk, text, size) && skip(walk, ")");
}

/* The code, and with a detail a colon and the detail. */
static bool same_error(struct walk *walk, const uint8_t *text, size_t size)
{
    const uint8_t *space = size > 0 ? memchr(text, ' ', size) : NULL;
    size_t code = space != NULL ? (size_t)(space - text) : size;

    if (!skip(walk, "Server error: `") || !same_plain(walk, text, code))
        return false;
    if (space != NULL && (!skip(walk, ": ") || !same_plain(walk, space + 1, size - code - 1)))
        return false;
    return skip(walk, "`");
}

/* A name that is shown as a variant. */
static bool same_name(struct walk *walk, const struct name *names, const uint8_t *text, size_t size)
{
    while (names->sent != NULL &&
           (strlen(names->sent) != size || memcmp(names->sent, text, size) != 0))
        names++;
    if (!skip(walk, names->shown))
        return false;
    return names->sent != NULL ||
           (skip(walk, "(") && same_quoted(walk, text, size) && skip(walk, ")"));
}

static bool same_verbatim(struct walk *walk, const uint8_t *text, size_t size)
{
    const uint8_t *colon = size > 0 ? memchr(text, ':', size) : NULL;
    size_t format;

    if (colon == NULL || !skip(walk, "verbatim-string("))
        return false;
    format = (size_t)(colon - text);
    return same_name(walk, format_names, text, format) && skip(walk, ",") &&
           same_quoted(walk, colon + 1, size - format - 1) && skip(walk, ")");
}

static bool same_value(struct walk *walk);

static bool same_pair(struct walk *walk)
{
    return skip(walk, "(") && same_value(walk) && skip(walk, ", ") && same_value(walk) &&
           skip(walk, ")");
}

/* `count` values or pairs in brackets. */
static bool same_items(struct walk *walk, bool (*same_item)(struct walk *), size_t count)
{
    if (!skip(walk, "["))
        return false;
    for (size_t i = 0; i < count; i++)
        if ((i > 0 && !skip(walk, ", ")) || !same_item(walk))
            return false;
    return skip(walk, "]");
}

/* Passes over values that the wanted text doesn't show. */
static void pass_values(struct walk *walk, size_t count)
{
    while (count-- > 0 && walk->at < walk->view->token_count) {
        const resp_token *token = &walk->view->tokens[walk->at++];

        if (token->kind == RESP_ARRAY || token->kind == RESP_SET || token->kind == RESP_PUSH)
            count += token->size;
        else if (token->kind == RESP_MAP)
            count += 2 * token->size;
        else if (token->kind == RESP_ATTRIBUTE)
            count += 2 * token->size + 1;
    }
}

static bool same_push(struct walk *walk, const resp_token *token)
{
    const resp_token *name;

    if (token->size == 0 || walk->at == walk->view->token_count)
        return false;
    name = &walk->view->tokens[walk->at++];
    return name->kind == RESP_BULK_STRING && skip(walk, "push(") &&
           same_name(walk, push_names, walk->view->text + name->start, name->size) &&
           skip(walk, ", ") && same_items(walk, same_value, token->size - 1) && skip(walk, ")");
}

static bool same_aggregate(struct walk *walk, const resp_token *token)
{
    switch (token->kind) {
    case RESP_ARRAY:
        return skip(walk, "array(") && same_items(walk, same_value, token->size) && skip(walk, ")");
    case RESP_SET:
        return skip(walk, "set(") && same_items(walk, same_value, token->size) && skip(walk, ")");
    case RESP_MAP:
        return skip(walk, "map(") && same_items(walk, same_pair, token->size) && skip(walk, ")");
    case RESP_ATTRIBUTE:
        pass_values(walk, 2 * token->size);
        return skip(walk, "attribute(") && same_value(walk) && skip(walk, ")");
    default:
        return token->kind == RESP_PUSH && same_push(walk, token);
    }
}

/* Whether the next value is the one that is wanted. */
static bool same_value(struct walk *walk)
{
    const resp_token *token;
    const uint8_t *text;

    if (walk->at >= walk->view->token_count)
        return false;
    token = &walk->view->tokens[walk->at++];
    text = walk->view->text + token->start;
    switch (token->kind) {
    case RESP_NIL:
        return skip(walk, "nil");
    case RESP_OKAY:
        return skip(walk, "ok");
    case RESP_INT:
        return skip(walk, "int(") && skip_number(walk, token->number) && skip(walk, ")");
    case RESP_BOOLEAN:
        return skip(walk, token->number ? "boolean(true)" : "boolean(false)");
    case RESP_SIMPLE_STRING:
        return skip(walk, "simple-string(") && same_quoted(walk, text, token->size) &&
               skip(walk, ")");
    case RESP_BULK_STRING:
        return same_bulk(walk, text, token->size);
    case RESP_SERVER_ERROR:
        return same_error(walk, text, token->size);
    case RESP_DOUBLE:
        return skip(walk, "double(") && same_plain(walk, text, token->size) && skip(walk, ")");
    case RESP_BIG_NUMBER:
        return skip(walk, "big-number(") && same_numbers(walk, text, token->size) &&
               skip(walk, ")");
    case RESP_VERBATIM_STRING:
        return same_verbatim(walk, text, token->size);
    default:
        return same_aggregate(walk, token);
    }
}

/* Takes the space between two parts of the wanted answer. */
static bool next_part(struct walk *walk, const char *begin)
{
    return walk->wanted == begin || skip(walk, " ");
}

static bool same_fault(struct walk *walk, uint32_t fault, size_t offset)
{
    return fault <= RESP_TOO_MANY_PUSHES && skip(walk, fault_names[fault]) && skip(walk, "@") &&
           skip_number(walk, (long long)offset);
}

/* Compares a value that was taken with the next part of the wanted text. */
static bool same_part(struct walk *walk, const resp_view *view, const char *begin)
{
    walk->view = view;
    walk->at = 0;
    return next_part(walk, begin) && same_value(walk) && walk->at == view->token_count;
}

/* Compares each value that the parser has, and a fault, with the wanted text. */
static bool same_values(struct walk *walk, resp_parser *parser, const char *begin)
{
    resp_view view;
    uint32_t status, fault;
    size_t offset;

    while ((status = resp_parser_next(parser, &view)) == RESP_DONE)
        if (!same_part(walk, &view, begin))
            return false;
    if (status != RESP_FAULT)
        return status == RESP_MORE || status == RESP_FAILED;
    fault = resp_parser_fault(parser, &offset);
    return next_part(walk, begin) && same_fault(walk, fault, offset);
}

static bool same_end(struct walk *walk, resp_parser *parser, const char *begin)
{
    if (resp_parser_state(parser) == RESP_STATE_IN_PROGRESS &&
        !(next_part(walk, begin) && skip(walk, "..")))
        return false;
    return *walk->wanted == '\0';
}

/* Feeds the bytes in two parts, or byte by byte. */
static bool same_in_pieces(resp_parser *parser, const struct word *input, size_t first,
                           size_t piece, const char *wanted)
{
    struct walk walk = {NULL, 0, wanted};
    size_t at = 0, size = first;

    while (at < input->size) {
        size = size < input->size - at ? size : input->size - at;
        if (resp_parser_feed(parser, input->bytes + at, size) == RESP_MEMORY ||
            !same_values(&walk, parser, wanted))
            return false;
        at += size;
        size = piece;
    }
    return same_end(&walk, parser, wanted);
}

/* The same by resp_parser_first, value after value. */
static bool same_by_first(resp_parser *parser, const struct word *input, const char *wanted)
{
    struct walk walk = {NULL, 0, wanted};
    resp_view view;
    size_t at = 0, taken, none;
    uint32_t status;

    while ((status = resp_parser_first(parser, input->bytes + at, input->size - at, &view,
                                       &taken)) == RESP_DONE) {
        if (!same_part(&walk, &view, wanted))
            return false;
        at += taken;
    }
    if (status == RESP_FAULT)
        return next_part(&walk, wanted) &&
               same_fault(&walk, resp_parser_fault(parser, &none), taken) && *walk.wanted == '\0';
    if (status == RESP_MORE && at < input->size && !(next_part(&walk, wanted) && skip(&walk, "..")))
        return false;
    return status == RESP_MORE && *walk.wanted == '\0';
}

static uint32_t open_for(const struct row *row, resp_parser *parser)
{
    if (row->count == 1)
        return resp_parser_open(parser);
    return resp_parser_open_within(parser, strtoull((char *)row->words[0].bytes, NULL, 10),
                                   strtoull((char *)row->words[1].bytes, NULL, 10));
}

/* Checks a row by pieces of these sizes, or, where the first has none, by resp_parser_first. */
static void check_pieces(const struct row *row, size_t first, size_t piece)
{
    resp_parser parser = RESP_PARSER_INIT;
    const struct word *input = &row->words[row->count - 1];
    bool same;

    if (open_for(row, &parser) == RESP_RANGE)
        same = strncmp(row->wanted, "refused: ", 9) == 0;
    else if (first == 0)
        same = same_by_first(&parser, input, row->wanted);
    else
        same = same_in_pieces(&parser, input, first, piece, row->wanted);
    resp_parser_close(&parser);
    check_text(row->task, input->bytes, input->size, row->wanted,
               same ? row->wanted : "something else");
}

/* Whole, byte by byte, by resp_parser_first, and cut at each place where there are few bytes. */
static void check_row(const struct row *row)
{
    size_t size = row->words[row->count - 1].size;

    check_pieces(row, size > 0 ? size : 1, 1);
    check_pieces(row, 1, 1);
    check_pieces(row, 0, 0);
    for (size_t cut = 2; cut < size && size <= 200; cut++)
        check_pieces(row, cut, size);
}

/* A `limits` row has the depth and the size before the bytes. */
static void run_row(const struct row *row)
{
    size_t wanted = strcmp(row->task, "limits") == 0 ? 3 : 1;

    check_number("words of a row", (long long)wanted, (long long)row->count);
    if (row->count == wanted)
        check_row(row);
}

int main(int argc, char **argv)
{
    static const char *const tasks[] = {"read", "cut", "limits", NULL};
    unsigned long rows = 0;

    for (int i = 1; i < argc; i++)
        rows += rows_run(argv[i], tasks, run_row);
    printf("%lu rows\n", rows);
    return tests_end();
}
