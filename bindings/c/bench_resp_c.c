#include "bench.h"
#include "resp_c.h"

/* Takes each reply that is there. */
static size_t take(resp_parser *parser)
{
    resp_view view;
    uint32_t status;
    size_t replies = 0;

    while ((status = resp_parser_next(parser, &view)) == RESP_DONE)
        replies++;
    if (status != RESP_MORE)
        give_up("resp_parser_next");
    return replies;
}

size_t parse(const uint8_t *bytes, size_t size, size_t piece)
{
    resp_parser parser = RESP_PARSER_INIT;
    size_t replies = 0;

    if (resp_parser_open(&parser) != RESP_DONE)
        give_up("resp_parser_open");
    for (size_t at = 0; at < size; at += piece) {
        size_t next = size - at < piece ? size - at : piece;

        if (resp_parser_feed(&parser, bytes + at, next) != RESP_DONE)
            give_up("resp_parser_feed");
        replies += take(&parser);
    }
    resp_parser_close(&parser);
    return replies;
}
