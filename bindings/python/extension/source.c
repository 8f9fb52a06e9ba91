/* Parsers that are fed large objects in two parts. */
#include "fast.h"

/* More bytes than this are fed in two parts. */
#define LARGE 32768

/* How many bytes the first part has: enough for the lines before a long string. */
#define FIRST 256

/* Feeds the bytes that were kept. */
static uint32_t feed_rest(struct source *it)
{
    uint32_t status = RESP_DONE;

    if (it->owner != NULL) {
        status = resp_parser_feed(&it->parser, it->rest, it->rest_size);
        if (status != RESP_MEMORY)
            Py_CLEAR(it->owner);
    }
    return status;
}

uint32_t source_feed(struct source *it, PyObject *owner, const uint8_t *bytes, size_t size)
{
    uint32_t status = feed_rest(it);

    if (status != RESP_DONE)
        return status;
    if (size <= LARGE || !PyBytes_CheckExact(owner))
        return resp_parser_feed(&it->parser, bytes, size);
    status = resp_parser_feed(&it->parser, bytes, FIRST);
    if (status == RESP_DONE) {
        Py_INCREF(owner);
        it->owner = owner;
        it->rest = bytes + FIRST;
        it->rest_size = size - FIRST;
    }
    return status;
}

uint32_t source_go_on(struct source *it, resp_view *view)
{
    uint32_t status = feed_rest(it);

    return status == RESP_DONE ? resp_parser_next(&it->parser, view) : status;
}

uint32_t source_state(struct source *it)
{
    uint32_t state = resp_parser_state(&it->parser);

    return state == RESP_STATE_BETWEEN_VALUES && it->owner != NULL ? RESP_STATE_IN_PROGRESS : state;
}

void source_close(struct source *it)
{
    resp_parser_close(&it->parser);
    Py_CLEAR(it->owner);
}
