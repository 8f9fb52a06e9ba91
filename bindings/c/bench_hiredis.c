#include "bench.h"

#include <hiredis/hiredis.h>

/* Takes each reply that is there, and frees it. */
static size_t take(redisReader *reader)
{
    void *reply;
    size_t replies = 0;

    for (;;) {
        if (redisReaderGetReply(reader, &reply) != REDIS_OK)
            give_up(reader->errstr);
        if (reply == NULL)
            return replies;
        freeReplyObject(reply);
        replies++;
    }
}

size_t parse(const uint8_t *bytes, size_t size, size_t piece)
{
    redisReader *reader = redisReaderCreate();
    size_t replies = 0;

    if (reader == NULL)
        give_up("redisReaderCreate");
    for (size_t at = 0; at < size; at += piece) {
        size_t next = size - at < piece ? size - at : piece;

        if (redisReaderFeed(reader, (const char *)bytes + at, next) != REDIS_OK)
            give_up(reader->errstr);
        replies += take(reader);
    }
    redisReaderFree(reader);
    return replies;
}
