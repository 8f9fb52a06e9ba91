/*
 * Asks a server on this machine COUNT times by GET, as hiredis does:
 *
 *     bench_hiredis_socket PORT COUNT
 *
 * tools/bench-sockets counts its instructions.
 */
#include <hiredis/hiredis.h>

#include <stdlib.h>
#include <string.h>

int main(int argc, char **argv)
{
    redisContext *context;

    if (argc != 3)
        return 1;
    context = redisConnect("127.0.0.1", atoi(argv[1]));
    if (context == NULL || context->err)
        return 2;
    for (long left = atol(argv[2]); left > 0; left--) {
        redisReply *reply = redisCommand(context, "GET %s", "key:000000001");
        char *value;

        if (reply == NULL || reply->type != REDIS_REPLY_STRING)
            return 3;
        /* A copy, as the other programs make. */
        value = malloc(reply->len + 1);
        if (value == NULL)
            return 4;
        memcpy(value, reply->str, reply->len + 1);
        freeReplyObject(reply);
        free(value);
    }
    redisFree(context);
    return 0;
}
