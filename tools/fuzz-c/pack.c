/*
 * A fuzz target for libFuzzer: packs commands by resp_pack and by resp_pack_pipeline, which must
 * give the bytes that redisFormatCommandArgv of hiredis does. With too little room they must say
 * how much is wanted, and write nothing.
 *
 * The first byte of an input chooses the room, the number of arguments, up to 15, and whether the
 * pipeline is atomic. The next bytes choose the sizes of the arguments and where a command ends;
 * the others are the arguments.
 */
#include "resp_c.h"

#include <hiredis/hiredis.h>

#include <stdio.h>
#include <stdlib.h>
#include <string.h>

#define MOST 16
#define UNTOUCHED 0xA5

struct request {
    const uint8_t *args;
    size_t args_size;
    size_t sizes[MOST];
    size_t size_count;
    size_t counts[MOST]; /* of arguments of each command */
    size_t command_count;
};

/* Bytes that grow. */
struct bytes {
    char *at;
    size_t size;
};

int LLVMFuzzerTestOneInput(const uint8_t *data, size_t size);

static void check(bool holds, const char *what)
{
    if (holds)
        return;
    fprintf(stderr, "fuzz-c: %s\n", what);
    abort();
}

static void add(struct bytes *bytes, const char *more, size_t size)
{
    bytes->at = realloc(bytes->at, bytes->size + size + 1);
    check(bytes->at != NULL, "no memory");
    memcpy(bytes->at + bytes->size, more, size);
    bytes->size += size;
}

/* Adds a command as hiredis packs it, and returns how many bytes of arguments it has. */
static size_t add_command(struct bytes *bytes, const uint8_t *args, const size_t *sizes,
                          size_t count)
{
    const char *arguments[MOST];
    char *packed = NULL;
    size_t used = 0;
    long long size;

    for (size_t i = 0; i < count; i++) {
        arguments[i] = (const char *)args + used;
        used += sizes[i];
    }
    size = redisFormatCommandArgv(&packed, (int)count, arguments, sizes);
    check(size >= 0, "hiredis packs nothing");
    add(bytes, packed, (size_t)size);
    redisFreeCommand(packed);
    return used;
}

static void add_word(struct bytes *bytes, const char *word)
{
    const size_t size = strlen(word);

    add_command(bytes, (const uint8_t *)word, &size, 1);
}

/* All commands as hiredis packs them. */
static struct bytes wanted_of(const struct request *request, bool atomic)
{
    struct bytes bytes = {0};
    const uint8_t *args = request->args;
    const size_t *sizes = request->sizes;

    if (atomic)
        add_word(&bytes, "MULTI");
    for (size_t i = 0; i < request->command_count; i++) {
        args += add_command(&bytes, args, sizes, request->counts[i]);
        sizes += request->counts[i];
    }
    if (atomic)
        add_word(&bytes, "EXEC");
    return bytes;
}

static uint32_t pack(const struct request *it, bool is_one, bool atomic, uint8_t *out, size_t room,
                     size_t *size)
{
    if (is_one)
        return resp_pack(it->args, it->args_size, it->sizes, it->size_count, out, room, size);
    return resp_pack_pipeline(it->args, it->args_size, it->sizes, it->size_count, it->counts,
                              it->command_count, atomic, out, room, size);
}

static bool is_untouched(const uint8_t *bytes, size_t size)
{
    while (size > 0 && bytes[size - 1] == UNTOUCHED)
        size--;
    return size == 0;
}

/* Packs into some room, with a byte after it that must stay. */
static void check_packed(const struct request *request, bool is_one, bool atomic, size_t room,
                         const struct bytes *wanted)
{
    uint8_t *out = malloc(room + 1);
    size_t size = 0, written;
    uint32_t status;

    check(out != NULL, "no memory");
    memset(out, UNTOUCHED, room + 1);
    status = pack(request, is_one, atomic, out, room, &size);
    written = status == RESP_DONE ? wanted->size : 0;
    check(status == (room < wanted->size ? RESP_ROOM : RESP_DONE), "status");
    check(size == wanted->size, "size");
    check(written == 0 || memcmp(out, wanted->at, written) == 0, "bytes");
    check(is_untouched(out + written, room + 1 - written), "a byte beside them");
    free(out);
}

static void check_request(const struct request *request, bool is_one, bool atomic, size_t room)
{
    struct bytes wanted = {0};

    if (!is_one || request->size_count > 0)
        wanted = wanted_of(request, atomic);
    check_packed(request, is_one, atomic, room, &wanted);
    check_packed(request, is_one, atomic, wanted.size, &wanted);
    free(wanted.at);
}

/* A byte of the head has four bits for a size, of which 15 is all that is left, and one that ends a
   command. */
static struct request request_of(const uint8_t *data, size_t size, bool is_one)
{
    struct request request = {0};
    size_t count = data[0] % MOST;

    if (count > size - 1)
        count = size - 1;
    request.args = data + 1 + count;
    request.command_count = 1;
    for (size_t i = 0; i < count; i++) {
        size_t left = size - 1 - count - request.args_size;
        size_t wanted = data[1 + i] % 16 < 15 ? data[1 + i] % 16 : left;

        request.sizes[i] = wanted < left ? wanted : left;
        request.args_size += request.sizes[i];
        request.counts[request.command_count - 1]++;
        if (!is_one && data[1 + i] >= 128)
            request.command_count++;
    }
    request.size_count = count;
    return request;
}

int LLVMFuzzerTestOneInput(const uint8_t *data, size_t size)
{
    struct request request;

    if (size < 2)
        return 0;
    request = request_of(data, size, true);
    check_request(&request, true, false, data[0]);
    request = request_of(data, size, false);
    check_request(&request, false, data[0] >= 128, data[0]);
    return 0;
}
