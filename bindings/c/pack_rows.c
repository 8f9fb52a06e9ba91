/*
 * Works out rows of crates/resp_vectors through the C interface: `pack` and `pipeline`.
 *
 *     pack_rows FILE.rows ..
 *
 * Rows with cursor arguments, which C hasn't, are left out and counted.
 */
#include "row.h"
#include "testing.h"

#include <stdlib.h>
#include <string.h>

static unsigned long left_out;

/* The arguments' bytes, their sizes, and how many arguments each command has. */
struct request {
    uint8_t *args;
    size_t args_size;
    size_t *sizes;
    size_t size_count;
    size_t *counts;
    size_t command_count;
};

/* Room for a number of entries, and one more. */
static void *room_for(size_t count, size_t size)
{
    void *room = calloc(count + 1, size);

    if (room == NULL)
        exit(2);
    return room;
}

static size_t bytes_of(const struct row *row)
{
    size_t bytes = 0;

    for (size_t i = 0; i < row->count; i++)
        bytes += row->words[i].size;
    return bytes;
}

static void add_argument(struct request *request, const struct word *word)
{
    memcpy(request->args + request->args_size, word->bytes, word->size);
    request->args_size += word->size;
    request->sizes[request->size_count++] = word->size;
    request->counts[request->command_count - 1]++;
}

/* A word of a row: an argument, the end of a command, or a mark that says nothing here. */
static void add_word(struct request *request, const struct word *word)
{
    if (word_is(word, ","))
        request->command_count++;
    else if (!word_is(word, "!"))
        add_argument(request, word);
}

static struct request request_of(const struct row *row, size_t from)
{
    struct request request = {0};

    request.args = room_for(bytes_of(row), 1);
    request.sizes = room_for(row->count, sizeof *request.sizes);
    request.counts = room_for(row->count, sizeof *request.counts);
    request.command_count = from < row->count;
    for (size_t i = from; i < row->count; i++)
        add_word(&request, &row->words[i]);
    return request;
}

static void clear(struct request *request)
{
    free(request->args);
    free(request->sizes);
    free(request->counts);
}

static uint32_t pack(const struct request *it, bool is_one, bool atomic, uint8_t *out, size_t room,
                     size_t *size)
{
    if (is_one)
        return resp_pack(it->args, it->args_size, it->sizes, it->size_count, out, room, size);
    return resp_pack_pipeline(it->args, it->args_size, it->sizes, it->size_count, it->counts,
                              it->command_count, atomic, out, room, size);
}

/* Packs into exactly the room that is wanted, and compares the bytes. */
static void check_request(const struct row *row, const struct word *wanted)
{
    bool is_one = strcmp(row->task, "pack") == 0;
    bool atomic = !is_one && row->count > 0 && word_is(&row->words[0], "--atomic");
    struct request request = request_of(row, atomic);
    struct text want = {0}, got = {0};
    uint8_t *out = room_for(wanted->size, 1);
    size_t size = 0;

    check_number("status", RESP_DONE, pack(&request, is_one, atomic, out, wanted->size, &size));
    text_add_bytes(&want, wanted->bytes, wanted->size);
    text_add_bytes(&got, out, size);
    check_text(row->task, request.args, request.args_size, want.bytes, got.bytes);
    text_clear(&want);
    text_clear(&got);
    free(out);
    clear(&request);
}

static bool has_cursor(const struct row *row)
{
    for (size_t i = 0; i < row->count; i++)
        if (!row->words[i].is_quoted && row->words[i].bytes[0] == '@')
            return true;
    return false;
}

static void run_row(const struct row *row)
{
    struct word wanted;

    if (has_cursor(row)) {
        left_out++;
        return;
    }
    word_read(row->wanted, &wanted);
    check_request(row, &wanted);
    free(wanted.bytes);
}

int main(int argc, char **argv)
{
    static const char *const tasks[] = {"pack", "pipeline", NULL};
    unsigned long rows = 0;

    for (int i = 1; i < argc; i++)
        rows += rows_run(argv[i], tasks, run_row);
    printf("%lu rows, %lu left out\n", rows, left_out);
    return tests_end();
}
