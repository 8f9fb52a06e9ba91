/*
 * A fuzz target for libFuzzer: bytes go whole into one parser, in pieces into a second one, value
 * by value into resp_parser_first, and into the reader of hiredis. The first three must agree in
 * everything. hiredis must agree but for the departures in departures.c.
 *
 * The first three bytes of an input choose pieces and limits; the others are fed.
 */
#include "departures.h"

#include <stdio.h>
#include <stdlib.h>
#include <string.h>

#define HEAD 3

struct run {
    const uint8_t *head;
    const uint8_t *bytes;
    size_t size;
    size_t taken;    /* how many bytes the values so far have */
    size_t fed;      /* how many bytes the parser of pieces was fed */
    uint32_t random; /* chooses the next piece */
    resp_parser whole;
    resp_parser pieces;
    redisReader *hiredis; /* NULL where limits are chosen, and once it has parted */
};

int LLVMFuzzerTestOneInput(const uint8_t *data, size_t size);

static void check(const struct run *run, bool holds, const char *what)
{
    if (holds)
        return;
    fprintf(stderr, "fuzz-c: after %zu bytes of values: %s\n", run->taken, what);
    abort();
}

/* Opens a parser of the limits that the input chooses: every fourth one has small ones. */
static bool has_limits(const struct run *run)
{
    return run->head[2] % 4 == 0;
}

static void open_parser(const struct run *run, resp_parser *parser)
{
    uint32_t status;

    if (has_limits(run))
        status = resp_parser_open_within(parser, 1 + run->head[2] % 5, 1 + run->head[2]);
    else
        status = resp_parser_open(parser);
    check(run, status == RESP_DONE, "open");
}

static bool same_token(const resp_token *a, const resp_token *b)
{
    return a->kind == b->kind && a->size == b->size && a->number == b->number &&
           a->start == b->start;
}

static bool same_view(const resp_view *a, const resp_view *b)
{
    if (a->token_count != b->token_count || a->text_size != b->text_size)
        return false;
    for (size_t i = 0; i < a->token_count; i++)
        if (!same_token(&a->tokens[i], &b->tokens[i]))
            return false;
    return a->text_size == 0 || memcmp(a->text, b->text, a->text_size) == 0;
}

/* The parser that was fed the whole gives the same answer. Returns its view. */
static resp_view check_whole(struct run *run, uint32_t status, const resp_view *wanted)
{
    resp_view view;

    check(run, resp_parser_next(&run->whole, &view) == status, "whole: status");
    check(run, same_view(&view, wanted), "whole: view");
    return view;
}

/* So does resp_parser_first of the bytes that are left. Returns how many it takes. */
static size_t check_first(struct run *run, uint32_t status, const resp_view *wanted,
                          uint32_t *fault)
{
    resp_parser parser = RESP_PARSER_INIT;
    resp_view view;
    size_t taken, offset;
    const uint8_t *rest = run->bytes + run->taken;

    open_parser(run, &parser);
    check(run, resp_parser_first(&parser, rest, run->size - run->taken, &view, &taken) == status,
          "first: status");
    check(run, same_view(&view, wanted), "first: view");
    *fault = resp_parser_fault(&parser, &offset);
    resp_parser_close(&parser);
    return taken;
}

/* hiredis goes on no more: it refused what is no fault here. */
static void leave_hiredis(struct run *run)
{
    redisReaderFree(run->hiredis);
    run->hiredis = NULL;
}

/* So does hiredis, but for what is documented. */
static void check_hiredis(struct run *run, uint32_t status, const resp_view *view, size_t size,
                          uint32_t fault)
{
    struct answers answers = {status, fault, view, run->bytes + run->taken,
                              size,   false, NULL, NULL};
    void *reply = NULL;

    if (run->hiredis == NULL)
        return;
    answers.refused = redisReaderGetReply(run->hiredis, &reply) != REDIS_OK;
    answers.reply = reply;
    answers.error = run->hiredis->errstr;
    check(run, are_documented(&answers), answers.refused ? answers.error : "hiredis: its value");
    freeReplyObject(reply);
    if (answers.refused)
        leave_hiredis(run);
}

/* Faults and states of both parsers. */
static void check_places(struct run *run, uint32_t status, uint32_t fault, size_t taken)
{
    size_t whole, pieces;

    check(run, resp_parser_fault(&run->whole, &whole) == fault, "whole: fault");
    check(run, resp_parser_fault(&run->pieces, &pieces) == fault, "pieces: fault");
    check(run, whole == (status == RESP_FAULT ? taken : 0), "whole: place of the fault");
    check(run, whole == pieces, "pieces: place of the fault");
    if (status != RESP_DONE)
        check(run, resp_parser_state(&run->whole) == resp_parser_state(&run->pieces), "state");
}

/* Compares the answer of the parser of pieces, at the last of them or with a value or a fault. */
static void check_answer(struct run *run, uint32_t status, const resp_view *view)
{
    resp_view whole = check_whole(run, status, view);
    uint32_t fault = RESP_NO_FAULT;
    size_t taken = check_first(run, status, view, &fault);
    size_t size = status == RESP_MORE ? run->size - run->taken : taken;

    check_hiredis(run, status, &whole, size, fault);
    check_places(run, status, fault, taken);
    if (status == RESP_DONE)
        run->taken += taken;
}

static void feed_piece(struct run *run)
{
    size_t left = run->size - run->fed, piece;

    run->random = run->random * 1103515245u + 12345u;
    piece = 1 + (run->random >> 16) % (1 + run->head[1]);
    if (piece > left)
        piece = left;
    check(run, resp_parser_feed(&run->pieces, run->bytes + run->fed, piece) == RESP_DONE, "feed");
    run->fed += piece;
}

/* Feeds pieces and compares each answer, until there is no more to come. */
static void run_pieces(struct run *run)
{
    resp_view view;
    uint32_t status;

    for (;;) {
        status = resp_parser_next(&run->pieces, &view);
        if (status == RESP_MORE && run->fed < run->size) {
            feed_piece(run);
            continue;
        }
        check_answer(run, status, &view);
        if (status != RESP_DONE)
            return;
    }
}

static void begin(struct run *run)
{
    open_parser(run, &run->whole);
    open_parser(run, &run->pieces);
    check(run, resp_parser_feed(&run->whole, run->bytes, run->size) == RESP_DONE, "feed");
    if (has_limits(run))
        return;
    run->hiredis = redisReaderCreate();
    run->hiredis->maxelements = MOST_ELEMENTS;
    redisReaderFeed(run->hiredis, (const char *)run->bytes, run->size);
}

int LLVMFuzzerTestOneInput(const uint8_t *data, size_t size)
{
    struct run run = {0};

    if (size < HEAD)
        return 0;
    run.head = data;
    run.bytes = data + HEAD;
    run.size = size - HEAD;
    run.random = data[0];
    begin(&run);
    run_pieces(&run);
    redisReaderFree(run.hiredis);
    resp_parser_close(&run.whole);
    resp_parser_close(&run.pieces);
    return 0;
}
