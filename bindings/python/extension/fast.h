/* What the files of the extension module share. It keeps to Python's limited API of 3.9. */
#ifndef RESP_FAST_H
#define RESP_FAST_H

#define PY_SSIZE_T_CLEAN
#include <Python.h>

#include "resp_c.h"

/* Arguments without a tuple: Python has had this since 3.7, and the limited API names it from 3.10
 * on. */
#ifndef METH_FASTCALL
#define METH_FASTCALL 0x0080
#endif

/* Objects of the package that values and errors are made of, looked up once. */
struct names {
    PyObject *okay; /* the text OK */
    PyObject *okay_bytes;
    PyObject *more;
    PyObject *attribute, *double_, *pairs, *push, *server_error, *set, *verbatim;
    PyObject *big_number; /* a function of the text of one */
    PyObject *fault, *incomplete_error, *parser_failed_error, *protocol_error;
    PyObject *hiredis_protocol_error, *hiredis_reply_error;
};

extern struct names names;

/* How the values of a reply are made. The tokens are taken in turn. */
struct maker {
    const resp_token *token; /* the next one */
    const char *text;
    PyObject *(*leaf)(const struct maker *it, const resp_token *token, const char *text);
    PyObject *(*aggregate)(struct maker *it, const resp_token *token);
    /* For a Reader alone: */
    int texts_are_bytes;
    const char *encoding; /* or NULL: UTF-8 */
    const char *errors;
    PyObject *reply_error;
    int sets_are_lists;
};

/* The next value, with those inside it; NULL with an exception. */
PyObject *make(struct maker *it);

/* The next values, so many. */
PyObject *make_list(struct maker *it, size_t count);

/* The values of `Parser`, as the table of the README has them. */
PyObject *parser_leaf(const struct maker *it, const resp_token *token, const char *text);
PyObject *parser_aggregate(struct maker *it, const resp_token *token);

/* The values of `Reader`, as those of hiredis-py. */
PyObject *reader_leaf(const struct maker *it, const resp_token *token, const char *text);
PyObject *reader_aggregate(struct maker *it, const resp_token *token);

/* Bytes that an object lends, until `release`. */
struct lent {
    const uint8_t *bytes;
    Py_ssize_t size;
    PyObject *owner;
};

/* Lends the bytes of an object; -1 with an exception where it has none. */
int lend(PyObject *object, struct lent *lent);
void release(struct lent *lent);

/* A parser, and bytes of a large object that it wasn't fed yet. Where the ones before them begin a
 * long string, they go straight to where the parser collects it, without a copy in between. */
struct source {
    resp_parser parser;
    PyObject *owner; /* bytes, which can't change; NULL where all were fed */
    const uint8_t *rest;
    size_t rest_size;
};

/* Feeds bytes of an object, or keeps them and the object for `source_next`. */
uint32_t source_feed(struct source *it, PyObject *owner, const uint8_t *bytes, size_t size);

/* Feeds the bytes that were kept, and takes the next value. */
uint32_t source_go_on(struct source *it, resp_view *view);

/* Takes the next value. */
static inline uint32_t source_next(struct source *it, resp_view *view)
{
    uint32_t status = resp_parser_next(&it->parser, view);

    return status != RESP_MORE || it->owner == NULL ? status : source_go_on(it, view);
}

/* One of enum resp_state. */
uint32_t source_state(struct source *it);

/* Closes the parser, and drops what was kept. */
void source_close(struct source *it);

/* Raises the exception of a status other than RESP_DONE, RESP_MORE and RESP_FAULT; returns NULL. */
PyObject *raise_status(uint32_t status);

/* The types `Core` and `Reader`; NULL with an exception. */
PyObject *core_type(void);
PyObject *reader_type(void);

/* Functions of the module. */
PyObject *pack(PyObject *module, PyObject *args);
PyObject *pack_command(PyObject *module, PyObject *args);
PyObject *pack_pipeline(PyObject *module, PyObject *args, PyObject *keywords);

#endif
