/* The type `Reader`: hiredis-py's interface over a parser. */
#include "fast.h"

#include <string.h>

struct reader {
    PyObject_HEAD struct source source;
    int busy;
    size_t fed;               /* bytes that were fed since the parser last held none */
    PyObject *protocol_error; /* functions of a text */
    PyObject *reply_error;
    PyObject *not_enough_data;
    PyObject *encoding; /* bytes, or NULL, as for UTF-8, too */
    PyObject *errors;
    int texts_are_bytes;
    int sets_are_lists;
    Py_ssize_t most; /* what setmaxbuf was given */
};

/* What getmaxbuf gives at first, as hiredis has it. */
#define MOST 16384

/* Replaces a reference. */
static void set(PyObject **place, PyObject *object)
{
    PyObject *before = *place;

    *place = object;
    Py_XDECREF(before);
}

static int is_used(const struct reader *it)
{
    if (it->busy)
        PyErr_SetString(PyExc_RuntimeError, "the reader is in use by another call");
    return it->busy;
}

/* Sets a function that makes errors: one that was passed, or the usual one. */
static int set_function(PyObject **place, PyObject *function, PyObject *usual)
{
    if (function == NULL)
        function = usual;
    if (!PyCallable_Check(function)) {
        PyErr_SetString(PyExc_TypeError, "a callable is wanted");
        return -1;
    }
    Py_INCREF(function);
    set(place, function);
    return 0;
}

static PyObject *bytes_or_null(const char *text)
{
    return text != NULL ? PyBytes_FromString(text) : NULL;
}

/* Whether an encoding has one of the two usual names of UTF-8. */
static int is_utf8(const char *encoding)
{
    return strcmp(encoding, "utf-8") == 0 || strcmp(encoding, "utf8") == 0;
}

/* Sets how texts are decoded; -1 with an exception where there are no such encoding or errors. */
static int set_decoding(struct reader *it, const char *encoding, const char *errors)
{
    PyObject *handler = errors != NULL ? PyCodec_LookupError(errors) : NULL;

    if (errors != NULL && handler == NULL)
        return -1;
    Py_XDECREF(handler);
    if (encoding != NULL && !PyCodec_KnownEncoding(encoding)) {
        PyErr_Format(PyExc_LookupError, "unknown encoding: %s", encoding);
        return -1;
    }
    it->texts_are_bytes = encoding == NULL;
    set(&it->encoding, encoding == NULL || is_utf8(encoding) ? NULL : bytes_or_null(encoding));
    set(&it->errors, bytes_or_null(errors));
    return PyErr_Occurred() ? -1 : 0;
}

static int reader_init(struct reader *it, PyObject *args, PyObject *keywords)
{
    static char *places[] = {"protocolError", "replyError",         "encoding", "errors",
                             "notEnoughData", "convertSetsToLists", NULL};
    PyObject *protocol_error = NULL, *reply_error = NULL, *not_enough_data = Py_False;
    const char *encoding = NULL, *errors = NULL;
    int sets_are_lists = 0;

    if (!PyArg_ParseTupleAndKeywords(args, keywords, "|OOzzOp", places, &protocol_error,
                                     &reply_error, &encoding, &errors, &not_enough_data,
                                     &sets_are_lists) ||
        is_used(it) || set_decoding(it, encoding, errors) < 0 ||
        set_function(&it->protocol_error, protocol_error, names.hiredis_protocol_error) < 0 ||
        set_function(&it->reply_error, reply_error, names.hiredis_reply_error) < 0)
        return -1;
    Py_INCREF(not_enough_data);
    set(&it->not_enough_data, not_enough_data);
    it->sets_are_lists = sets_are_lists;
    it->most = MOST;
    it->fed = 0;
    if (resp_parser_open(&it->source.parser) == RESP_DONE) {
        Py_CLEAR(it->source.owner);
        return 0;
    }
    PyErr_NoMemory();
    return -1;
}

/* Feeds `size` of the bytes from `from` on; of size -1 all of them. */
static PyObject *feed(struct reader *it, const struct lent *lent, Py_ssize_t from, Py_ssize_t size)
{
    uint32_t status;

    if (size == -1)
        size = lent->size - from;
    if (from < 0 || size < 0) {
        PyErr_SetString(PyExc_ValueError, "negative input");
        return NULL;
    }
    if (from > lent->size - size) {
        PyErr_SetString(PyExc_ValueError, "input is larger than buffer size");
        return NULL;
    }
    if (is_used(it))
        return NULL;
    if (source_state(&it->source) == RESP_STATE_BETWEEN_VALUES)
        it->fed = 0;
    status = source_feed(&it->source, lent->owner, lent->bytes + from, (size_t)size);
    if (status == RESP_DONE)
        it->fed += (size_t)size;
    else if (status != RESP_FAILED)
        return raise_status(status);
    Py_INCREF(Py_None);
    return Py_None;
}

static PyObject *reader_feed(struct reader *it, PyObject *const *args, Py_ssize_t count)
{
    Py_ssize_t from = 0, size = -1;
    PyObject *result, *encoded = NULL;
    struct lent lent;

    if (count < 1 || count > 3) {
        PyErr_SetString(PyExc_TypeError, "bytes are wanted, and at most a place and a size");
        return NULL;
    }
    if (count > 1 && (from = PyLong_AsSsize_t(args[1])) == -1 && PyErr_Occurred())
        return NULL;
    if (count > 2 && (size = PyLong_AsSsize_t(args[2])) == -1 && PyErr_Occurred())
        return NULL;
    if (PyUnicode_Check(args[0]) && (encoded = PyUnicode_AsUTF8String(args[0])) == NULL)
        return NULL;
    if (lend(encoded != NULL ? encoded : args[0], &lent) < 0)
        return NULL;
    result = feed(it, &lent, from, size);
    release(&lent);
    Py_XDECREF(encoded);
    return result;
}

/* Raises the protocol error of a parser that has failed. */
static PyObject *raise_protocol_error(struct reader *it)
{
    size_t offset;
    uint32_t fault = resp_parser_fault(&it->source.parser, &offset);
    PyObject *name = PyObject_CallFunction(names.fault, "I", (unsigned)fault);
    PyObject *shown = name != NULL ? PyObject_GetAttrString(name, "name") : NULL;
    PyObject *text = NULL, *error = NULL;

    if (shown != NULL)
        text = PyUnicode_FromFormat("Protocol error, %U at byte %zu", shown, offset);
    if (text != NULL)
        error = PyObject_CallFunctionObjArgs(it->protocol_error, text, NULL);
    if (error != NULL)
        PyErr_SetObject((PyObject *)Py_TYPE(error), error);
    Py_XDECREF(name);
    Py_XDECREF(shown);
    Py_XDECREF(text);
    Py_XDECREF(error);
    return NULL;
}

/* Makes the value of a view by a maker, while no other call may use the reader. */
static PyObject *make_alone(struct reader *it, const resp_view *view, int texts_are_bytes)
{
    struct maker maker = {.token = view->tokens,
                          .text = (const char *)view->text,
                          .leaf = reader_leaf,
                          .aggregate = reader_aggregate,
                          .texts_are_bytes = texts_are_bytes,
                          .encoding = it->encoding != NULL ? PyBytes_AsString(it->encoding) : NULL,
                          .errors = it->errors != NULL ? PyBytes_AsString(it->errors) : NULL,
                          .reply_error = it->reply_error,
                          .sets_are_lists = it->sets_are_lists};
    PyObject *value;

    it->busy = 1;
    value = make(&maker);
    it->busy = 0;
    return value;
}

/* The value of a view: the usual ones without calls that choose which it is. */
static inline PyObject *value_of(struct reader *it, const resp_view *view, int decodes)
{
    const resp_token *token = view->tokens;
    int texts_are_bytes = it->texts_are_bytes || !decodes;

    if (token->kind == RESP_INT)
        return PyLong_FromLongLong(token->number);
    if (token->kind == RESP_BULK_STRING && texts_are_bytes)
        return PyBytes_FromStringAndSize((const char *)view->text, (Py_ssize_t)token->size);
    if (token->kind == RESP_OKAY && texts_are_bytes) {
        Py_INCREF(names.okay_bytes);
        return names.okay_bytes;
    }
    return make_alone(it, view, texts_are_bytes);
}

static PyObject *reader_gets(struct reader *it, PyObject *const *args, Py_ssize_t count)
{
    int decodes = count > 0 ? PyObject_IsTrue(args[0]) : 1;
    resp_view view;

    if (count > 1) {
        PyErr_SetString(PyExc_TypeError, "at most one argument is wanted");
        return NULL;
    }
    if (decodes < 0 || is_used(it))
        return NULL;
    switch (source_next(&it->source, &view)) {
    case RESP_DONE:
        return value_of(it, &view, decodes);
    case RESP_MORE:
        Py_INCREF(it->not_enough_data);
        return it->not_enough_data;
    case RESP_FAULT:
    case RESP_FAILED:
        return raise_protocol_error(it);
    case RESP_MEMORY:
        return raise_status(RESP_MEMORY);
    default:
        return raise_status(RESP_CLOSED);
    }
}

static PyObject *reader_has_data(struct reader *it, PyObject *unused)
{
    (void)unused;
    return PyBool_FromLong(source_state(&it->source) == RESP_STATE_IN_PROGRESS);
}

static PyObject *reader_len(struct reader *it, PyObject *unused)
{
    (void)unused;
    return PyLong_FromSize_t(source_state(&it->source) == RESP_STATE_IN_PROGRESS ? it->fed
                                                                                      : 0);
}

static PyObject *reader_setmaxbuf(struct reader *it, PyObject *most)
{
    Py_ssize_t size = most == Py_None ? MOST : PyLong_AsSsize_t(most);

    if (PyErr_Occurred())
        return NULL;
    if (size < 0) {
        PyErr_SetString(PyExc_ValueError, "a size is at least 0");
        return NULL;
    }
    it->most = size;
    Py_INCREF(Py_None);
    return Py_None;
}

static PyObject *reader_getmaxbuf(struct reader *it, PyObject *unused)
{
    (void)unused;
    return PyLong_FromSsize_t(it->most);
}

static PyObject *reader_set_encoding(struct reader *it, PyObject *args, PyObject *keywords)
{
    static char *places[] = {"encoding", "errors", NULL};
    const char *encoding = NULL, *errors = NULL;

    if (!PyArg_ParseTupleAndKeywords(args, keywords, "|zz", places, &encoding, &errors) ||
        is_used(it) || set_decoding(it, encoding, errors) < 0)
        return NULL;
    Py_INCREF(Py_None);
    return Py_None;
}

static int reader_traverse(struct reader *it, visitproc visit, void *arg)
{
    Py_VISIT(Py_TYPE(it));
    Py_VISIT(it->protocol_error);
    Py_VISIT(it->reply_error);
    Py_VISIT(it->not_enough_data);
    return 0;
}

/* Closes the parser, too: later calls find none open, and use nothing of what is gone. */
static int reader_clear(struct reader *it)
{
    source_close(&it->source);
    Py_CLEAR(it->protocol_error);
    Py_CLEAR(it->reply_error);
    Py_CLEAR(it->not_enough_data);
    Py_CLEAR(it->encoding);
    Py_CLEAR(it->errors);
    return 0;
}

static void reader_dealloc(struct reader *it)
{
    PyTypeObject *type = Py_TYPE(it);
    freefunc release_object = (freefunc)PyType_GetSlot(type, Py_tp_free);

    PyObject_GC_UnTrack(it);
    reader_clear(it);
    release_object(it);
    Py_DECREF(type);
}

static PyMethodDef methods[] = {
    {"feed", (PyCFunction)(void (*)(void))reader_feed, METH_FASTCALL,
     "feed($self, buf, pos=0, len=-1)\n--\n\nAdds bytes: `len` of them from `pos` on."},
    {"gets", (PyCFunction)(void (*)(void))reader_gets, METH_FASTCALL,
     "gets($self, shouldDecode=True)\n--\n\nTakes the next reply; notEnoughData where there is "
     "none."},
    {"has_data", (PyCFunction)reader_has_data, METH_NOARGS,
     "has_data($self)\n--\n\nWhether there are bytes that weren't taken as replies."},
    {"len", (PyCFunction)reader_len, METH_NOARGS,
     "len($self)\n--\n\nHow many bytes were fed since the reader last held none."},
    {"setmaxbuf", (PyCFunction)reader_setmaxbuf, METH_O,
     "setmaxbuf($self, most)\n--\n\nKeeps a number for getmaxbuf, and has no other effect."},
    {"getmaxbuf", (PyCFunction)reader_getmaxbuf, METH_NOARGS,
     "getmaxbuf($self)\n--\n\nThe number that setmaxbuf was given last."},
    {"set_encoding", (PyCFunction)(void (*)(void))reader_set_encoding, METH_VARARGS | METH_KEYWORDS,
     "set_encoding($self, encoding=None, errors=None)\n--\n\nSets how texts are decoded."},
    {NULL, NULL, 0, NULL},
};

static PyType_Slot slots[] = {
    {Py_tp_doc, "A reader of replies, with the interface of hiredis-py's."},
    {Py_tp_init, reader_init},
    {Py_tp_dealloc, reader_dealloc},
    {Py_tp_traverse, reader_traverse},
    {Py_tp_clear, reader_clear},
    {Py_tp_methods, methods},
    {0, NULL},
};

static PyType_Spec spec = {
    .name = "resp_c.hiredis.Reader",
    .basicsize = sizeof(struct reader),
    .flags = Py_TPFLAGS_DEFAULT | Py_TPFLAGS_BASETYPE | Py_TPFLAGS_HAVE_GC,
    .slots = slots,
};

PyObject *reader_type(void)
{
    return PyType_FromSpec(&spec);
}
