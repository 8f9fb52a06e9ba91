/* The type `Core`: the calls of a parser, whose values are those of `Parser`. */
#include "fast.h"

struct core {
    PyObject_HEAD struct source source;
    int busy; /* whether a call runs, during which what it was lent is read */
};

/* Begins a call; -1 with an exception where another one runs. */
static int begin(struct core *it)
{
    if (it->busy) {
        PyErr_SetString(PyExc_RuntimeError, "the parser is in use by another call");
        return -1;
    }
    it->busy = 1;
    return 0;
}

/* Ends a call, and hands on its result. */
static PyObject *end(struct core *it, PyObject *result)
{
    it->busy = 0;
    return result;
}

static PyObject *none_or_raise(uint32_t status)
{
    if (status != RESP_DONE)
        return raise_status(status);
    Py_INCREF(Py_None);
    return Py_None;
}

/* Raises a ProtocolError with the fault that the parser met. */
static PyObject *raise_fault(resp_parser *parser, const size_t *at)
{
    size_t offset;
    uint32_t number = resp_parser_fault(parser, &offset);
    PyObject *fault = PyObject_CallFunction(names.fault, "I", (unsigned)number);
    PyObject *error = NULL;

    if (fault != NULL)
        error = PyObject_CallFunction(names.protocol_error, "On", fault,
                                      (Py_ssize_t)(at != NULL ? *at : offset));
    if (error != NULL)
        PyErr_SetObject(names.protocol_error, error);
    Py_XDECREF(fault);
    Py_XDECREF(error);
    return NULL;
}

static PyObject *make_value(const resp_view *view)
{
    struct maker maker = {.token = view->tokens,
                          .text = (const char *)view->text,
                          .leaf = parser_leaf,
                          .aggregate = parser_aggregate,
                          .texts_are_bytes = 1};

    return make(&maker);
}

/* The value of a view: the usual ones without calls that choose which it is. */
static inline PyObject *value_of(const resp_view *view)
{
    const resp_token *token = view->tokens;

    switch (token->kind) {
    case RESP_BULK_STRING:
        return PyBytes_FromStringAndSize((const char *)view->text, (Py_ssize_t)token->size);
    case RESP_OKAY:
        Py_INCREF(names.okay);
        return names.okay;
    case RESP_INT:
        return PyLong_FromLongLong(token->number);
    default:
        return make_value(view);
    }
}

/* The one argument of a call, by its place or as `data`; NULL with an exception. */
static PyObject *data_of(PyObject *const *args, Py_ssize_t count, PyObject *names_of_args)
{
    Py_ssize_t named = names_of_args != NULL ? PyTuple_Size(names_of_args) : 0;

    if (count + named == 1 && (named == 0 || PyUnicode_CompareWithASCIIString(
                                                 PyTuple_GetItem(names_of_args, 0), "data") == 0))
        return args[0];
    PyErr_SetString(PyExc_TypeError, "one argument is wanted: data");
    return NULL;
}

static PyObject *core_feed(struct core *it, PyObject *const *args, Py_ssize_t count,
                           PyObject *names_of_args)
{
    PyObject *data = data_of(args, count, names_of_args);
    struct lent lent;
    uint32_t status;

    if (data == NULL || lend(data, &lent) < 0)
        return NULL;
    if (begin(it) < 0) {
        release(&lent);
        return NULL;
    }
    status = source_feed(&it->source, lent.owner, lent.bytes, (size_t)lent.size);
    end(it, NULL);
    release(&lent);
    return none_or_raise(status);
}

static PyObject *core_next(struct core *it, PyObject *const *args, Py_ssize_t count)
{
    resp_view view;

    (void)args;
    if (count > 0)
        PyErr_SetString(PyExc_TypeError, "no argument is wanted");
    if (count > 0 || begin(it) < 0)
        return NULL;
    switch (source_next(&it->source, &view)) {
    case RESP_DONE:
        return end(it, value_of(&view));
    case RESP_MORE:
        Py_INCREF(names.more);
        return end(it, names.more);
    case RESP_FAULT:
        return end(it, raise_fault(&it->source.parser, NULL));
    case RESP_MEMORY:
        return end(it, raise_status(RESP_MEMORY));
    case RESP_FAILED:
        return end(it, raise_status(RESP_FAILED));
    default:
        return end(it, raise_status(RESP_CLOSED));
    }
}

/* The value at the start of bytes, and how many of them spell it. */
static PyObject *first(struct core *it, const struct lent *lent)
{
    resp_view view;
    size_t taken = 0;
    uint32_t status =
        resp_parser_first(&it->source.parser, lent->bytes, (size_t)lent->size, &view, &taken);
    PyObject *value;

    if (status == RESP_MORE) {
        PyErr_SetString(names.incomplete_error, "the bytes end within a value");
        return NULL;
    }
    if (status == RESP_FAULT)
        return raise_fault(&it->source.parser, &taken);
    if (status != RESP_DONE)
        return raise_status(status);
    value = value_of(&view);
    return value != NULL ? Py_BuildValue("Nn", value, (Py_ssize_t)taken) : NULL;
}

static PyObject *core_first(struct core *it, PyObject *const *args, Py_ssize_t count,
                            PyObject *names_of_args)
{
    PyObject *data = data_of(args, count, names_of_args);
    PyObject *result = NULL;
    struct lent lent;

    if (data == NULL || lend(data, &lent) < 0)
        return NULL;
    if (begin(it) == 0)
        result = end(it, first(it, &lent));
    release(&lent);
    return result;
}

static PyObject *core_close(struct core *it, PyObject *unused)
{
    (void)unused;
    if (begin(it) < 0)
        return NULL;
    source_close(&it->source);
    return end(it, none_or_raise(RESP_DONE));
}

static PyObject *core_state(struct core *it, PyObject *unused)
{
    (void)unused;
    if (begin(it) < 0)
        return NULL;
    return end(it, PyLong_FromUnsignedLong(source_state(&it->source)));
}

static int core_init(struct core *it, PyObject *args, PyObject *keywords)
{
    static char *places[] = {"depth", "size", NULL};
    Py_ssize_t depth, size;
    uint32_t status;

    if (!PyArg_ParseTupleAndKeywords(args, keywords, "nn", places, &depth, &size) || begin(it) < 0)
        return -1;
    status = resp_parser_open_within(&it->source.parser, (size_t)depth, (size_t)size);
    if (status == RESP_DONE)
        Py_CLEAR(it->source.owner);
    end(it, NULL);
    if (status != RESP_DONE)
        raise_status(status);
    return status == RESP_DONE ? 0 : -1;
}

static void core_dealloc(struct core *it)
{
    PyTypeObject *type = Py_TYPE(it);
    freefunc release_object = (freefunc)PyType_GetSlot(type, Py_tp_free);

    source_close(&it->source);
    release_object(it);
    Py_DECREF(type);
}

static PyMethodDef methods[] = {
    {"feed", (PyCFunction)(void (*)(void))core_feed, METH_FASTCALL | METH_KEYWORDS,
     "feed($self, data)\n--\n\n"
     "Adds bytes. They are copied; of a large `bytes` object some only once they are needed."},
    {"next", (PyCFunction)(void (*)(void))core_next, METH_FASTCALL,
     "next($self)\n--\n\nTakes the next value; MORE where more bytes are needed."},
    {"first", (PyCFunction)(void (*)(void))core_first, METH_FASTCALL | METH_KEYWORDS,
     "first($self, data)\n--\n\n"
     "The value at the start of bytes that are all there, and how many of them spell it.\n\n"
     "Raises IncompleteError where they end within the value. What the parser was fed isn't "
     "touched,\n"
     "and it may have failed; a fault doesn't make it fail."},
    {"close", (PyCFunction)core_close, METH_NOARGS,
     "close($self)\n--\n\n"
     "Frees what the parser holds. Later calls raise ValueError; closing it again does nothing."},
    {"_state", (PyCFunction)core_state, METH_NOARGS, NULL},
    {NULL, NULL, 0, NULL},
};

static PyType_Slot slots[] = {
    {Py_tp_init, core_init},
    {Py_tp_dealloc, core_dealloc},
    {Py_tp_methods, methods},
    {0, NULL},
};

static PyType_Spec spec = {
    .name = "resp_c._fast.Core",
    .basicsize = sizeof(struct core),
    .flags = Py_TPFLAGS_DEFAULT | Py_TPFLAGS_BASETYPE,
    .slots = slots,
};

PyObject *core_type(void)
{
    return PyType_FromSpec(&spec);
}
