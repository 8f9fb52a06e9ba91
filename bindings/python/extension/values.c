/* Replies as Python objects, straight from the tokens and the text of a view. */
#include "fast.h"

#include <string.h>

PyObject *make(struct maker *it)
{
    const resp_token *token = it->token++;

    switch (token->kind) {
    case RESP_ARRAY:
        return make_list(it, token->size);
    case RESP_SET:
    case RESP_PUSH:
    case RESP_MAP:
    case RESP_ATTRIBUTE:
        return it->aggregate(it, token);
    default:
        return it->leaf(it, token, it->text + token->start);
    }
}

PyObject *make_list(struct maker *it, size_t count)
{
    PyObject *list = PyList_New((Py_ssize_t)count);
    const resp_token *token = it->token;
    const char *text = it->text;
    int texts_are_bytes = it->texts_are_bytes;

    for (size_t i = 0; list != NULL && i < count; i++) {
        PyObject *value;

        /* The usual element, without a call that chooses what it is. */
        if (token->kind == RESP_BULK_STRING && texts_are_bytes) {
            value = PyBytes_FromStringAndSize(text + token->start, (Py_ssize_t)token->size);
            token++;
        } else {
            it->token = token;
            value = make(it);
            token = it->token;
        }
        if (value == NULL)
            Py_CLEAR(list);
        else
            PyList_SetItem(list, (Py_ssize_t)i, value);
    }
    it->token = token;
    return list;
}

/* Calls a function with one or two arguments, which may be NULL with an exception, and drops these.
 */
static PyObject *call(PyObject *function, PyObject *one, PyObject *other)
{
    PyObject *result = NULL;

    if (!PyErr_Occurred())
        result = PyObject_CallFunctionObjArgs(function, one, other, NULL);
    Py_XDECREF(one);
    Py_XDECREF(other);
    return result;
}

static PyObject *utf8(const char *text, size_t size)
{
    return PyUnicode_DecodeUTF8(text, (Py_ssize_t)size, NULL);
}

static PyObject *bytes(const char *text, size_t size)
{
    return PyBytes_FromStringAndSize(text, (Py_ssize_t)size);
}

static PyObject *same(PyObject *object)
{
    Py_INCREF(object);
    return object;
}

/* How many bytes stand before the first of these; all where there is none. */
static size_t size_before(const char *text, size_t size, char end)
{
    const char *found = size > 0 ? memchr(text, end, size) : NULL;

    return found != NULL ? (size_t)(found - text) : size;
}

static PyObject *server_error(const char *text, size_t size)
{
    size_t code = size_before(text, size, ' ');
    PyObject *first = utf8(text, code);

    if (first == NULL || code == size)
        return call(names.server_error, first, NULL);
    return call(names.server_error, first, utf8(text + code + 1, size - code - 1));
}

static PyObject *verbatim(const char *text, size_t size)
{
    size_t format = size_before(text, size, ':');
    size_t from = format < size ? format + 1 : size;
    PyObject *shown = utf8(text + from, size - from);

    return call(names.verbatim, shown, shown != NULL ? utf8(text, format) : NULL);
}

PyObject *parser_leaf(const struct maker *it, const resp_token *token, const char *text)
{
    (void)it;
    switch (token->kind) {
    case RESP_OKAY:
        return same(names.okay);
    case RESP_INT:
        return PyLong_FromLongLong(token->number);
    case RESP_SIMPLE_STRING:
        return utf8(text, token->size);
    case RESP_BULK_STRING:
        return bytes(text, token->size);
    case RESP_SERVER_ERROR:
        return server_error(text, token->size);
    case RESP_BOOLEAN:
        return PyBool_FromLong((long)token->number);
    case RESP_DOUBLE:
        return call(names.double_, utf8(text, token->size), NULL);
    case RESP_BIG_NUMBER:
        return call(names.big_number, bytes(text, token->size), NULL);
    case RESP_VERBATIM_STRING:
        return verbatim(text, token->size);
    default:
        return same(Py_None);
    }
}

/* Puts keys and values, which stand in turn, in a dict; -1 with an exception. */
static int fill_dict(PyObject *dict, PyObject *parts)
{
    Py_ssize_t size = PyList_Size(parts);

    for (Py_ssize_t i = 0; i < size; i += 2)
        if (PyDict_SetItem(dict, PyList_GetItem(parts, i), PyList_GetItem(parts, i + 1)) < 0)
            return -1;
    return 0;
}

/* Keys and values, which stand in turn, as a list of pairs. */
static PyObject *pairs_of(PyObject *parts)
{
    PyObject *pairs = PyObject_CallFunctionObjArgs(names.pairs, NULL);
    Py_ssize_t size = PyList_Size(parts);

    for (Py_ssize_t i = 0; pairs != NULL && i < size; i += 2) {
        PyObject *pair = PyTuple_Pack(2, PyList_GetItem(parts, i), PyList_GetItem(parts, i + 1));

        if (pair == NULL || PyList_Append(pairs, pair) < 0)
            Py_CLEAR(pairs);
        Py_XDECREF(pair);
    }
    return pairs;
}

/* A map: a dict, or pairs where a key is unhashable or equals another. */
static PyObject *map(struct maker *it, size_t size)
{
    PyObject *parts = make_list(it, 2 * size);
    PyObject *map = parts != NULL ? PyDict_New() : NULL;
    int filled = map != NULL ? fill_dict(map, parts) : -1;

    if (filled < 0 && map != NULL && PyErr_ExceptionMatches(PyExc_TypeError)) {
        PyErr_Clear();
        Py_CLEAR(map);
        map = pairs_of(parts);
    } else if (filled < 0) {
        Py_CLEAR(map);
    } else if ((size_t)PyDict_Size(map) != size) {
        Py_CLEAR(map);
        map = pairs_of(parts);
    }
    Py_XDECREF(parts);
    return map;
}

static PyObject *push(struct maker *it, size_t size)
{
    const resp_token *kind = it->token++;
    PyObject *name = utf8(it->text + kind->start, kind->size);

    return call(names.push, name, name != NULL ? make_list(it, size > 0 ? size - 1 : 0) : NULL);
}

PyObject *parser_aggregate(struct maker *it, const resp_token *token)
{
    PyObject *pairs;

    switch (token->kind) {
    case RESP_SET:
        return call(names.set, make_list(it, token->size), NULL);
    case RESP_PUSH:
        return push(it, token->size);
    case RESP_MAP:
        return map(it, token->size);
    default:
        pairs = map(it, token->size);
        return call(names.attribute, pairs, pairs != NULL ? make(it) : NULL);
    }
}

/* A text: bytes, or a str where the reader has an encoding. */
static PyObject *decoded(const struct maker *it, const char *text, size_t size)
{
    if (it->texts_are_bytes)
        return bytes(text, size);
    if (it->encoding == NULL)
        return PyUnicode_DecodeUTF8(text, (Py_ssize_t)size, it->errors);
    return PyUnicode_Decode(text, (Py_ssize_t)size, it->encoding, it->errors);
}

static PyObject *reply_error(const struct maker *it, const char *text, size_t size)
{
    return call(it->reply_error, PyUnicode_DecodeUTF8(text, (Py_ssize_t)size, "replace"), NULL);
}

/* A double as a float. */
static PyObject *number(const char *text, size_t size)
{
    PyObject *shown = utf8(text, size);
    PyObject *number = shown != NULL ? PyFloat_FromString(shown) : NULL;

    Py_XDECREF(shown);
    return number;
}

PyObject *reader_leaf(const struct maker *it, const resp_token *token, const char *text)
{
    size_t format;

    switch (token->kind) {
    case RESP_OKAY:
        return it->texts_are_bytes ? same(names.okay_bytes) : decoded(it, "OK", 2);
    case RESP_SIMPLE_STRING:
    case RESP_BULK_STRING:
    case RESP_BIG_NUMBER:
        return decoded(it, text, token->size);
    case RESP_SERVER_ERROR:
        return reply_error(it, text, token->size);
    case RESP_DOUBLE:
        return number(text, token->size);
    case RESP_VERBATIM_STRING:
        format = size_before(text, token->size, ':') + 1;
        return decoded(it, text + format, token->size - format);
    default:
        return parser_leaf(it, token, text);
    }
}

static PyObject *dict(struct maker *it, size_t size)
{
    PyObject *parts = make_list(it, 2 * size);
    PyObject *dict = parts != NULL ? PyDict_New() : NULL;

    if (dict != NULL && fill_dict(dict, parts) < 0)
        Py_CLEAR(dict);
    Py_XDECREF(parts);
    return dict;
}

PyObject *reader_aggregate(struct maker *it, const resp_token *token)
{
    PyObject *made, *set;

    switch (token->kind) {
    case RESP_MAP:
        return dict(it, token->size);
    case RESP_ATTRIBUTE:
        made = make_list(it, 2 * token->size);
        Py_XDECREF(made);
        return made != NULL ? make(it) : NULL;
    default:
        made = make_list(it, token->size);
        if (made == NULL || token->kind != RESP_SET || it->sets_are_lists)
            return made;
        set = PySet_New(made);
        Py_DECREF(made);
        return set;
    }
}
