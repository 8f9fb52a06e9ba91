/* Commands as the bytes that are sent. */
#include "fast.h"

#include <string.h>

/* The bytes of MULTI and EXEC. */
#define TRANSACTION 29

/* Arguments of commands: their bytes joined, and the size of each. */
struct arguments {
    uint8_t *bytes;
    size_t size, room;
    size_t *sizes;
    size_t count, places;
};

/* How many bytes the line of a count or a length has: a type byte, the digits, CR LF. */
static size_t line(size_t number)
{
    size_t size = 4;

    for (; number > 9; number /= 10)
        size++;
    return size;
}

/* Adds an argument; -1 with an exception where memory runs out. */
static int add_bytes(struct arguments *it, const char *bytes, size_t size)
{
    if (it->bytes == NULL || size > it->room - it->size) {
        size_t room = 2 * it->room + size + 64;
        uint8_t *block = PyMem_Realloc(it->bytes, room);

        if (block == NULL)
            return PyErr_NoMemory(), -1;
        it->bytes = block;
        it->room = room;
    }
    if (it->sizes == NULL || it->count == it->places) {
        size_t places = 2 * it->places + 8;
        size_t *sizes = PyMem_Realloc(it->sizes, places * sizeof *sizes);

        if (sizes == NULL)
            return PyErr_NoMemory(), -1;
        it->sizes = sizes;
        it->places = places;
    }
    if (size > 0)
        memcpy(it->bytes + it->size, bytes, size);
    it->size += size;
    it->sizes[it->count++] = size;
    return 0;
}

static void drop(struct arguments *it)
{
    PyMem_Free(it->bytes);
    PyMem_Free(it->sizes);
}

/* The text of a number, as Python writes it. */
static PyObject *number_text(PyObject *number)
{
    char *text;
    PyObject *shown;

    if (PyLong_Check(number))
        return PyNumber_ToBase(number, 10);
    text = PyOS_double_to_string(PyFloat_AsDouble(number), 'r', 0, Py_DTSF_ADD_DOT_0, NULL);
    if (text == NULL)
        return NULL;
    shown = PyUnicode_FromString(text);
    PyMem_Free(text);
    return shown;
}

/* The bytes of an argument that isn't `bytes`; NULL with an exception. */
static PyObject *encoded(PyObject *arg)
{
    PyObject *made, *bytes = NULL;

    if (PyUnicode_Check(arg))
        return PyUnicode_AsUTF8String(arg);
    if (PyBool_Check(arg)) {
        PyErr_SetString(PyExc_TypeError, "a bool isn't an argument; send an int or a text");
        return NULL;
    }
    if (PyLong_Check(arg) || PyFloat_Check(arg)) {
        made = number_text(arg);
        bytes = made != NULL ? PyUnicode_AsUTF8String(made) : NULL;
    } else {
        made = PyMemoryView_FromObject(arg);
        bytes = made != NULL ? PyBytes_FromObject(made) : NULL;
    }
    Py_XDECREF(made);
    return bytes;
}

static int add(struct arguments *it, PyObject *arg)
{
    PyObject *bytes = NULL;
    int added = -1;

    if (PyBytes_Check(arg))
        return add_bytes(it, PyBytes_AsString(arg), (size_t)PyBytes_Size(arg));
    bytes = encoded(arg);
    if (bytes != NULL)
        added = add_bytes(it, PyBytes_AsString(bytes), (size_t)PyBytes_Size(bytes));
    Py_XDECREF(bytes);
    return added;
}

/* Adds the arguments of a tuple. */
static int add_all(struct arguments *it, PyObject *tuple)
{
    Py_ssize_t count = PyTuple_Size(tuple);

    for (Py_ssize_t i = 0; i < count; i++)
        if (add(it, PyTuple_GetItem(tuple, i)) < 0)
            return -1;
    return 0;
}

/* How many bytes the arguments from one on have as they are sent. */
static size_t sent_size(const struct arguments *it, size_t from)
{
    size_t size = 0;

    for (; from < it->count; from++)
        size += line(it->sizes[from]) + it->sizes[from] + 2;
    return size;
}

/* Raises what a status of packing means, where it isn't RESP_DONE; the bytes else. */
static PyObject *packed(PyObject *bytes, uint32_t status)
{
    if (status == RESP_DONE)
        return bytes;
    Py_DECREF(bytes);
    if (status == RESP_MEMORY)
        return PyErr_NoMemory();
    PyErr_Format(PyExc_SystemError, "packing ended with the status %u", (unsigned)status);
    return NULL;
}

PyObject *pack(PyObject *module, PyObject *args)
{
    struct arguments it = {0};
    PyObject *bytes = NULL;
    size_t size;

    (void)module;
    if (PyTuple_Size(args) == 0)
        return PyBytes_FromStringAndSize("", 0);
    if (add_all(&it, args) == 0) {
        size = line(it.count) + sent_size(&it, 0);
        bytes = PyBytes_FromStringAndSize(NULL, (Py_ssize_t)size);
    }
    if (bytes != NULL)
        bytes = packed(bytes, resp_pack(it.bytes, it.size, it.sizes, it.count,
                                        (uint8_t *)PyBytes_AsString(bytes), size, &size));
    drop(&it);
    return bytes;
}

/* A command of a pipeline as a tuple; NULL with an exception. */
static PyObject *command_tuple(PyObject *command)
{
    if (!PyUnicode_Check(command) && !PyBytes_Check(command) && !PyByteArray_Check(command) &&
        !PyObject_TypeCheck(command, &PyMemoryView_Type))
        return PySequence_Tuple(command);
    PyErr_SetString(PyExc_TypeError, "a command is a sequence of arguments, not one argument");
    return NULL;
}

/* Adds the arguments of commands, and their counts. How many bytes are sent; -1 with an exception.
 */
static Py_ssize_t add_commands(struct arguments *it, PyObject *commands, size_t *counts)
{
    Py_ssize_t count = PyTuple_Size(commands), size = 0;

    for (Py_ssize_t i = 0; i < count; i++) {
        PyObject *command = command_tuple(PyTuple_GetItem(commands, i));
        size_t before = it->count;
        int added = command != NULL ? add_all(it, command) : -1;

        Py_XDECREF(command);
        if (added < 0)
            return -1;
        counts[i] = it->count - before;
        size += (Py_ssize_t)(line(counts[i]) + sent_size(it, before));
    }
    return size;
}

/* Packs the commands of a tuple. */
static PyObject *pack_commands(PyObject *commands, int atomic)
{
    static uint8_t no_bytes[1];
    size_t command_count = (size_t)PyTuple_Size(commands), written;
    size_t *counts = PyMem_Calloc(command_count + 1, sizeof *counts);
    struct arguments it = {0};
    PyObject *bytes = NULL;
    Py_ssize_t size;

    if (counts == NULL)
        return PyErr_NoMemory();
    size = add_commands(&it, commands, counts);
    if (size >= 0)
        bytes = PyBytes_FromStringAndSize(NULL, size + (atomic ? TRANSACTION : 0));
    if (bytes != NULL)
        bytes = packed(bytes, resp_pack_pipeline(it.bytes != NULL ? it.bytes : no_bytes, it.size,
                                                 it.sizes != NULL ? it.sizes : counts, it.count,
                                                 counts, command_count, atomic != 0,
                                                 (uint8_t *)PyBytes_AsString(bytes),
                                                 (size_t)PyBytes_Size(bytes), &written));
    drop(&it);
    PyMem_Free(counts);
    return bytes;
}

PyObject *pack_pipeline(PyObject *module, PyObject *args, PyObject *keywords)
{
    static char *places[] = {"commands", "atomic", NULL};
    PyObject *commands, *listed, *bytes;
    int atomic = 0;

    (void)module;
    if (!PyArg_ParseTupleAndKeywords(args, keywords, "O|p", places, &commands, &atomic))
        return NULL;
    listed = PySequence_Tuple(commands);
    bytes = listed != NULL ? pack_commands(listed, atomic) : NULL;
    Py_XDECREF(listed);
    return bytes;
}

PyObject *pack_command(PyObject *module, PyObject *args)
{
    PyObject *commands, *bytes;

    if (!PyTuple_Check(args)) {
        PyErr_SetString(PyExc_TypeError, "a tuple of arguments is wanted");
        return NULL;
    }
    if (PyTuple_Size(args) > 0)
        return pack(module, args);
    commands = PyTuple_Pack(1, args);
    bytes = commands != NULL ? pack_commands(commands, 0) : NULL;
    Py_XDECREF(commands);
    return bytes;
}
