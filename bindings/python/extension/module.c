/* The extension module `resp_c._fast`. */
#include "fast.h"

struct names names;

int lend(PyObject *object, struct lent *lent)
{
    PyObject *view = NULL;

    if (PyBytes_Check(object) || PyByteArray_Check(object)) {
        Py_INCREF(object);
        lent->owner = object;
    } else {
        view = PyMemoryView_FromObject(object);
        lent->owner = view != NULL ? PyBytes_FromObject(view) : NULL;
        Py_XDECREF(view);
        if (lent->owner == NULL)
            return -1;
    }
    if (PyBytes_Check(lent->owner)) {
        lent->bytes = (const uint8_t *)PyBytes_AsString(lent->owner);
        lent->size = PyBytes_Size(lent->owner);
    } else {
        lent->bytes = (const uint8_t *)PyByteArray_AsString(lent->owner);
        lent->size = PyByteArray_Size(lent->owner);
    }
    return 0;
}

void release(struct lent *lent)
{
    Py_CLEAR(lent->owner);
}

PyObject *raise_status(uint32_t status)
{
    switch (status) {
    case RESP_MEMORY:
        return PyErr_NoMemory();
    case RESP_FAILED:
        PyErr_SetString(names.parser_failed_error, "the parser has failed before");
        return NULL;
    case RESP_CLOSED:
        PyErr_SetString(PyExc_ValueError, "the parser is closed");
        return NULL;
    default:
        PyErr_SetString(PyExc_ValueError, "a limit is out of range");
        return NULL;
    }
}

/* The version of the C library. */
static PyObject *version(PyObject *module, PyObject *unused)
{
    unsigned number = resp_version();

    (void)module;
    (void)unused;
    return PyUnicode_FromFormat("%u.%u.%u", number >> 16, number >> 8 & 255, number & 255);
}

static PyMethodDef functions[] = {
    {"pack", pack, METH_VARARGS,
     "pack($module, *args)\n--\n\n"
     "The bytes of a command: its name and its arguments. No arguments give no bytes."},
    {"pack_command", pack_command, METH_O,
     "pack_command($module, args)\n--\n\n"
     "The bytes of a command of these arguments, a tuple; an array of nothing of none."},
    {"pack_pipeline", (PyCFunction)(void (*)(void))pack_pipeline, METH_VARARGS | METH_KEYWORDS,
     "pack_pipeline($module, commands, atomic=False)\n--\n\n"
     "The bytes of several commands, one after another; between MULTI and EXEC if `atomic`. A "
     "command\n"
     "without arguments is an array of nothing there."},
    {"version", version, METH_NOARGS, "version($module)\n--\n\nThe version of the C library."},
    {NULL, NULL, 0, NULL},
};

/* Where a name of the package stands, and where it is kept. */
struct wanted {
    const char *module, *name;
    PyObject **place;
};

static const struct wanted wanted[] = {
    {"resp_c._values", "MORE", &names.more},
    {"resp_c._values", "Attribute", &names.attribute},
    {"resp_c._values", "Double", &names.double_},
    {"resp_c._values", "Pairs", &names.pairs},
    {"resp_c._values", "Push", &names.push},
    {"resp_c._values", "ServerError", &names.server_error},
    {"resp_c._values", "Set", &names.set},
    {"resp_c._values", "Verbatim", &names.verbatim},
    {"resp_c._values", "big_number", &names.big_number},
    {"resp_c._errors", "Fault", &names.fault},
    {"resp_c._errors", "IncompleteError", &names.incomplete_error},
    {"resp_c._errors", "ParserFailedError", &names.parser_failed_error},
    {"resp_c._errors", "ProtocolError", &names.protocol_error},
    {"resp_c._hiredis_errors", "ProtocolError", &names.hiredis_protocol_error},
    {"resp_c._hiredis_errors", "ReplyError", &names.hiredis_reply_error},
};

static int find_names(void)
{
    names.okay = PyUnicode_InternFromString("OK");
    names.okay_bytes = PyBytes_FromString("OK");
    for (size_t i = 0; i < sizeof wanted / sizeof *wanted; i++) {
        PyObject *module = PyImport_ImportModule(wanted[i].module);

        if (module == NULL)
            return -1;
        *wanted[i].place = PyObject_GetAttrString(module, wanted[i].name);
        Py_DECREF(module);
        if (*wanted[i].place == NULL)
            return -1;
    }
    return names.okay != NULL && names.okay_bytes != NULL ? 0 : -1;
}

/* Adds a type, which may be NULL with an exception. */
static int add_type(PyObject *module, const char *name, PyObject *type)
{
    if (type == NULL)
        return -1;
    if (PyModule_AddObject(module, name, type) == 0)
        return 0;
    Py_DECREF(type);
    return -1;
}

static struct PyModuleDef definition = {
    PyModuleDef_HEAD_INIT,
    .m_name = "resp_c._fast",
    .m_doc = "The calls of the C library, with Python objects made straight from what it shows.",
    .m_size = -1,
    .m_methods = functions,
};

PyMODINIT_FUNC PyInit__fast(void)
{
    PyObject *module = PyModule_Create(&definition);

    if (module != NULL && (find_names() < 0 || add_type(module, "Core", core_type()) < 0 ||
                           add_type(module, "Reader", reader_type()) < 0))
        Py_CLEAR(module);
    return module;
}
