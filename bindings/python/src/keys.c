/* Keys: objects of Python as bytes, and back. A str is kept as its UTF-8, in which surrogates are
 * allowed, since a str may have some. */
#include "patricia_module.h"

/* In the stable ABI from Python 3.10 on, so that the headers for 3.8 do not declare it. */
const char *PyUnicode_AsUTF8AndSize(PyObject *text, Py_ssize_t *len) __attribute__((weak));

bool text_is_lent;

/* The bytes that a str has itself, where Python lends them. Returns false without an exception
 * where it does not, as for a str with a surrogate. */
static bool read_lent(PyObject *object, key_bytes *key)
{
    Py_ssize_t len;
    if (!text_is_lent || PyUnicode_AsUTF8AndSize == NULL)
        return false;
    key->at = (const uint8_t *)PyUnicode_AsUTF8AndSize(object, &len);
    if (key->at == NULL) {
        PyErr_Clear();
        return false;
    }
    key->len = (size_t)len;
    Py_INCREF(object);
    key->kept = object;
    return true;
}

static bool take_bytes(key_bytes *key, PyObject *bytes)
{
    if (bytes == NULL)
        return false;
    key->at = (const uint8_t *)PyBytes_AsString(bytes);
    key->len = (size_t)PyBytes_Size(bytes);
    key->kept = bytes;
    return true;
}

static bool read_text(PyObject *object, key_bytes *key)
{
    if (!PyUnicode_Check(object)) {
        PyErr_Format(PyExc_TypeError, "a key must be a str, not %R", (PyObject *)Py_TYPE(object));
        return false;
    }
    return read_lent(object, key) ||
           take_bytes(key, PyUnicode_AsEncodedString(object, "utf-8", "surrogatepass"));
}

static bool read_bytes(PyObject *object, key_bytes *key)
{
    if (PyBytes_Check(object)) {
        Py_INCREF(object);
        return take_bytes(key, object);
    }
    if (PyByteArray_Check(object) || PyMemoryView_Check(object))
        return take_bytes(key, PyBytes_FromObject(object));
    PyErr_Format(PyExc_TypeError, "a key must be bytes, a bytearray or a memoryview, not %R",
                 (PyObject *)Py_TYPE(object));
    return false;
}

bool key_read(const tree_object *tree, PyObject *object, key_bytes *key)
{
    return tree->is_text ? read_text(object, key) : read_bytes(object, key);
}

void key_release(key_bytes *key)
{
    Py_CLEAR(key->kept);
}

PyObject *key_object(const tree_object *tree, const uint8_t *at, size_t len)
{
    const char *bytes = (const char *)at;
    if (tree->is_text)
        return PyUnicode_DecodeUTF8(bytes, (Py_ssize_t)len, "surrogatepass");
    return PyBytes_FromStringAndSize(bytes, (Py_ssize_t)len);
}

PyObject *entry_object(const tree_object *tree, const uint8_t *at, size_t len, PyObject *value)
{
    /* to make an object may run any code, and so free the tree */
    const bool is_set = tree->is_set;
    PyObject *key = key_object(tree, at, len);
    if (is_set || key == NULL) {
        Py_DECREF(value);
        return key;
    }
    PyObject *pair = PyTuple_New(2);
    if (pair == NULL) {
        Py_DECREF(key);
        Py_DECREF(value);
        return NULL;
    }
    PyTuple_SetItem(pair, 0, key);
    PyTuple_SetItem(pair, 1, value);
    return pair;
}

static bool continues(uint8_t byte)
{
    return (byte & 0xC0) == 0x80;
}

size_t key_items(const tree_object *tree, const key_bytes *key, size_t count)
{
    if (!tree->is_text)
        return count;
    size_t items = 0;
    while (count != 0 && count < key->len && continues(key->at[count]))
        count--;
    for (size_t i = 0; i < count; i++)
        items += !continues(key->at[i]);
    return items;
}

bool key_and_default(PyObject *args, PyObject *named, const char *format, PyObject **key,
                     PyObject **fallback)
{
    static char *names[] = {"", "default", NULL};
    if (named == NULL && PyTuple_Size(args) == 1) {
        *key = PyTuple_GetItem(args, 0);
        return true;
    }
    return PyArg_ParseTupleAndKeywords(args, named, format, names, key, fallback) != 0;
}
