/* Maps: the calls that take or give one value. */
#include "patricia_module.h"

static bool number_of(tree_object *tree, PyObject *argument, uint64_t *number, bool *found)
{
    key_bytes key;
    if (!key_read(tree, argument, &key))
        return false;
    *found = patricia_get(&tree->map, key.at, key.len, number);
    key_release(&key);
    return true;
}

static PyObject *subscript(PyObject *self, PyObject *key)
{
    tree_object *tree = (tree_object *)self;
    uint64_t number;
    bool found;
    if (!number_of(tree, key, &number, &found))
        return NULL;
    if (found)
        return objects_get(&tree->objects, number);
    PyErr_SetObject(PyExc_KeyError, key);
    return NULL;
}

static PyObject *get(PyObject *self, PyObject *args, PyObject *named)
{
    tree_object *tree = (tree_object *)self;
    PyObject *key, *fallback = Py_None;
    uint64_t number;
    bool found;
    if (!key_and_default(args, named, "O|O:get", &key, &fallback) ||
        !number_of(tree, key, &number, &found))
        return NULL;
    if (found)
        return objects_get(&tree->objects, number);
    Py_INCREF(fallback);
    return fallback;
}

/* Inserts a value at a key that is not there. */
static int insert(tree_object *tree, const key_bytes *key, PyObject *value)
{
    uint64_t old;
    if (!objects_reserve(&tree->objects, 1)) {
        PyErr_NoMemory();
        return -1;
    }
    uint64_t number = objects_put(&tree->objects, value);
    if (patricia_insert(&tree->map, key->at, key->len, number, &old) == PATRICIA_NO_MEMORY) {
        Py_DECREF(objects_take(&tree->objects, number));
        PyErr_NoMemory();
        return -1;
    }
    tree->changes++;
    return 0;
}

/* A key that is there keeps its number, so that an iterator's block stays true. */
static int put(tree_object *tree, PyObject *argument, PyObject *value)
{
    key_bytes key;
    uint64_t number;
    int result = 0;
    if (!key_read(tree, argument, &key))
        return -1;
    if (patricia_get(&tree->map, key.at, key.len, &number))
        objects_replace(&tree->objects, number, value);
    else
        result = insert(tree, &key, value);
    key_release(&key);
    return result;
}

/* Removes a key. Writes its value to *value, or NULL where it was not there. */
static bool take(tree_object *tree, PyObject *argument, PyObject **value)
{
    key_bytes key;
    uint64_t number;
    if (!key_read(tree, argument, &key))
        return false;
    uint32_t result = patricia_remove(&tree->map, key.at, key.len, &number);
    key_release(&key);
    if (result == PATRICIA_NO_MEMORY) {
        PyErr_NoMemory();
        return false;
    }
    *value = NULL;
    if (result == PATRICIA_FOUND) {
        *value = objects_take(&tree->objects, number);
        tree->changes++;
    }
    return true;
}

static int set_subscript(PyObject *self, PyObject *key, PyObject *value)
{
    tree_object *tree = (tree_object *)self;
    if (value != NULL)
        return put(tree, key, value);
    if (!take(tree, key, &value))
        return -1;
    if (value == NULL) {
        PyErr_SetObject(PyExc_KeyError, key);
        return -1;
    }
    Py_DECREF(value);
    return 0;
}

static PyObject *pop(PyObject *self, PyObject *args, PyObject *named)
{
    PyObject *key, *value, *fallback = NULL;
    if (!key_and_default(args, named, "O|O:pop", &key, &fallback) ||
        !take((tree_object *)self, key, &value))
        return NULL;
    if (value == NULL && fallback == NULL)
        PyErr_SetObject(PyExc_KeyError, key);
    else if (value == NULL)
        Py_INCREF(value = fallback);
    return value;
}

static PyObject *setdefault(PyObject *self, PyObject *args, PyObject *named)
{
    tree_object *tree = (tree_object *)self;
    PyObject *key, *value = Py_None;
    uint64_t number;
    bool found;
    if (!key_and_default(args, named, "O|O:setdefault", &key, &value) ||
        !number_of(tree, key, &number, &found))
        return NULL;
    if (found)
        return objects_get(&tree->objects, number);
    if (put(tree, key, value) != 0)
        return NULL;
    Py_INCREF(value);
    return value;
}

static PyObject *new_map(PyTypeObject *type, PyObject *args, PyObject *named)
{
    (void)args, (void)named;
    return tree_alloc(type, false, false);
}

static PyObject *new_text_map(PyTypeObject *type, PyObject *args, PyObject *named)
{
    (void)args, (void)named;
    return tree_alloc(type, true, false);
}

#define NAMED(function) (PyCFunction)(void (*)(void))(function), METH_VARARGS | METH_KEYWORDS

static PyMethodDef methods[] = {
    {"get", NAMED(get), "get($self, key, /, default=None)\n--\n\n"
     "Returns the value at a key, or the default where the key is not there.\n\n"
     ">>> StringPatriciaMap({'a': 1}).get('b', default=0)\n0\n"},
    {"pop", NAMED(pop), "pop($self, key, /, default=<unrepresentable>)\n--\n\n"
     "Removes a key and returns its value, or the default where the key is not there. Raises\n"
     "KeyError where none is given.\n\n"
     ">>> ports = StringPatriciaMap({'a': 1})\n>>> ports.pop('a'), ports.pop('a', default=0)\n"
     "(1, 0)\n"},
    {"setdefault", NAMED(setdefault), "setdefault($self, key, /, default=None)\n--\n\n"
     "Returns the value at a key, after inserting the default where the key is not there.\n\n"
     ">>> places = StringPatriciaMap()\n>>> places.setdefault('a', []).append(1)\n>>> places\n"
     "StringPatriciaMap({'a': [1]})\n"},
    {NULL, NULL, 0, NULL},
};

static PyType_Slot map_slots[] = {
    {Py_tp_new, new_map},
    {Py_tp_dealloc, tree_dealloc},
    {Py_tp_traverse, tree_traverse},
    {Py_tp_clear, tree_drop},
    {Py_tp_methods, methods},
    {Py_mp_subscript, subscript},
    {Py_mp_ass_subscript, set_subscript},
    {0, NULL},
};

static PyType_Slot text_map_slots[] = {
    {Py_tp_new, new_text_map},
    {Py_tp_dealloc, tree_dealloc},
    {Py_tp_traverse, tree_traverse},
    {Py_tp_clear, tree_drop},
    {0, NULL},
};

PyType_Spec map_spec = {"patricia._patricia.Map", sizeof(map_object), 0, BASE_FLAGS, map_slots};
PyType_Spec text_map_spec = {
    "patricia._patricia.TextMap", sizeof(map_object), 0, BASE_FLAGS, text_map_slots,
};
