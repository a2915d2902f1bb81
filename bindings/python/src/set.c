/* Sets: a map of the library with 0 at each element. */
#include "patricia_module.h"

/* Returns whether the element is new, or -1 with an exception set. */
static int insert(tree_object *tree, PyObject *argument)
{
    key_bytes key;
    uint64_t old;
    if (!key_read(tree, argument, &key))
        return -1;
    uint32_t result = patricia_insert(&tree->map, key.at, key.len, 0, &old);
    key_release(&key);
    if (result == PATRICIA_NO_MEMORY) {
        PyErr_NoMemory();
        return -1;
    }
    tree->changes += result == PATRICIA_ABSENT;
    return result == PATRICIA_ABSENT;
}

/* Returns whether the element was there, or -1 with an exception set. */
static int take(tree_object *tree, PyObject *argument)
{
    key_bytes key;
    uint64_t old;
    if (!key_read(tree, argument, &key))
        return -1;
    uint32_t result = patricia_remove(&tree->map, key.at, key.len, &old);
    key_release(&key);
    if (result == PATRICIA_NO_MEMORY) {
        PyErr_NoMemory();
        return -1;
    }
    tree->changes += result == PATRICIA_FOUND;
    return result == PATRICIA_FOUND;
}

static PyObject *add(PyObject *self, PyObject *element)
{
    if (insert((tree_object *)self, element) < 0)
        return NULL;
    Py_RETURN_NONE;
}

static PyObject *discard(PyObject *self, PyObject *element)
{
    if (take((tree_object *)self, element) < 0)
        return NULL;
    Py_RETURN_NONE;
}

static PyObject *remove_element(PyObject *self, PyObject *element)
{
    int was_there = take((tree_object *)self, element);
    if (was_there < 0)
        return NULL;
    if (!was_there) {
        PyErr_SetObject(PyExc_KeyError, element);
        return NULL;
    }
    Py_RETURN_NONE;
}

/* Adds the elements of one iterable. */
static bool add_all(tree_object *tree, PyObject *elements)
{
    PyObject *iterator = PyObject_GetIter(elements), *element;
    if (iterator == NULL)
        return false;
    while ((element = PyIter_Next(iterator)) != NULL) {
        int result = insert(tree, element);
        Py_DECREF(element);
        if (result < 0)
            break;
    }
    Py_DECREF(iterator);
    return !PyErr_Occurred();
}

static PyObject *update(PyObject *self, PyObject *args)
{
    for (Py_ssize_t i = 0; i < PyTuple_Size(args); i++)
        if (!add_all((tree_object *)self, PyTuple_GetItem(args, i)))
            return NULL;
    Py_RETURN_NONE;
}

static PyObject *iter_prefix(PyObject *self, PyObject *argument)
{
    key_bytes prefix;
    if (!key_read((tree_object *)self, argument, &prefix))
        return NULL;
    PyObject *walk = walk_over((tree_object *)self, WALK_KEYS, &prefix);
    key_release(&prefix);
    return walk;
}

static PyObject *new_set(PyTypeObject *type, PyObject *args, PyObject *named)
{
    (void)args, (void)named;
    return tree_alloc(type, false, true);
}

static PyObject *new_text_set(PyTypeObject *type, PyObject *args, PyObject *named)
{
    (void)args, (void)named;
    return tree_alloc(type, true, true);
}

static PyMethodDef methods[] = {
    {"add", add, METH_O, "add($self, element, /)\n--\n\n"
     "Adds an element.\n\n"
     ">>> words = StringPatriciaSet(['b'])\n>>> words.add('a')\n>>> list(words)\n['a', 'b']\n"},
    {"discard", discard, METH_O, "discard($self, element, /)\n--\n\n"
     "Removes an element, where it is there.\n\n"
     ">>> words = StringPatriciaSet(['b'])\n>>> words.discard('a')\n>>> list(words)\n['b']\n"},
    {"remove", remove_element, METH_O, "remove($self, element, /)\n--\n\n"
     "Removes an element. Raises KeyError where it is not there.\n\n"
     ">>> words = StringPatriciaSet(['b'])\n>>> words.remove('b')\n>>> list(words)\n[]\n"},
    {"update", update, METH_VARARGS, "update($self, /, *others)\n--\n\n"
     "Adds the elements of each of the others.\n\n"
     ">>> words = StringPatriciaSet()\n>>> words.update(['b'], 'ac')\n>>> list(words)\n"
     "['a', 'b', 'c']\n"},
    {"iter_prefix", iter_prefix, METH_O, "iter_prefix($self, prefix, /)\n--\n\n"
     "Returns an iterator over the elements that begin with the prefix, in order.\n\n"
     ">>> list(StringPatriciaSet(['/', '/blog', 'x']).iter_prefix('/'))\n['/', '/blog']\n"},
    {NULL, NULL, 0, NULL},
};

static PyType_Slot set_slots[] = {
    {Py_tp_new, new_set},
    {Py_tp_dealloc, tree_dealloc},
    {Py_tp_traverse, tree_traverse},
    {Py_tp_clear, tree_drop},
    {Py_tp_methods, methods},
    {0, NULL},
};

static PyType_Slot text_set_slots[] = {
    {Py_tp_new, new_text_set},
    {Py_tp_dealloc, tree_dealloc},
    {Py_tp_traverse, tree_traverse},
    {Py_tp_clear, tree_drop},
    {0, NULL},
};

PyType_Spec set_spec = {"patricia._patricia.Set", sizeof(set_object), 0, BASE_FLAGS, set_slots};
PyType_Spec text_set_spec = {
    "patricia._patricia.TextSet", sizeof(set_object), 0, BASE_FLAGS, text_set_slots,
};
