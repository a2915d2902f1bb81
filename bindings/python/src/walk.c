/* Iterators. One reads entries in blocks, of few entries at first, and makes an object of each
 * when it comes to it, with the value that its key has then. It raises RuntimeError where keys
 * were added or removed since it was made, so that the rest of a block is ahead in the tree. */
#include "patricia_module.h"

enum { FIRST_BLOCK = 8, LARGEST_BLOCK = 128, ROOM_FOR_A_KEY = 32 };

typedef struct {
    PyObject_HEAD
    tree_object *tree; /* NULL at the end */
    size_t changes;
    int what;
    patricia_cursor cursor;
    uint8_t *keys;
    size_t room;
    size_t most; /* how many entries the next block may have */
    size_t count;
    size_t at;
    size_t offset;
    size_t lens[LARGEST_BLOCK];
    uint64_t numbers[LARGEST_BLOCK];
} walk_object;

static int walk_clear(PyObject *self)
{
    walk_object *walk = (walk_object *)self;
    tree_object *tree = walk->tree;
    walk->tree = NULL;
    Py_XDECREF(tree);
    return 0;
}

static void walk_dealloc(PyObject *self)
{
    walk_object *walk = (walk_object *)self;
    PyTypeObject *type = Py_TYPE(self);
    PyObject_GC_UnTrack(self);
    patricia_cursor_free(&walk->cursor);
    PyMem_Free(walk->keys);
    walk_clear(self);
    PyObject_GC_Del(self);
    Py_DECREF(type);
}

static int walk_traverse(PyObject *self, visitproc visit, void *arg)
{
    if (types_are_visited)
        Py_VISIT(Py_TYPE(self));
    Py_VISIT(((walk_object *)self)->tree);
    return 0;
}

static bool make_room(walk_object *walk, size_t room)
{
    if (room <= walk->room)
        return true;
    uint8_t *keys = PyMem_Realloc(walk->keys, room);
    if (keys == NULL)
        return false;
    walk->keys = keys;
    walk->room = room;
    return true;
}

/* Sets a cursor to the entries from a key on: those that come before a stop, where there is one,
 * and else those whose key begins with the first `common` bytes of this one. */
static uint32_t seek(patricia_cursor *cursor, const key_bytes *start, size_t common,
                     const key_bytes *stop)
{
    return stop == NULL
               ? patricia_cursor_seek(cursor, start->at, start->len, common)
               : patricia_cursor_seek_range(cursor, start->at, start->len, stop->at, stop->len);
}

static PyObject *walk_new(tree_object *tree, int what, const key_bytes *start, size_t common,
                          const key_bytes *stop)
{
    walk_object *walk = (walk_object *)PyType_GenericAlloc(walk_type, 0);
    if (walk == NULL)
        return NULL;
    walk->changes = tree->changes;
    walk->what = what;
    walk->most = FIRST_BLOCK;
    if (seek(&walk->cursor, start, common, stop) != PATRICIA_DONE) {
        Py_DECREF((PyObject *)walk);
        return PyErr_NoMemory();
    }
    Py_INCREF((PyObject *)tree);
    walk->tree = tree;
    return (PyObject *)walk;
}

static uint32_t next_block(walk_object *walk, size_t *len)
{
    return patricia_cursor_next_many(&walk->cursor, &walk->tree->map, walk->keys, walk->room,
                                     walk->lens, walk->most, walk->numbers, walk->most,
                                     &walk->count, len);
}

/* Reads the next block. Returns false at the end, and with an exception set. */
static bool refill(walk_object *walk)
{
    size_t len;
    walk->at = walk->count = walk->offset = 0;
    if (!make_room(walk, walk->most * ROOM_FOR_A_KEY)) {
        PyErr_NoMemory();
        return false;
    }
    uint32_t result = next_block(walk, &len);
    if (result == PATRICIA_NO_ROOM)
        result = make_room(walk, len) ? next_block(walk, &len) : (uint32_t)PATRICIA_NO_MEMORY;
    if (result == PATRICIA_ENTRY) {
        walk->most = walk->most * 4 < LARGEST_BLOCK ? walk->most * 4 : LARGEST_BLOCK;
        return true;
    }
    walk->count = 0;
    if (result == PATRICIA_NO_MEMORY)
        PyErr_NoMemory();
    else
        walk_clear((PyObject *)walk);
    return false;
}

static PyObject *walk_next(PyObject *self)
{
    walk_object *walk = (walk_object *)self;
    tree_object *tree = walk->tree;
    if (tree == NULL)
        return NULL;
    if (walk->changes != tree->changes) {
        PyErr_SetString(PyExc_RuntimeError, "keys were added or removed during iteration");
        return NULL;
    }
    if (walk->at == walk->count && !refill(walk))
        return NULL;
    const uint8_t *key = walk->keys + walk->offset;
    size_t len = walk->lens[walk->at];
    uint64_t number = walk->numbers[walk->at++];
    walk->offset += len;
    if (walk->what == WALK_KEYS)
        return key_object(tree, key, len);
    PyObject *value = tree_value(tree, number);
    return walk->what == WALK_VALUES ? value : entry_object(tree, key, len, value);
}

PyObject *walk_over(tree_object *tree, int what, const key_bytes *prefix)
{
    return walk_new(tree, what, prefix, prefix->len, NULL);
}

PyObject *walk_keys(PyObject *self)
{
    static const key_bytes all = {(const uint8_t *)"", 0, NULL};
    return walk_over((tree_object *)self, WALK_KEYS, &all);
}

PyObject *tree_walk(PyObject *self, PyObject *args)
{
    int what;
    PyObject *argument;
    key_bytes prefix;
    if (!PyArg_ParseTuple(args, "iO", &what, &argument))
        return NULL;
    if (argument == Py_None) {
        static const key_bytes all = {(const uint8_t *)"", 0, NULL};
        return walk_over((tree_object *)self, what, &all);
    }
    if (!key_read((tree_object *)self, argument, &prefix))
        return NULL;
    PyObject *walk = walk_over((tree_object *)self, what, &prefix);
    key_release(&prefix);
    return walk;
}

PyObject *tree_between(PyObject *self, PyObject *args)
{
    tree_object *tree = (tree_object *)self;
    PyObject *from, *to;
    key_bytes start = {(const uint8_t *)"", 0, NULL}, stop = {NULL, 0, NULL};
    if (!PyArg_ParseTuple(args, "OO:between", &from, &to) ||
        (from != Py_None && !key_read(tree, from, &start)))
        return NULL;
    PyObject *walk = NULL;
    if (to == Py_None || key_read(tree, to, &stop))
        walk = walk_new(tree, WALK_ENTRIES, &start, 0, to == Py_None ? NULL : &stop);
    key_release(&start);
    key_release(&stop);
    return walk;
}

static PyObject *walk_iter(PyObject *self)
{
    Py_INCREF(self);
    return self;
}

static PyType_Slot walk_slots[] = {
    {Py_tp_dealloc, walk_dealloc},
    {Py_tp_traverse, walk_traverse},
    {Py_tp_clear, walk_clear},
    {Py_tp_iter, walk_iter},
    {Py_tp_iternext, walk_next},
    {0, NULL},
};

PyType_Spec walk_spec = {
    "patricia._patricia.Walk", sizeof(walk_object), 0, TYPE_FLAGS, walk_slots,
};
