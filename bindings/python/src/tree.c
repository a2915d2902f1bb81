/* What maps and sets have in common: the object itself, and questions about one key or prefix. */
#include "patricia_module.h"

PyObject *tree_alloc(PyTypeObject *type, bool is_text, bool is_set)
{
    tree_object *tree = (tree_object *)PyType_GenericAlloc(type, 0);
    if (tree != NULL) {
        tree->is_text = is_text;
        tree->is_set = is_set;
    }
    return (PyObject *)tree;
}

void tree_become(tree_object *tree, patricia_map map, object_table objects)
{
    patricia_map old_map = tree->map;
    object_table old_objects = tree->objects;
    tree->map = map;
    tree->objects = objects;
    tree->changes++;
    patricia_free(&old_map);
    objects_clear(&old_objects);
}

int tree_drop(PyObject *self)
{
    patricia_map empty = PATRICIA_MAP_INIT;
    object_table none = {0};
    tree_become((tree_object *)self, empty, none);
    return 0;
}

void tree_dealloc(PyObject *self)
{
    PyTypeObject *type = Py_TYPE(self);
    PyObject_GC_UnTrack(self);
    tree_drop(self);
    PyObject_GC_Del(self);
    Py_DECREF(type);
}

int tree_traverse(PyObject *self, visitproc visit, void *arg)
{
    if (types_are_visited)
        Py_VISIT(Py_TYPE(self));
    return objects_traverse(&((tree_object *)self)->objects, visit, arg);
}

PyObject *tree_value(const tree_object *tree, uint64_t number)
{
    if (!tree->is_set)
        return objects_get(&tree->objects, number);
    Py_INCREF(Py_None);
    return Py_None;
}

Py_ssize_t tree_length(PyObject *self)
{
    return (Py_ssize_t)patricia_len(&((tree_object *)self)->map);
}

int tree_contains(PyObject *self, PyObject *argument)
{
    tree_object *tree = (tree_object *)self;
    key_bytes key;
    uint64_t number;
    if (!key_read(tree, argument, &key))
        return -1;
    bool found = patricia_get(&tree->map, key.at, key.len, &number);
    key_release(&key);
    return found;
}

static PyObject *clear(PyObject *self, PyObject *unused)
{
    (void)unused;
    tree_drop(self);
    Py_RETURN_NONE;
}

static PyObject *longest_common_prefix_len(PyObject *self, PyObject *argument)
{
    tree_object *tree = (tree_object *)self;
    key_bytes key;
    if (!key_read(tree, argument, &key))
        return NULL;
    size_t count = patricia_longest_common_prefix_len(&tree->map, key.at, key.len);
    size_t items = key_items(tree, &key, count);
    key_release(&key);
    return PyLong_FromSize_t(items);
}

static PyObject *count_prefix(PyObject *self, PyObject *argument)
{
    tree_object *tree = (tree_object *)self;
    key_bytes prefix;
    size_t count;
    if (!key_read(tree, argument, &prefix))
        return NULL;
    uint32_t result = patricia_count_prefix(&tree->map, prefix.at, prefix.len, &count);
    key_release(&prefix);
    return result == PATRICIA_DONE ? PyLong_FromSize_t(count) : PyErr_NoMemory();
}

/* Longest prefixes */

static PyObject *longest_prefix(PyObject *self, PyObject *args, PyObject *named)
{
    tree_object *tree = (tree_object *)self;
    PyObject *argument, *result = Py_None;
    key_bytes key;
    size_t len;
    uint64_t number;
    if (!key_and_default(args, named, "O|O:longest_prefix", &argument, &result) ||
        !key_read(tree, argument, &key))
        return NULL;
    if (patricia_longest_prefix(&tree->map, key.at, key.len, &len, &number))
        result = entry_object(tree, key.at, len, tree_value(tree, number));
    else
        Py_INCREF(result);
    key_release(&key);
    return result;
}

static bool append(PyObject *list, PyObject *item)
{
    bool done = item != NULL && PyList_Append(list, item) == 0;
    Py_XDECREF(item);
    return done;
}

/* Appends the entries whose key is a prefix of this one, the longest first. The keys are read
 * again for each, so that what runs meanwhile may change the tree. */
static bool append_prefixes(const tree_object *tree, const key_bytes *key, PyObject *list)
{
    size_t len = key->len;
    uint64_t number;
    while (patricia_longest_prefix(&tree->map, key->at, len, &len, &number)) {
        if (!append(list, entry_object(tree, key->at, len, tree_value(tree, number))))
            return false;
        if (len-- == 0)
            break;
    }
    return true;
}

static PyObject *prefixes(PyObject *self, PyObject *argument)
{
    tree_object *tree = (tree_object *)self;
    key_bytes key;
    if (!key_read(tree, argument, &key))
        return NULL;
    PyObject *list = PyList_New(0);
    if (list != NULL && (!append_prefixes(tree, &key, list) || PyList_Reverse(list) != 0))
        Py_CLEAR(list);
    key_release(&key);
    return list;
}

/* Ends and neighbours */

enum { FIRST, LAST, AFTER, BEFORE };

static uint32_t ask(tree_object *tree, int what, const key_bytes *key, uint8_t *array, size_t size,
                    size_t *len, uint64_t *number)
{
    switch (what) {
    case FIRST:
        return patricia_first(&tree->map, array, size, len, number);
    case LAST:
        return patricia_last(&tree->map, array, size, len, number);
    case AFTER:
        return patricia_first_after(&tree->map, key->at, key->len, array, size, len, number);
    default:
        return patricia_last_before(&tree->map, key->at, key->len, array, size, len, number);
    }
}

/* Asks for one entry; NULL with an exception set, or without one where there is none. */
static PyObject *found(tree_object *tree, int what, const key_bytes *key)
{
    uint8_t array[256], *room = array;
    size_t len;
    uint64_t number;
    PyObject *entry = NULL;
    uint32_t result = ask(tree, what, key, room, sizeof array, &len, &number);
    if (result == PATRICIA_NO_ROOM) {
        size_t size = len;
        room = PyMem_Malloc(size);
        result = room == NULL ? PATRICIA_NO_MEMORY
                              : ask(tree, what, key, room, size, &len, &number);
    }
    if (result == PATRICIA_FOUND)
        entry = entry_object(tree, room, len, tree_value(tree, number));
    else if (result == PATRICIA_NO_MEMORY)
        PyErr_NoMemory();
    if (room != array)
        PyMem_Free(room);
    return entry;
}

static PyObject *found_or(PyObject *entry, PyObject *fallback)
{
    if (entry == NULL && !PyErr_Occurred()) {
        Py_INCREF(fallback);
        return fallback;
    }
    return entry;
}

static PyObject *end_entry(PyObject *self, PyObject *args, PyObject *named, int what)
{
    static char *names[] = {"default", NULL};
    PyObject *fallback = Py_None;
    if (!PyArg_ParseTupleAndKeywords(args, named, what == FIRST ? "|O:first" : "|O:last", names,
                                     &fallback))
        return NULL;
    return found_or(found((tree_object *)self, what, NULL), fallback);
}

static PyObject *first(PyObject *self, PyObject *args, PyObject *named)
{
    return end_entry(self, args, named, FIRST);
}

static PyObject *last(PyObject *self, PyObject *args, PyObject *named)
{
    return end_entry(self, args, named, LAST);
}

static PyObject *neighbour(PyObject *self, PyObject *args, PyObject *named, int what)
{
    const char *format = what == AFTER ? "O|O:first_after" : "O|O:last_before";
    PyObject *argument, *fallback = Py_None;
    key_bytes key;
    if (!key_and_default(args, named, format, &argument, &fallback) ||
        !key_read((tree_object *)self, argument, &key))
        return NULL;
    PyObject *entry = found((tree_object *)self, what, &key);
    key_release(&key);
    return found_or(entry, fallback);
}

static PyObject *first_after(PyObject *self, PyObject *args, PyObject *named)
{
    return neighbour(self, args, named, AFTER);
}

static PyObject *last_before(PyObject *self, PyObject *args, PyObject *named)
{
    return neighbour(self, args, named, BEFORE);
}

/* Near keys */

/* Appends the entries that an iterator has left. Returns false with an exception set. */
static bool append_entries(tree_object *tree, patricia_iterator *iterator, PyObject *list)
{
    const size_t changes = tree->changes;
    size_t size = 64, len;
    uint64_t number;
    uint8_t *room = PyMem_Malloc(size);
    uint32_t result = room == NULL ? PATRICIA_NO_MEMORY : PATRICIA_ENTRY;
    if (room == NULL)
        PyErr_NoMemory();
    while (room != NULL && (result = patricia_iterator_next(iterator, room, size, &len,
                                                            &number)) != PATRICIA_END) {
        if (result == PATRICIA_NO_ROOM) {
            uint8_t *larger = PyMem_Realloc(room, 2 * len);
            if (larger == NULL) {
                PyErr_NoMemory();
                break;
            }
            room = larger;
            size = 2 * len;
            continue;
        }
        /* to make an object may run any code, and so change the tree */
        if (changes != tree->changes) {
            PyErr_SetString(PyExc_RuntimeError, "keys were added or removed during iteration");
            break;
        }
        PyObject *entry = entry_object(tree, room, len, tree_value(tree, number));
        if (entry == NULL || PyList_Append(list, entry) != 0) {
            Py_XDECREF(entry);
            break;
        }
        Py_DECREF(entry);
    }
    PyMem_Free(room);
    return result == PATRICIA_END;
}

static PyObject *within(PyObject *self, PyObject *args, PyObject *named)
{
    static char *names[] = {"", "edits", NULL};
    tree_object *tree = (tree_object *)self;
    PyObject *argument;
    Py_ssize_t edits = 1;
    key_bytes key;
    if (!PyArg_ParseTupleAndKeywords(args, named, "O|n:within", names, &argument, &edits))
        return NULL;
    if (edits < 0 || edits > UINT16_MAX) {
        PyErr_SetString(PyExc_ValueError, "edits must be in range(65536)");
        return NULL;
    }
    if (!key_read(tree, argument, &key))
        return NULL;
    patricia_iterator iterator = PATRICIA_ITERATOR_INIT;
    uint32_t result =
        tree->is_text
            ? patricia_text_within(&tree->map, key.at, key.len, (uint16_t)edits, &iterator)
            : patricia_within(&tree->map, key.at, key.len, (uint32_t)edits, &iterator);
    key_release(&key);
    PyObject *list = result == PATRICIA_DONE ? PyList_New(0) : PyErr_NoMemory();
    if (list != NULL && !append_entries(tree, &iterator, list))
        Py_CLEAR(list);
    patricia_iterator_free(&iterator);
    return list;
}

#define NAMED(function) (PyCFunction)(void (*)(void))(function), METH_VARARGS | METH_KEYWORDS

PyMethodDef tree_methods[] = {
    {"clear", clear, METH_NOARGS, "clear($self, /)\n--\n\n"
     "Removes all keys.\n\n"
     ">>> routes = StringPatriciaSet(['/'])\n>>> routes.clear()\n>>> len(routes)\n0\n"},
    {"longest_common_prefix_len", longest_common_prefix_len, METH_O,
     "longest_common_prefix_len($self, key, /)\n--\n\n"
     "Returns how many bytes or characters at the front of this key are also at the front of\n"
     "some key, at the most.\n\n"
     ">>> StringPatriciaSet(['/blog']).longest_common_prefix_len('/bliss')\n3\n"},
    {"count_prefix", count_prefix, METH_O, "count_prefix($self, prefix, /)\n--\n\n"
     "Returns how many keys begin with the prefix, in time in proportion to them.\n\n"
     ">>> StringPatriciaSet(['/', '/blog', 'x']).count_prefix('/')\n2\n"},
    {"remove_prefix", tree_remove_prefix, METH_O, "remove_prefix($self, prefix, /)\n--\n\n"
     "Removes the keys that begin with the prefix, and returns how many they were.\n\n"
     ">>> routes = StringPatriciaSet(['/', '/blog', 'x'])\n>>> routes.remove_prefix('/'), routes\n"
     "(2, StringPatriciaSet(['x']))\n"},
    {"longest_prefix", NAMED(longest_prefix), "longest_prefix($self, key, /, default=None)\n--\n\n"
     "Returns the entry of the longest key that is a prefix of this one, of a set the element,\n"
     "or the default where no key is.\n\n"
     ">>> routes = StringPatriciaMap({'/': 'home', '/blog': 'blog'})\n"
     ">>> routes.longest_prefix('/blog/2023')\n('/blog', 'blog')\n"},
    {"prefixes", prefixes, METH_O, "prefixes($self, key, /)\n--\n\n"
     "Returns the entries whose key is a prefix of this one, itself included, of a set the\n"
     "elements, as a list, the shortest first.\n\n"
     ">>> routes = StringPatriciaMap({'/': 'home', '/blog': 'blog'})\n"
     ">>> routes.prefixes('/blog/2023')\n[('/', 'home'), ('/blog', 'blog')]\n"},
    {"first", NAMED(first), "first($self, /, default=None)\n--\n\n"
     "Returns the first entry in key order, of a set the element, or the default.\n\n"
     ">>> StringPatriciaSet(['b', 'a']).first()\n'a'\n"},
    {"last", NAMED(last), "last($self, /, default=None)\n--\n\n"
     "Returns the last entry in key order, of a set the element, or the default.\n\n"
     ">>> StringPatriciaMap({'b': 1, 'a': 2}).last()\n('b', 1)\n"},
    {"first_after", NAMED(first_after), "first_after($self, key, /, default=None)\n--\n\n"
     "Returns the first entry whose key comes after this one, which need not be there, of a\n"
     "set the element, or the default.\n\n"
     ">>> StringPatriciaSet(['a', 'c']).first_after('b')\n'c'\n"},
    {"last_before", NAMED(last_before), "last_before($self, key, /, default=None)\n--\n\n"
     "Returns the last entry whose key comes before this one, which need not be there, of a\n"
     "set the element, or the default.\n\n"
     ">>> StringPatriciaSet(['a', 'c']).last_before('a', default='none')\n'none'\n"},
    {"within", NAMED(within), "within($self, key, /, edits=1)\n--\n\n"
     "Returns the entries whose key is at most so many edits from this one, of a set the\n"
     "elements, as a list in key order. An edit inserts, deletes or replaces a byte of bytes, or\n"
     "a character of a str: Levenshtein distance.\n\n"
     ">>> StringPatriciaSet(['bar', 'baz', 'foo']).within('bat')\n['bar', 'baz']\n"},
    {"between", tree_between, METH_VARARGS, "between($self, start, stop, /)\n--\n\n"
     "Returns an iterator over the entries whose key is the first one or comes after it and\n"
     "comes before the second one, of a set the elements, in key order. None stands for no\n"
     "bound.\n\n"
     ">>> list(StringPatriciaMap({'a': 1, 'b': 2, 'c': 3}).between('a', 'c'))\n"
     "[('a', 1), ('b', 2)]\n"},
    {"_walk", tree_walk, METH_VARARGS, NULL},
    {"_split_into", tree_split_into, METH_VARARGS, NULL},
    {"_clone_from", tree_clone_from, METH_O, NULL},
    {"_write", tree_write, METH_VARARGS, NULL},
    {"_read", tree_read, METH_VARARGS, NULL},
    {NULL, NULL, 0, NULL},
};
