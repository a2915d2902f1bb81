/* What the files of the extension module `patricia._patricia` share.
 *
 * A map or a set is a `tree_object`: a map of the library and, for a map of Python, a table of
 * objects. The library's value at a key is the number under which the table has the object. A call
 * finishes its change before it drops a reference, since dropping one may run any code, which may
 * use the same map. */
#ifndef PATRICIA_MODULE_H
#define PATRICIA_MODULE_H

#define PY_SSIZE_T_CLEAN
#define Py_LIMITED_API 0x03080000
#include <Python.h>

#include <patricia.h>
#include <stdbool.h>
#include <stddef.h>
#include <stdint.h>
#include <string.h>

/* Objects under numbers (objects.c) */

/* An object, or an odd number that leads to the next free slot: references are even. */
typedef union {
    PyObject *object;
    uintptr_t link;
} object_slot;

/* References to objects. One that is all zero bytes has none. */
typedef struct {
    object_slot *slots;
    size_t len;
    size_t capacity;
    uintptr_t free;
    size_t free_count;
} object_table;

/* Makes room for so many more objects. Returns false where memory runs out: nothing is changed. */
bool objects_reserve(object_table *table, size_t count);

/* Adds a reference of its own to the object, for which there is room, and returns its number. */
uint64_t objects_put(object_table *table, PyObject *object);

/* Frees the number, and gives its reference to the caller. */
PyObject *objects_take(object_table *table, uint64_t number);

/* Returns the object under a number, as a new reference. */
PyObject *objects_get(const object_table *table, uint64_t number);

/* Puts another object under a number, and drops the reference to the one before. */
void objects_replace(object_table *table, uint64_t number, PyObject *object);

/* Writes a table with the same objects to *copy, which has none. Returns false where memory runs
 * out. */
bool objects_copy(const object_table *table, object_table *copy);

int objects_traverse(const object_table *table, visitproc visit, void *arg);

/* Drops all references and frees the memory. */
void objects_clear(object_table *table);

/* Trees (tree.c) */

typedef struct {
    PyObject_HEAD
    patricia_map map;
    object_table objects;
    size_t changes; /* how many times keys were added or removed */
    bool is_text;
    bool is_set;
} tree_object;

/* A map and a set. They are larger than their base, so that Python refuses a class over both. */
typedef struct {
    tree_object tree;
    void *of_maps;
} map_object;

typedef struct {
    tree_object tree;
    void *of_sets;
} set_object;

/* The flags of a type. Python 3.8 needs that of the attribute cache, which the headers of later
 * versions leave out of the default. */
#define TYPE_FLAGS (Py_TPFLAGS_DEFAULT | Py_TPFLAGS_HAVE_VERSION_TAG | Py_TPFLAGS_HAVE_GC)
#define BASE_FLAGS (TYPE_FLAGS | Py_TPFLAGS_BASETYPE)

/* Whether an object's traversal visits its type: from Python 3.9 on. */
extern bool types_are_visited;

/* The type of iterators, and the base of all types of maps and sets. */
extern PyTypeObject *walk_type;
extern PyTypeObject *tree_type;

PyObject *tree_alloc(PyTypeObject *type, bool is_text, bool is_set);
void tree_dealloc(PyObject *self);
int tree_traverse(PyObject *self, visitproc visit, void *arg);
int tree_drop(PyObject *self);

/* Gives a tree another content, and drops the one that it had. */
void tree_become(tree_object *tree, patricia_map map, object_table objects);

/* The object under a number, or None for a set, as a new reference. */
PyObject *tree_value(const tree_object *tree, uint64_t number);

extern PyMethodDef tree_methods[];
Py_ssize_t tree_length(PyObject *self);
int tree_contains(PyObject *self, PyObject *key);

/* Keys (keys.c) */

/* Whether a str lends its UTF-8: from Python 3.10 on. */
extern bool text_is_lent;

/* The bytes of a key, which are those of `kept`. */
typedef struct {
    const uint8_t *at;
    size_t len;
    PyObject *kept;
} key_bytes;

/* Reads a key. Returns false with an exception set: TypeError for an object of another type. */
bool key_read(const tree_object *tree, PyObject *object, key_bytes *key);
void key_release(key_bytes *key);

/* Makes the object of a key's bytes. */
PyObject *key_object(const tree_object *tree, const uint8_t *at, size_t len);

/* Makes the pair of a key and a value, to which it takes the reference, or for a set the key. */
PyObject *entry_object(const tree_object *tree, const uint8_t *at, size_t len, PyObject *value);

/* Returns how many items of the key, bytes or characters, its first `count` bytes hold whole. */
size_t key_items(const tree_object *tree, const key_bytes *key, size_t count);

/* Reads the arguments (key, default), of which the latter may be given by its name. *fallback is
 * left as it is where it is not given. */
bool key_and_default(PyObject *args, PyObject *named, const char *format, PyObject **key,
                     PyObject **fallback);

/* Iterators (walk.c) */

enum { WALK_KEYS = 0, WALK_VALUES = 1, WALK_ENTRIES = 2 };

extern PyType_Spec walk_spec;

/* An iterator over what begins with a prefix. */
PyObject *walk_over(tree_object *tree, int what, const key_bytes *prefix);
PyObject *walk_keys(PyObject *self);

/* _walk(what, prefix) */
PyObject *tree_walk(PyObject *self, PyObject *args);

/* between(start, stop) */
PyObject *tree_between(PyObject *self, PyObject *args);

/* Copies of the keys under a prefix, one behind the other, with their lengths and numbers. */
typedef struct {
    uint8_t *keys;
    size_t used;
    size_t room;
    size_t *lens;
    uint64_t *numbers;
    size_t count;
} collected;

/* Collects the entries under a prefix. Returns false where memory runs out, and has no memory
 * then. */
bool collect(tree_object *tree, const key_bytes *prefix, collected *entries);
void collected_free(collected *entries);

/* Many entries at once (parts.c) */

PyObject *tree_remove_prefix(PyObject *self, PyObject *argument);
PyObject *tree_split_into(PyObject *self, PyObject *args);
PyObject *tree_clone_from(PyObject *self, PyObject *argument);
PyObject *tree_write(PyObject *self, PyObject *args);
PyObject *tree_read(PyObject *self, PyObject *args);

/* Types (map.c, set.c) */

extern PyType_Spec tree_spec;
extern PyType_Spec map_spec;
extern PyType_Spec text_map_spec;
extern PyType_Spec set_spec;
extern PyType_Spec text_set_spec;

#endif
