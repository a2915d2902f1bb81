/* Many entries at once: removing, moving and copying them, and tree bytes. What may be refused
 * comes first, so that a refusal loses nothing. */
#include "patricia_module.h"

void collected_free(collected *entries)
{
    PyMem_Free(entries->keys);
    PyMem_Free(entries->lens);
    PyMem_Free(entries->numbers);
    memset(entries, 0, sizeof *entries);
}

static bool more_room(collected *entries, size_t len)
{
    size_t room = entries->room + entries->room / 2 + len + 64;
    uint8_t *keys = PyMem_Realloc(entries->keys, room);
    if (keys == NULL)
        return false;
    entries->keys = keys;
    entries->room = room;
    return true;
}

/* An array of numbers of 8 bytes each, or NULL. */
static void *numbers_alloc(size_t count)
{
    return count > PTRDIFF_MAX / 8 ? NULL : PyMem_Malloc(count * 8);
}

static bool has_arrays(collected *entries, size_t count)
{
    entries->lens = numbers_alloc(count);
    entries->numbers = numbers_alloc(count);
    return entries->lens != NULL && entries->numbers != NULL && more_room(entries, count * 16);
}

/* Reads `total` entries, which a cursor has ahead. */
static bool collect_from(patricia_cursor *cursor, tree_object *tree, size_t total,
                         collected *entries)
{
    while (entries->count < total) {
        size_t left = total - entries->count, count = 0, len = 0;
        uint32_t result = patricia_cursor_next_many(
            cursor, &tree->map, entries->keys + entries->used, entries->room - entries->used,
            entries->lens + entries->count, left, entries->numbers + entries->count, left, &count,
            &len);
        if (result == PATRICIA_ENTRY) {
            entries->count += count;
            entries->used += len;
        } else if (result != PATRICIA_NO_ROOM || !more_room(entries, len)) {
            return false;
        }
    }
    return true;
}

bool collect(tree_object *tree, const key_bytes *prefix, collected *entries)
{
    patricia_cursor cursor = PATRICIA_CURSOR_INIT;
    size_t total;
    memset(entries, 0, sizeof *entries);
    bool done =
        patricia_count_prefix(&tree->map, prefix->at, prefix->len, &total) == PATRICIA_DONE &&
        has_arrays(entries, total) &&
        patricia_cursor_seek(&cursor, prefix->at, prefix->len, prefix->len) == PATRICIA_DONE &&
        collect_from(&cursor, tree, total, entries);
    patricia_cursor_free(&cursor);
    if (!done)
        collected_free(entries);
    return done;
}

/* Drops the values of entries that are no longer in the tree. All numbers are freed first, since
 * dropping a value may run any code. */
static void drop_values(tree_object *tree, collected *entries)
{
    PyObject **values = (PyObject **)entries->numbers;
    for (size_t i = 0; i < entries->count; i++)
        values[i] = objects_take(&tree->objects, entries->numbers[i]);
    for (size_t i = 0; i < entries->count; i++)
        Py_DECREF(values[i]);
}

PyObject *tree_remove_prefix(PyObject *self, PyObject *argument)
{
    tree_object *tree = (tree_object *)self;
    key_bytes prefix;
    collected entries = {0};
    size_t count = 0;
    if (!key_read(tree, argument, &prefix))
        return NULL;
    bool done = (tree->is_set || collect(tree, &prefix, &entries)) &&
                patricia_remove_prefix(&tree->map, prefix.at, prefix.len, &count) == PATRICIA_DONE;
    key_release(&prefix);
    tree->changes += done && count != 0;
    if (done && !tree->is_set)
        drop_values(tree, &entries);
    collected_free(&entries);
    return done ? PyLong_FromSize_t(count) : PyErr_NoMemory();
}

/* Moves the values of collected entries to the tree that their keys are in now. There is room for
 * them, and an insert of a key that is there is never refused. */
static void move_values(tree_object *from, tree_object *to, const collected *entries)
{
    const uint8_t *key = entries->keys;
    for (size_t i = 0; i < entries->count; i++) {
        PyObject *value = objects_take(&from->objects, entries->numbers[i]);
        uint64_t old;
        patricia_insert(&to->map, key, entries->lens[i], objects_put(&to->objects, value), &old);
        Py_DECREF(value);
        key += entries->lens[i];
    }
}

static bool split(tree_object *tree, const key_bytes *prefix, tree_object *part)
{
    collected entries = {0};
    bool done = tree->is_set || (collect(tree, prefix, &entries) &&
                                 objects_reserve(&part->objects, entries.count));
    done = done && patricia_split_by_prefix(&tree->map, prefix->at, prefix->len, &part->map) ==
                       PATRICIA_DONE;
    if (done) {
        tree->changes += patricia_len(&part->map) != 0;
        part->changes++;
        move_values(tree, part, &entries);
    }
    collected_free(&entries);
    return done;
}

/* Whether an object is another tree of the same kind; else an exception is set. */
static bool is_another(const tree_object *tree, PyObject *object)
{
    const tree_object *other = (const tree_object *)object;
    if (PyObject_TypeCheck(object, tree_type) && other != tree &&
        other->is_set == tree->is_set && other->is_text == tree->is_text)
        return true;
    PyErr_SetString(PyExc_TypeError, "another tree of the same kind is needed");
    return false;
}

PyObject *tree_split_into(PyObject *self, PyObject *args)
{
    tree_object *tree = (tree_object *)self;
    PyObject *argument, *other;
    key_bytes prefix;
    if (!PyArg_ParseTuple(args, "OO!", &argument, tree_type, &other) ||
        !is_another(tree, other) || !key_read(tree, argument, &prefix))
        return NULL;
    tree_drop(other);
    bool done = split(tree, &prefix, (tree_object *)other);
    key_release(&prefix);
    if (!done)
        return PyErr_NoMemory();
    Py_RETURN_NONE;
}

PyObject *tree_clone_from(PyObject *self, PyObject *argument)
{
    tree_object *tree = (tree_object *)self, *source = (tree_object *)argument;
    patricia_map map = PATRICIA_MAP_INIT;
    object_table objects;
    if (!is_another(tree, argument))
        return NULL;
    if (patricia_clone(&source->map, &map) != PATRICIA_DONE)
        return PyErr_NoMemory();
    if (!objects_copy(&source->objects, &objects)) {
        patricia_free(&map);
        return PyErr_NoMemory();
    }
    tree_become(tree, map, objects);
    Py_RETURN_NONE;
}

/* Tree bytes */

/* A guess of how many bytes a key takes, so that most trees are written once; and how many bytes
 * take longer to read than a thread should keep the others waiting. */
enum { BYTES_OF_A_KEY = 40, MANY_BYTES = 1 << 16 };

typedef uint32_t writer(const patricia_map *map, uint8_t *array, size_t size, size_t *len);
typedef uint32_t reader(patricia_map *map, const uint8_t *bytes, size_t len,
                        const uint64_t *values, size_t count, size_t *offset);

/* Writes tree bytes by way of an array of so many bytes. Their length is *len. */
static uint32_t write_to(tree_object *tree, writer *of_kind, size_t size, PyObject **bytes,
                         size_t *len)
{
    uint8_t *array = PyMem_Malloc(size);
    if (array == NULL)
        return PATRICIA_NO_MEMORY;
    uint32_t result = of_kind(&tree->map, array, size, len);
    if (result == PATRICIA_DONE) {
        *bytes = PyBytes_FromStringAndSize((const char *)array, (Py_ssize_t)*len);
        result = *bytes != NULL ? PATRICIA_DONE : PATRICIA_NO_MEMORY;
    }
    PyMem_Free(array);
    return result;
}

/* _write(wide, as_text): the tree bytes. */
PyObject *tree_write(PyObject *self, PyObject *args)
{
    static writer *const writers[2][2] = {
        {patricia_tree_bytes, patricia_wide_tree_bytes},
        {patricia_text_tree_bytes, patricia_text_wide_tree_bytes},
    };
    int is_wide, as_text;
    tree_object *tree = (tree_object *)self;
    PyObject *bytes;
    if (!PyArg_ParseTuple(args, "pp", &is_wide, &as_text))
        return NULL;
    writer *of_kind = writers[as_text][is_wide];
    size_t len, guess = patricia_len(&tree->map) * BYTES_OF_A_KEY + BYTES_OF_A_KEY;
    uint32_t result = write_to(tree, of_kind, guess, &bytes, &len);
    if (result == PATRICIA_NO_ROOM)
        result = write_to(tree, of_kind, len, &bytes, &len);
    if (result == PATRICIA_DONE)
        return bytes;
    if (result == PATRICIA_NO_MEMORY)
        return PyErr_NoMemory();
    if (result == PATRICIA_TOO_DEEP)
        PyErr_SetString(PyExc_OverflowError, "a record of the encoding would lie too deep");
    else
        PyErr_SetString(PyExc_ValueError, "a key has a surrogate, which is no character");
    return NULL;
}

/* Makes a table of the values, which is a tuple, under the numbers from 0 on. */
static bool table_of(PyObject *values, object_table *objects)
{
    size_t count = (size_t)PyTuple_Size(values);
    if (!objects_reserve(objects, count))
        return false;
    for (size_t i = 0; i < count; i++)
        objects_put(objects, PyTuple_GetItem(values, (Py_ssize_t)i));
    return true;
}

/* Reads tree bytes. While it reads many of them other threads run: nobody else has this map and
 * these numbers yet, and a bytes object does not change. */
static uint32_t read_bytes(reader *of_kind, PyObject *bytes, patricia_map *map,
                           const uint64_t *numbers, size_t count, size_t *offset)
{
    const uint8_t *at = (const uint8_t *)PyBytes_AsString(bytes);
    size_t len = (size_t)PyBytes_Size(bytes);
    uint32_t result;
    if (len < MANY_BYTES)
        return of_kind(map, at, len, numbers, count, offset);
    Py_BEGIN_ALLOW_THREADS
    result = of_kind(map, at, len, numbers, count, offset);
    Py_END_ALLOW_THREADS
    return result;
}

/* Becomes what the tree bytes mean with so many values. Returns None, or (fault, offset), with None
 * for the offset where the fault has none. */
static PyObject *read_from(tree_object *tree, reader *of_kind, PyObject *bytes, size_t count,
                           object_table *objects)
{
    patricia_map map = PATRICIA_MAP_INIT;
    size_t offset = 0;
    uint64_t *numbers = numbers_alloc(count);
    if (numbers == NULL)
        return PyErr_NoMemory();
    for (size_t i = 0; i < count; i++)
        numbers[i] = tree->is_set ? 0 : i;
    uint32_t result = read_bytes(of_kind, bytes, &map, numbers, count, &offset);
    PyMem_Free(numbers);
    if (result == PATRICIA_NO_MEMORY)
        return PyErr_NoMemory();
    if (result == PATRICIA_TOO_MANY_VALUES)
        return Py_BuildValue("(sO)", patricia_fault_text(result), Py_None);
    if (result != PATRICIA_DONE)
        return Py_BuildValue("(sK)", patricia_fault_text(result), (unsigned long long)offset);
    object_table read_objects = *objects;
    memset(objects, 0, sizeof *objects);
    tree_become(tree, map, read_objects);
    Py_RETURN_NONE;
}

/* _read(bytes, values, wide, as_text): the values are a tuple, or of a set their number. */
PyObject *tree_read(PyObject *self, PyObject *args)
{
    static reader *const readers[2][2] = {
        {patricia_from_tree_bytes, patricia_from_wide_tree_bytes},
        {patricia_text_from_tree_bytes, patricia_text_from_wide_tree_bytes},
    };
    tree_object *tree = (tree_object *)self;
    PyObject *bytes, *values, *result = NULL;
    object_table objects = {0};
    int is_wide, as_text;
    size_t count;
    if (!PyArg_ParseTuple(args, "SO!pp", &bytes, tree->is_set ? &PyLong_Type : &PyTuple_Type,
                          &values, &is_wide, &as_text))
        return NULL;
    count = tree->is_set ? PyLong_AsSize_t(values) : (size_t)PyTuple_Size(values);
    if (PyErr_Occurred())
        return NULL;
    /* there are fewer records than bytes, so that more elements have the same first fault */
    if (tree->is_set && count > (size_t)PyBytes_Size(bytes))
        count = (size_t)PyBytes_Size(bytes) + 1;
    if (tree->is_set || table_of(values, &objects))
        result = read_from(tree, readers[as_text][is_wide], bytes, count, &objects);
    else
        PyErr_NoMemory();
    objects_clear(&objects);
    return result;
}
