/* Objects under numbers. The collector's traversal goes over this table and not over the library's
 * map: it must visit the same objects each time, and a cursor asks for memory, which can be
 * refused. */
#include "patricia_module.h"

static bool is_free(object_slot slot)
{
    return (slot.link & 1) != 0;
}

bool objects_reserve(object_table *table, size_t count)
{
    size_t left = table->capacity - table->len + table->free_count;
    if (count <= left)
        return true;
    size_t more = count - left;
    size_t most = (size_t)PTRDIFF_MAX / sizeof(object_slot);
    if (more > most - table->capacity)
        return false;
    size_t capacity = table->capacity + table->capacity / 8 + 8;
    if (capacity < table->capacity + more)
        capacity = table->capacity + more;
    if (capacity > most)
        capacity = most;
    object_slot *slots = PyMem_Realloc(table->slots, capacity * sizeof *slots);
    if (slots == NULL)
        return false;
    table->slots = slots;
    table->capacity = capacity;
    return true;
}

uint64_t objects_put(object_table *table, PyObject *object)
{
    size_t number = table->len;
    if (table->free_count != 0) {
        number = (size_t)(table->free >> 1);
        table->free = table->slots[number].link;
        table->free_count--;
    } else {
        table->len++;
    }
    Py_INCREF(object);
    table->slots[number].object = object;
    return number;
}

PyObject *objects_take(object_table *table, uint64_t number)
{
    PyObject *object = table->slots[number].object;
    table->slots[number].link = table->free | 1;
    table->free = (uintptr_t)number << 1;
    table->free_count++;
    return object;
}

PyObject *objects_get(const object_table *table, uint64_t number)
{
    PyObject *object = table->slots[number].object;
    Py_INCREF(object);
    return object;
}

void objects_replace(object_table *table, uint64_t number, PyObject *object)
{
    PyObject *before = table->slots[number].object;
    Py_INCREF(object);
    table->slots[number].object = object;
    Py_DECREF(before);
}

bool objects_copy(const object_table *table, object_table *copy)
{
    memset(copy, 0, sizeof *copy);
    if (table->len == 0)
        return true;
    copy->slots = PyMem_Malloc(table->len * sizeof *copy->slots);
    if (copy->slots == NULL)
        return false;
    memcpy(copy->slots, table->slots, table->len * sizeof *copy->slots);
    copy->len = copy->capacity = table->len;
    copy->free = table->free;
    copy->free_count = table->free_count;
    for (size_t i = 0; i < copy->len; i++)
        if (!is_free(copy->slots[i]))
            Py_INCREF(copy->slots[i].object);
    return true;
}

int objects_traverse(const object_table *table, visitproc visit, void *arg)
{
    for (size_t i = 0; i < table->len; i++)
        if (!is_free(table->slots[i]))
            Py_VISIT(table->slots[i].object);
    return 0;
}

void objects_clear(object_table *table)
{
    object_table old = *table;
    memset(table, 0, sizeof *table);
    for (size_t i = 0; i < old.len; i++)
        if (!is_free(old.slots[i]))
            Py_DECREF(old.slots[i].object);
    PyMem_Free(old.slots);
}
