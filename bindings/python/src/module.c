/* The module `patricia._patricia`, on which the package's classes stand. */
#include "patricia_module.h"

bool types_are_visited;
PyTypeObject *walk_type;
PyTypeObject *tree_type;

static PyObject *new_tree(PyTypeObject *type, PyObject *args, PyObject *named)
{
    (void)args, (void)named;
    PyErr_Format(PyExc_TypeError, "cannot create %R instances", (PyObject *)type);
    return NULL;
}

static PyType_Slot tree_slots[] = {
    {Py_tp_new, new_tree},
    {Py_tp_dealloc, tree_dealloc},
    {Py_tp_traverse, tree_traverse},
    {Py_tp_clear, tree_drop},
    {Py_tp_iter, walk_keys},
    {Py_tp_methods, tree_methods},
    {Py_mp_length, tree_length},
    {Py_sq_contains, tree_contains},
    {0, NULL},
};

PyType_Spec tree_spec = {
    "patricia._patricia.Tree", sizeof(tree_object), 0, BASE_FLAGS, tree_slots,
};

static struct PyModuleDef definition = {
    PyModuleDef_HEAD_INIT, "patricia._patricia", "The types on which the package stands.", -1,
    NULL, NULL, NULL, NULL, NULL,
};

/* Adds a type to the module. Returns a reference that the module has, or NULL. */
static PyObject *add_type(PyObject *module, const char *name, PyType_Spec *spec, PyObject *base)
{
    PyObject *bases = base != NULL ? PyTuple_Pack(1, base) : NULL;
    if (base != NULL && bases == NULL)
        return NULL;
    PyObject *type = PyType_FromSpecWithBases(spec, bases);
    Py_XDECREF(bases);
    if (type == NULL || PyModule_AddObject(module, name, type) == 0)
        return type;
    Py_DECREF(type);
    return NULL;
}

static bool add_types(PyObject *module)
{
    PyObject *walk = add_type(module, "Walk", &walk_spec, NULL);
    PyObject *tree = walk == NULL ? NULL : add_type(module, "Tree", &tree_spec, NULL);
    PyObject *map = tree == NULL ? NULL : add_type(module, "Map", &map_spec, tree);
    PyObject *set = map == NULL ? NULL : add_type(module, "Set", &set_spec, tree);
    if (set == NULL || add_type(module, "TextMap", &text_map_spec, map) == NULL ||
        add_type(module, "TextSet", &text_set_spec, set) == NULL)
        return false;
    Py_INCREF(walk);
    Py_INCREF(tree);
    walk_type = (PyTypeObject *)walk;
    tree_type = (PyTypeObject *)tree;
    return true;
}

/* The headers of Python 3.8 do not say that it is visible. */
__attribute__((visibility("default"))) PyMODINIT_FUNC PyInit__patricia(void)
{
    PyObject *version = PySys_GetObject("hexversion");
    if (version == NULL)
        return PyErr_NoMemory();
    types_are_visited = PyLong_AsLong(version) >= 0x03090000;
    text_is_lent = PyLong_AsLong(version) >= 0x030A0000;
    PyObject *module = PyModule_Create(&definition);
    if (module != NULL && (!add_types(module) ||
                           PyModule_AddStringConstant(module, "VERSION", PATRICIA_VERSION) < 0))
        Py_CLEAR(module);
    return module;
}
