/* The lines about tree bytes. */
typedef uint32_t writer(const patricia_map *map, uint8_t *array, size_t size, size_t *len);
typedef uint32_t reader(patricia_map *map, const uint8_t *bytes, size_t len, const uint64_t *values,
                        size_t count, size_t *offset);

static writer *writer_of(const asked *a, bool is_wide)
{
    if (a->is_text)
        return is_wide ? patricia_text_wide_tree_bytes : patricia_text_tree_bytes;
    return is_wide ? patricia_wide_tree_bytes : patricia_tree_bytes;
}

/* The same of a handle. */
static uint32_t write_shared(const asked *a, bool is_wide, size_t *len)
{
    if (a->is_text)
        return (is_wide ? patricia_shared_text_wide_tree_bytes : patricia_shared_text_tree_bytes)(
            &a->shared, tree_room, ROOM, len);
    return (is_wide ? patricia_shared_wide_tree_bytes : patricia_shared_tree_bytes)(
        &a->shared, tree_room, ROOM, len);
}

static reader *reader_of(const asked *a, bool is_wide)
{
    if (a->is_text)
        return is_wide ? patricia_text_from_wide_tree_bytes : patricia_text_from_tree_bytes;
    return is_wide ? patricia_from_wide_tree_bytes : patricia_from_tree_bytes;
}

/* Writes the tree bytes to their room, or adds why there are none. */
static uint32_t write_tree(const asked *a, bool is_wide, size_t *len)
{
    uint32_t result = a->is_shared ? write_shared(a, is_wide, len)
                                   : writer_of(a, is_wide)(&a->map, tree_room, ROOM, len);
    if (result == PATRICIA_TOO_DEEP)
        add_text("tree deeper than level 65535");
    return result;
}

/* The numbers of bytes and of records, and the deepest level. */
static void add_size(size_t len, size_t width)
{
    size_t records = 0, deepest = 0;
    for (size_t at = 0; at < len; records++) {
        size_t level = 0;
        for (size_t i = 0; i < width; i++)
            level = level << 8 | tree_room[at + 2 + i];
        deepest = level > deepest ? level : deepest;
        at += 2 + width + tree_room[at + 1];
    }
    add_number(len);
    add_number(records);
    add_number(deepest);
}

/* Puts what tree bytes mean, with so many values, in place of the map. Its entries are listed, or
 * counted. */
static uint32_t read_tree(asked *a, bool is_wide, word tree, size_t n, bool is_listed)
{
    patricia_map made = PATRICIA_MAP_INIT;
    size_t offset = NO_ANSWER;
    uint32_t result = a->is_set && !a->is_text && !is_wide
                          ? patricia_set_from_tree_bytes(&made, tree.at, tree.len, n, &offset)
                          : reader_of(a, is_wide)(&made, tree.at, tree.len, values, n, &offset);
    if (result != PATRICIA_DONE)
        return add_fault(result, offset);
    CHECK(offset == NO_ANSWER);
    patricia_free(&a->map);
    a->map = made;
    if (is_listed)
        add_all(a);
    else
        add_number(patricia_len(&a->map));
    return PATRICIA_DONE;
}

static uint32_t read_words_as_tree(asked *a, bool is_wide)
{
    size_t n = a->is_set ? (size_t)number_of(words[1]) : count - 1;
    CHECK(n < MOST);
    for (size_t i = 0; i < n; i++)
        values[i] = a->is_set ? 0 : number_of(words[i + 1]);
    return read_tree(a, is_wide, words[0], n, true);
}

static uint32_t opened(asked *a, bool is_wide)
{
    size_t n = (size_t)number_of(words[1]);
    CHECK(n < MOST);
    for (size_t i = 0; i < n; i++)
        values[i] = a->is_set ? 0 : i + 1;
    return read_tree(a, is_wide, words[0], n, false);
}

/* The tree bytes are read again, with the values that the map has. */
static uint32_t reload(asked *a, bool is_wide)
{
    patricia_cursor cursor = PATRICIA_CURSOR_INIT;
    size_t len = 0, n = 0, key_len;
    uint32_t result = write_tree(a, is_wide, &len);
    word tree = {tree_room, len};
    if (result != PATRICIA_DONE)
        return result;
    while ((result = patricia_cursor_next(&cursor, &a->map, key_room, ROOM, &key_len,
                                          &values[n])) == PATRICIA_ENTRY)
        n++;
    patricia_cursor_free(&cursor);
    return result == PATRICIA_END ? read_tree(a, is_wide, tree, n, false) : result;
}

static uint32_t encode(asked *a, const char *call)
{
    bool is_wide = strstr(call, "_wide") != NULL;
    size_t len = 0;
    if (strncmp(call, "read", 4) == 0)
        return read_words_as_tree(a, is_wide);
    if (strncmp(call, "open", 4) == 0)
        return opened(a, is_wide);
    if (strncmp(call, "reload", 6) == 0)
        return reload(a, is_wide);
    uint32_t result = write_tree(a, is_wide, &len);
    if (result == PATRICIA_DONE && strncmp(call, "size", 4) == 0)
        add_size(len, is_wide ? 4 : 2);
    else if (result == PATRICIA_DONE)
        add_key(tree_room, len);
    return result == PATRICIA_NO_MEMORY ? result : (uint32_t)PATRICIA_DONE;
}
