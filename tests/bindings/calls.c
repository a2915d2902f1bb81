/* What no line of scripts.c can ask: room that is too small, places that stay as they are, null
 * pointers, cursors while maps change, handles. */
#include "check.h"
#include <patricia.h>
#include <string.h>

static const uint8_t *bytes_of(const char *text) { return (const uint8_t *)text; }

static uint32_t insert(patricia_map *map, const char *key, uint64_t value, uint64_t *old)
{
    return patricia_insert(map, bytes_of(key), strlen(key), value, old);
}

static bool get(patricia_map *map, const char *key, uint64_t *value)
{
    return patricia_get(map, bytes_of(key), strlen(key), value);
}

static uint32_t removed(patricia_map *map, const char *key, uint64_t *old)
{
    return patricia_remove(map, bytes_of(key), strlen(key), old);
}

/* bar, baz, foo and the empty key */
static void fill(patricia_map *map)
{
    uint64_t old = 77;
    CHECK(insert(map, "foo", 1, &old) == PATRICIA_ABSENT && old == 77);
    CHECK(insert(map, "bar", 2, &old) == PATRICIA_ABSENT);
    CHECK(insert(map, "baz", 3, &old) == PATRICIA_ABSENT);
    CHECK(insert(map, "", 9, &old) == PATRICIA_ABSENT);
    CHECK(insert(map, "foo", 4, &old) == PATRICIA_FOUND && old == 1);
    CHECK(patricia_len(map) == 4);
}

static void empty_map(void)
{
    patricia_map map = PATRICIA_MAP_INIT;
    patricia_iterator iterator = PATRICIA_ITERATOR_INIT;
    uint64_t value = 77;
    size_t len = 78;
    uint8_t array[8];
    CHECK(!get(&map, "foo", &value) && removed(&map, "foo", &value) == PATRICIA_ABSENT);
    CHECK(!patricia_longest_prefix(&map, bytes_of("foo"), 3, &len, &value));
    CHECK(patricia_first(&map, array, sizeof array, &len, &value) == PATRICIA_ABSENT);
    CHECK(patricia_last(&map, array, sizeof array, &len, &value) == PATRICIA_ABSENT);
    CHECK(len == 78 && value == 77);
    CHECK(patricia_iterator_len(&iterator) == 0);
    CHECK(patricia_iterate(&map, bytes_of(""), 0, &iterator) == PATRICIA_DONE);
    CHECK(patricia_iterator_next(&iterator, array, sizeof array, &len, &value) == PATRICIA_END);
    patricia_free(&map);
    patricia_free(&map);
    patricia_iterator_free(&iterator);
    patricia_iterator_free(&iterator);
}

/* What a place held before is dropped, and a map may be moved. */
static void two_maps(void)
{
    patricia_map map = PATRICIA_MAP_INIT, copy = PATRICIA_MAP_INIT, part = PATRICIA_MAP_INIT;
    uint64_t value;
    fill(&map);
    CHECK(insert(&copy, "dropped", 1, &value) == PATRICIA_ABSENT);
    CHECK(insert(&part, "dropped", 1, &value) == PATRICIA_ABSENT);
    CHECK(patricia_clone(&map, &copy) == PATRICIA_DONE && patricia_len(&copy) == 4);
    CHECK(patricia_split_by_prefix(&map, bytes_of("ba"), 2, &part) == PATRICIA_DONE);
    CHECK(patricia_len(&part) == 2 && patricia_len(&map) == 2 && patricia_len(&copy) == 4);
    patricia_map moved = part;
    memset(&part, 0, sizeof part);
    CHECK(patricia_len(&moved) == 2 && patricia_len(&part) == 0);
    patricia_free(&map);
    patricia_free(&copy);
    patricia_free(&part);
    patricia_free(&moved);
}

static void handles(void)
{
    patricia_map map = PATRICIA_MAP_INIT, other = PATRICIA_MAP_INIT;
    patricia_shared shared = PATRICIA_SHARED_INIT, another = PATRICIA_SHARED_INIT;
    uint64_t value = 77;
    CHECK(patricia_shared_len(&shared) == 0 && patricia_freeze(&map, &shared) == PATRICIA_DONE);
    CHECK(!patricia_shared_get(&shared, bytes_of("foo"), 3, &value) && value == 77);
    CHECK(patricia_thaw(&shared, &map) == PATRICIA_DONE && patricia_len(&map) == 0);
    fill(&map);
    CHECK(insert(&other, "dropped", 1, &value) == PATRICIA_ABSENT);
    CHECK(patricia_freeze(&map, &shared) == PATRICIA_DONE && patricia_len(&map) == 0);
    CHECK(patricia_shared_len(&shared) == 4 && !get(&map, "foo", &value));
    CHECK(patricia_shared_get(&shared, bytes_of("foo"), 3, &value) && value == 4);
    CHECK(patricia_shared_clone(&shared, &another) == PATRICIA_DONE);
    CHECK(patricia_shared_len(&another) == 4);
    CHECK(patricia_thaw(&shared, &other) == PATRICIA_SHARED && patricia_shared_len(&shared) == 4);
    CHECK(patricia_len(&other) == 1 && get(&other, "dropped", &value) && value == 1);
    patricia_shared_free(&shared);
    CHECK(patricia_shared_len(&shared) == 0 && patricia_shared_len(&another) == 4);
    CHECK(patricia_thaw(&another, &other) == PATRICIA_DONE && patricia_shared_len(&another) == 0);
    CHECK(patricia_len(&other) == 4 && get(&other, "bar", &value) && value == 2);
    CHECK(insert(&other, "new", 5, &value) == PATRICIA_ABSENT);
    CHECK(patricia_freeze(&other, &shared) == PATRICIA_DONE);
    CHECK(patricia_freeze(&map, &shared) == PATRICIA_DONE);
    CHECK(patricia_shared_len(&shared) == 0 && patricia_len(&other) == 0);
    fill(&map);
    CHECK(patricia_freeze(&map, &shared) == PATRICIA_DONE);
    CHECK(patricia_shared_to_map(&shared, &map) == PATRICIA_DONE);
    CHECK(insert(&map, "new", 5, &value) == PATRICIA_ABSENT);
    CHECK(patricia_len(&map) == 5 && patricia_shared_len(&shared) == 4);
    patricia_shared_free(&shared);
    patricia_free(&map);
}

static void neighbours(void)
{
    patricia_map map = PATRICIA_MAP_INIT;
    uint8_t array[8] = "unwritte";
    uint64_t value = 77;
    size_t len = 78;
    fill(&map);
    CHECK(patricia_first(&map, array, 0, &len, &value) == PATRICIA_FOUND && len == 0 && value == 9);
    value = 77;
    CHECK(patricia_last(&map, array, 2, &len, &value) == PATRICIA_NO_ROOM && len == 3);
    CHECK(memcmp(array, "unwritte", 8) == 0 && value == 77);
    CHECK(patricia_last(&map, array, 3, &len, &value) == PATRICIA_FOUND && len == 3 && value == 4);
    CHECK(memcmp(array, "fooritte", 8) == 0);
    CHECK(patricia_first_after(&map, bytes_of("c"), 1, array, 2, &len, &value) == PATRICIA_NO_ROOM);
    CHECK(patricia_last_before(&map, bytes_of("zoo"), 3, array, 2, &len, &value) ==
          PATRICIA_NO_ROOM);
    CHECK(len == 3 && value == 4);
    len = 78;
    CHECK(patricia_first_after(&map, bytes_of("foo"), 3, array, 8, &len, &value) ==
          PATRICIA_ABSENT);
    CHECK(patricia_last_before(&map, bytes_of(""), 0, array, 8, &len, &value) == PATRICIA_ABSENT);
    CHECK(len == 78 && value == 4 && patricia_len(&map) == 4);
    patricia_free(&map);
}

static void iterators(void)
{
    patricia_map map = PATRICIA_MAP_INIT;
    patricia_iterator iterator = PATRICIA_ITERATOR_INIT;
    uint8_t array[8];
    uint64_t value;
    size_t len = 0;
    fill(&map);
    CHECK(patricia_iterate(&map, bytes_of("ba"), 2, &iterator) == PATRICIA_DONE);
    CHECK(removed(&map, "baz", &value) == PATRICIA_FOUND);
    CHECK(patricia_iterator_len(&iterator) == 2);
    CHECK(patricia_iterator_next(&iterator, array, 2, &len, &value) == PATRICIA_NO_ROOM);
    CHECK(len == 3);
    CHECK(patricia_iterator_next(&iterator, array, 8, &len, &value) == PATRICIA_ENTRY);
    CHECK(len == 3 && memcmp(array, "bar", 3) == 0 && value == 2);
    CHECK(patricia_iterator_len(&iterator) == 1);
    CHECK(patricia_iterator_next(&iterator, array, 3, &len, &value) == PATRICIA_ENTRY);
    CHECK(len == 3 && memcmp(array, "baz", 3) == 0 && value == 3);
    CHECK(patricia_iterator_next(&iterator, array, 8, &len, &value) == PATRICIA_END);
    CHECK(patricia_iterator_next(&iterator, array, 8, &len, &value) == PATRICIA_END);
    CHECK(patricia_iterate(&map, bytes_of(""), 0, &iterator) == PATRICIA_DONE);
    patricia_free(&map);
    CHECK(patricia_iterator_next(&iterator, array, 0, &len, &value) == PATRICIA_ENTRY);
    CHECK(len == 0 && value == 9 && patricia_iterator_len(&iterator) == 2);
    patricia_iterator_free(&iterator);
    CHECK(patricia_iterator_next(&iterator, array, 8, &len, &value) == PATRICIA_END);
}

/* The cursor passes this entry next. */
static void passes(patricia_cursor *cursor, patricia_map *map, const char *key, uint64_t value)
{
    uint8_t array[8] = "unwritte";
    uint64_t got = 77;
    size_t len = 78;
    if (*key != 0) {
        CHECK(patricia_cursor_next(cursor, map, array, strlen(key) - 1, &len, &got) ==
              PATRICIA_NO_ROOM);
        CHECK(len == strlen(key) && got == 77 && memcmp(array, "unwritte", 8) == 0);
    }
    CHECK(patricia_cursor_next(cursor, map, array, strlen(key), &len, &got) == PATRICIA_ENTRY);
    CHECK(len == strlen(key) && got == value && memcmp(array, key, len) == 0);
}

/* Nothing is ahead of it. */
static void ends(patricia_cursor *cursor, patricia_map *map)
{
    uint8_t array[8] = "unwritte";
    uint64_t value = 77;
    size_t len = 78;
    CHECK(patricia_cursor_next(cursor, map, array, 8, &len, &value) == PATRICIA_END);
    CHECK(len == 78 && value == 77 && memcmp(array, "unwritte", 8) == 0);
}

static void cursors(void)
{
    patricia_map map = PATRICIA_MAP_INIT, other = PATRICIA_MAP_INIT;
    patricia_cursor cursor = PATRICIA_CURSOR_INIT;
    uint64_t value;
    ends(&cursor, &map);
    fill(&map);
    passes(&cursor, &map, "", 9);
    passes(&cursor, &map, "bar", 2);
    CHECK(removed(&map, "baz", &value) == PATRICIA_FOUND);
    CHECK(insert(&map, "bas", 5, &value) == PATRICIA_ABSENT);
    CHECK(insert(&map, "bap", 6, &value) == PATRICIA_ABSENT);
    passes(&cursor, &map, "bas", 5);
    ends(&cursor, &other);
    passes(&cursor, &map, "foo", 4);
    ends(&cursor, &map);
    CHECK(insert(&map, "zoo", 7, &value) == PATRICIA_ABSENT);
    passes(&cursor, &map, "zoo", 7);
    ends(&cursor, &map);
    patricia_cursor_free(&cursor);
    passes(&cursor, &map, "", 9);
    CHECK(patricia_cursor_seek(&cursor, bytes_of("ba"), 2, 2) == PATRICIA_DONE);
    passes(&cursor, &map, "bap", 6);
    patricia_cursor moved = cursor;
    memset(&cursor, 0, sizeof cursor);
    passes(&moved, &map, "bar", 2);
    passes(&cursor, &map, "", 9);
    passes(&moved, &map, "bas", 5);
    ends(&moved, &map);
    CHECK(patricia_cursor_seek(&cursor, bytes_of("foo"), 3, 99) == PATRICIA_DONE);
    passes(&cursor, &map, "foo", 4);
    ends(&cursor, &map);
    CHECK(patricia_len(&map) == 6);
    patricia_free(&map);
    ends(&cursor, &map);
    patricia_cursor_free(&cursor);
    patricia_cursor_free(&cursor);
    patricia_cursor_free(&moved);
}

/* What a call for many entries writes. */
typedef struct {
    uint8_t keys[16];
    size_t lens[4], count, len;
    uint64_t values[4];
} block;

static uint32_t next_many(patricia_cursor *cursor, patricia_map *map, block *to, size_t size,
                          size_t most_lens, size_t most_values)
{
    memset(to, 'x', sizeof *to);
    to->count = 77, to->len = 78;
    return patricia_cursor_next_many(cursor, map, to->keys, size, to->lens, most_lens, to->values,
                                     most_values, &to->count, &to->len);
}

/* Nothing but the length is written. */
static void is_unwritten(const block *to, size_t len)
{
    block none;
    memset(&none, 'x', sizeof none);
    CHECK(to->count == 77 && to->len == len && memcmp(to->keys, none.keys, sizeof to->keys) == 0);
    CHECK(memcmp(to->lens, none.lens, sizeof to->lens) == 0);
    CHECK(memcmp(to->values, none.values, sizeof to->values) == 0);
}

static void blocks(void)
{
    patricia_map map = PATRICIA_MAP_INIT;
    patricia_cursor cursor = PATRICIA_CURSOR_INIT;
    uint64_t old;
    block to;
    CHECK(next_many(&cursor, &map, &to, 16, 4, 4) == PATRICIA_END);
    is_unwritten(&to, 78);
    fill(&map);
    CHECK(next_many(&cursor, &map, &to, 16, 4, 4) == PATRICIA_ENTRY);
    CHECK(to.count == 4 && to.len == 9 && memcmp(to.keys, "barbazfooxxxxxxx", 16) == 0);
    CHECK(to.lens[0] == 0 && to.lens[1] == 3 && to.lens[2] == 3 && to.lens[3] == 3);
    CHECK(to.values[0] == 9 && to.values[1] == 2 && to.values[2] == 3 && to.values[3] == 4);
    CHECK(next_many(&cursor, &map, &to, 16, 4, 4) == PATRICIA_END);
    is_unwritten(&to, 78);
    /* room for the bytes of two keys, exactly, or for so many lengths, or values */
    patricia_cursor_free(&cursor);
    CHECK(next_many(&cursor, &map, &to, 6, 4, 4) == PATRICIA_ENTRY && to.count == 3);
    CHECK(to.len == 6 && memcmp(to.keys, "barbazxxxxxxxxxx", 16) == 0);
    CHECK(next_many(&cursor, &map, &to, 2, 4, 4) == PATRICIA_NO_ROOM);
    is_unwritten(&to, 3);
    CHECK(next_many(&cursor, &map, &to, 3, 4, 4) == PATRICIA_ENTRY && to.count == 1);
    CHECK(to.len == 3 && memcmp(to.keys, "foox", 4) == 0 && to.values[0] == 4);
    patricia_cursor_free(&cursor);
    CHECK(next_many(&cursor, &map, &to, 16, 0, 4) == PATRICIA_NO_ROOM && to.len == 0);
    CHECK(next_many(&cursor, &map, &to, 16, 4, 0) == PATRICIA_NO_ROOM && to.len == 0);
    CHECK(next_many(&cursor, &map, &to, 16, 1, 4) == PATRICIA_ENTRY && to.count == 1);
    CHECK(to.len == 0 && to.lens[0] == 0 && to.values[0] == 9);
    CHECK(next_many(&cursor, &map, &to, 16, 4, 2) == PATRICIA_ENTRY && to.count == 2);
    CHECK(to.len == 6 && to.values[1] == 3);
    /* a prefix, and a map that changes meanwhile */
    CHECK(patricia_cursor_seek(&cursor, bytes_of("ba"), 2, 2) == PATRICIA_DONE);
    CHECK(next_many(&cursor, &map, &to, 16, 1, 4) == PATRICIA_ENTRY && to.count == 1);
    CHECK(to.len == 3 && memcmp(to.keys, "barx", 4) == 0);
    CHECK(removed(&map, "baz", &old) == PATRICIA_FOUND);
    CHECK(insert(&map, "bar2", 5, &old) == PATRICIA_ABSENT);
    CHECK(insert(&map, "bas", 6, &old) == PATRICIA_ABSENT);
    CHECK(next_many(&cursor, &map, &to, 16, 4, 4) == PATRICIA_ENTRY && to.count == 2);
    CHECK(to.len == 7 && memcmp(to.keys, "bar2basx", 8) == 0 && to.values[1] == 6);
    CHECK(next_many(&cursor, &map, &to, 16, 4, 4) == PATRICIA_END);
    patricia_cursor_free(&cursor);
    patricia_free(&map);
}

/* The end stays while the map changes, and goes where the cursor is set anew. */
static void ranges(void)
{
    patricia_map map = PATRICIA_MAP_INIT;
    patricia_cursor cursor = PATRICIA_CURSOR_INIT;
    uint64_t old;
    CHECK(patricia_cursor_seek_range(&cursor, bytes_of(""), 0, bytes_of("baz"), 3) ==
          PATRICIA_DONE);
    ends(&cursor, &map);
    fill(&map);
    passes(&cursor, &map, "", 9);
    passes(&cursor, &map, "bar", 2);
    ends(&cursor, &map);
    CHECK(insert(&map, "bas", 5, &old) == PATRICIA_ABSENT);
    passes(&cursor, &map, "bas", 5);
    ends(&cursor, &map);
    CHECK(patricia_cursor_seek(&cursor, bytes_of("baz"), 3, 0) == PATRICIA_DONE);
    passes(&cursor, &map, "baz", 3);
    passes(&cursor, &map, "foo", 4);
    patricia_cursor_free(&cursor);
    patricia_free(&map);
}

/* Looks up the five keys foo, none, bar, x and foo/ at once. */
static uint32_t get_many(const patricia_map *map, size_t bytes, size_t count, size_t values_size,
                         size_t found_size, uint64_t *values, uint8_t *found)
{
    static const size_t lens[] = {3, 0, 3, 1, 4};
    for (size_t i = 0; i < 6; i++)
        values[i] = 77, found[i] = 55;
    return patricia_get_many(map, bytes_of("foobarxfoo/"), bytes, lens, count, values, values_size,
                             found, found_size);
}

static bool is_unfound(const uint64_t *values, const uint8_t *found)
{
    static const uint8_t held[] = {55, 55, 55, 55, 55, 55};
    for (size_t i = 0; i < 6; i++)
        if (values[i] != 77)
            return false;
    return memcmp(found, held, sizeof held) == 0;
}

static void many_keys(void)
{
    static const size_t past[] = {1, SIZE_MAX};
    patricia_map map = PATRICIA_MAP_INIT;
    uint64_t values[6];
    uint8_t found[6];
    CHECK(get_many(&map, 11, 5, 6, 6, values, found) == PATRICIA_DONE);
    CHECK(memcmp(found, "\0\0\0\0\0\x37", 6) == 0 && values[0] == 77);
    fill(&map);
    CHECK(get_many(&map, 11, 5, 6, 6, values, found) == PATRICIA_DONE);
    CHECK(memcmp(found, "\1\1\1\0\0\x37", 6) == 0);
    CHECK(values[0] == 4 && values[1] == 9 && values[2] == 2 && values[3] == 77 && values[4] == 77);
    CHECK(get_many(&map, 11, 5, 5, 5, values, found) == PATRICIA_DONE && values[2] == 2);
    CHECK(get_many(&map, 10, 5, 6, 6, values, found) == PATRICIA_NO_ROOM);
    CHECK(is_unfound(values, found));
    CHECK(get_many(&map, 11, 5, 4, 6, values, found) == PATRICIA_NO_ROOM);
    CHECK(is_unfound(values, found));
    CHECK(get_many(&map, 11, 5, 6, 4, values, found) == PATRICIA_NO_ROOM);
    CHECK(is_unfound(values, found));
    CHECK(patricia_get_many(&map, bytes_of("foo"), 3, past, 2, values, 6, found, 6) ==
          PATRICIA_NO_ROOM);
    CHECK(get_many(&map, 0, 0, 0, 0, values, found) == PATRICIA_DONE);
    CHECK(is_unfound(values, found));
    patricia_free(&map);
}

static void many_prefixes(void)
{
    static const size_t lens[] = {4, 3, 1};
    patricia_map map = PATRICIA_MAP_INIT;
    uint64_t values[] = {77, 77, 77, 77}, old;
    size_t fronts[] = {78, 78, 78, 78};
    uint8_t found[] = {55, 55, 55, 55};
    const uint8_t *keys = bytes_of("foo/barz");
    CHECK(insert(&map, "foo", 4, &old) == PATRICIA_ABSENT);
    CHECK(patricia_longest_prefix_many(&map, keys, 7, lens, 3, fronts, 4, values, 4, found, 4) ==
          PATRICIA_NO_ROOM);
    CHECK(patricia_longest_prefix_many(&map, keys, 8, lens, 3, fronts, 2, values, 4, found, 4) ==
          PATRICIA_NO_ROOM);
    CHECK(patricia_longest_prefix_many(&map, keys, 8, lens, 3, fronts, 4, values, 2, found, 4) ==
          PATRICIA_NO_ROOM);
    CHECK(patricia_longest_prefix_many(&map, keys, 8, lens, 3, fronts, 4, values, 4, found, 2) ==
          PATRICIA_NO_ROOM);
    CHECK(found[0] == 55 && fronts[0] == 78 && values[0] == 77);
    CHECK(patricia_longest_prefix_many(&map, keys, 8, lens, 3, fronts, 4, values, 4, found, 4) ==
          PATRICIA_DONE);
    CHECK(memcmp(found, "\1\0\0\x37", 4) == 0);
    CHECK(fronts[0] == 3 && fronts[1] == 78 && fronts[3] == 78 && values[1] == 77);
    patricia_free(&map);
}

static void sorted_entries(void)
{
    static const size_t lens[] = {1, 1, 1}, past[] = {1, SIZE_MAX};
    static const uint64_t values[] = {1, 2, 3, 9};
    patricia_map map = PATRICIA_MAP_INIT;
    size_t loaded = 77;
    CHECK(patricia_sorted_load(&map, bytes_of(""), 0, lens, 0, values, 0, &loaded) == 0);
    CHECK(loaded == 0 && patricia_len(&map) == 0);
    loaded = 77;
    CHECK(patricia_sorted_load(&map, bytes_of("gh"), 1, lens, 2, values, 2, &loaded) ==
          PATRICIA_NO_ROOM);
    CHECK(patricia_sorted_load(&map, bytes_of("gh"), 2, lens, 2, values, 1, &loaded) ==
          PATRICIA_NO_ROOM);
    CHECK(patricia_sorted_load(&map, bytes_of("gh"), 2, past, 2, values, 2, &loaded) ==
          PATRICIA_NO_ROOM);
    CHECK(loaded == 77 && patricia_len(&map) == 0);
    CHECK(patricia_from_sorted(&map, bytes_of("xy"), 2, lens, 2, values, 2, &loaded) == 0);
    CHECK(loaded == 2 && patricia_len(&map) == 2);
    CHECK(patricia_from_sorted(&map, bytes_of("xy"), 2, lens, 2, values, 1, &loaded) ==
          PATRICIA_NO_ROOM);
    CHECK(patricia_len(&map) == 0);
    patricia_free(&map);
}

static void encodings(void)
{
    static const uint8_t one[] = {12, 0, 0, 0, 3, 1, 0, 1, 'a'};
    patricia_map map = PATRICIA_MAP_INIT;
    uint8_t array[64];
    uint64_t value = 5;
    size_t len = 0, offset = 99;
    CHECK(insert(&map, "a", 5, &value) == PATRICIA_ABSENT);
    CHECK(patricia_tree_bytes(&map, array, sizeof one - 1, &len) == PATRICIA_NO_ROOM);
    CHECK(len == sizeof one);
    CHECK(patricia_tree_bytes(&map, array, sizeof one, &len) == PATRICIA_DONE);
    CHECK(patricia_wide_tree_bytes(&map, array, 12, &len) == PATRICIA_NO_ROOM && len == 13);
    CHECK(patricia_wide_tree_bytes(&map, array, 13, &len) == PATRICIA_DONE);
    CHECK(patricia_from_tree_bytes(&map, one, sizeof one, &value, 1, &offset) == PATRICIA_DONE);
    CHECK(offset == 99 && patricia_len(&map) == 1);
    /* what is no tree leaves the map empty */
    CHECK(patricia_from_tree_bytes(&map, one, 8, &value, 1, &offset) == PATRICIA_TRUNCATED);
    CHECK(offset == 4 && patricia_len(&map) == 0);
    CHECK(insert(&map, "a", 5, &value) == PATRICIA_ABSENT);
    CHECK(patricia_from_wide_tree_bytes(&map, array, 13, &value, 0, &offset) ==
          PATRICIA_TOO_FEW_VALUES);
    CHECK(offset == 6 && patricia_len(&map) == 0);
    patricia_free(&map);
}

static void fault_texts(void)
{
    CHECK(strcmp(patricia_fault_text(PATRICIA_TRUNCATED), "record cut short") == 0);
    CHECK(strcmp(patricia_fault_text(PATRICIA_TOO_MANY_VALUES), "too many values") == 0);
    CHECK(strcmp(patricia_fault_text(PATRICIA_NO_MEMORY), "out of memory") == 0);
    CHECK(strcmp(patricia_fault_text(PATRICIA_TOO_DEEP), "level too deep for the encoding") == 0);
    CHECK(strcmp(patricia_fault_text(PATRICIA_NO_ROOM), "array too small") == 0);
    CHECK(strcmp(patricia_fault_text(PATRICIA_NOT_TEXT), "not UTF-8") == 0);
    CHECK(strcmp(patricia_fault_text(PATRICIA_NOT_IN_ORDER), "keys not in order") == 0);
    CHECK(strcmp(patricia_fault_text(PATRICIA_SHARED), "another handle is left") == 0);
    CHECK(strcmp(patricia_fault_text(PATRICIA_DONE), "no fault") == 0);
}

/* Keys without bytes, at null pointers. */
static void null_keys(void)
{
    patricia_map map = PATRICIA_MAP_INIT;
    uint64_t value = 77;
    uint8_t byte = 1;
    CHECK(patricia_bytes(&byte) == &byte && patricia_bytes(NULL) != NULL);
    CHECK(patricia_insert(&map, patricia_bytes(NULL), 0, 5, &value) == PATRICIA_ABSENT);
    CHECK(patricia_get(&map, patricia_bytes(NULL), 0, &value) && value == 5);
    CHECK(patricia_text_remove(&map, NULL, 0, &value) == PATRICIA_FOUND);
    CHECK(patricia_len(&map) == 0);
    patricia_free(&map);
}

int main(void)
{
    empty_map();
    two_maps();
    handles();
    neighbours();
    cursors();
    blocks();
    ranges();
    many_keys();
    many_prefixes();
    sorted_entries();
    iterators();
    encodings();
    fault_texts();
    null_keys();
    puts("ok");
    return 0;
}
