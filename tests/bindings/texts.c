/* What the functions of texts return of bytes that are none, and what else no line of scripts.c can
 * ask of them and of those of sets. */
#include "check.h"
#include <patricia.h>
#include <string.h>

static const uint8_t *bytes_of(const char *text) { return (const uint8_t *)text; }

/* Prefixes, and keys next to others, that are no texts. */
static void no_texts(patricia_map *map)
{
    patricia_map part = PATRICIA_MAP_INIT;
    patricia_iterator iterator = PATRICIA_ITERATOR_INIT;
    patricia_cursor cursor = PATRICIA_CURSOR_INIT;
    uint8_t array[8] = "unwritte";
    uint64_t value = 77;
    size_t len = 78;
    CHECK(patricia_text_split_by_prefix(map, "\303", 1, &part) == PATRICIA_NOT_TEXT);
    CHECK(patricia_text_count_prefix(map, "\303", 1, &len) == PATRICIA_NOT_TEXT);
    CHECK(patricia_text_remove_prefix(map, "\303", 1, &len) == PATRICIA_NOT_TEXT);
    CHECK(patricia_text_iterate(map, "\303", 1, &iterator) == PATRICIA_NOT_TEXT);
    CHECK(patricia_text_cursor_seek(&cursor, "\303", 1, 1) == PATRICIA_NOT_TEXT);
    CHECK(patricia_text_cursor_seek_range(&cursor, "\303", 1, "", 0) == PATRICIA_NOT_TEXT);
    CHECK(patricia_text_cursor_seek_range(&cursor, "", 0, "\303", 1) == PATRICIA_NOT_TEXT);
    CHECK(patricia_text_first_after(map, "\303", 1, array, 8, &len, &value) == PATRICIA_NOT_TEXT);
    CHECK(patricia_text_last_before(map, "\303", 1, array, 8, &len, &value) == PATRICIA_NOT_TEXT);
    CHECK(len == 78 && value == 77 && memcmp(array, "unwritte", 8) == 0);
    CHECK(!part.full && !iterator.full && !cursor.full);
}

static void texts(void)
{
    patricia_map map = PATRICIA_MAP_INIT;
    uint64_t value = 77;
    size_t len = 78;
    CHECK(patricia_is_text(bytes_of("\303\251"), 2) && patricia_is_text(bytes_of(""), 0));
    CHECK(!patricia_is_text(bytes_of("\303"), 1) && !patricia_is_text(bytes_of("\355\240\200"), 3));
    CHECK(patricia_text_floor(bytes_of("a\303\251\303"), 4) == 3);
    CHECK(patricia_text_insert(&map, "\303\251", 2, 5, &value) == PATRICIA_ABSENT);
    CHECK(patricia_text_insert(&map, "\303", 1, 7, &value) == PATRICIA_NOT_TEXT);
    CHECK(patricia_text_get(&map, "\303", 1, &value) == PATRICIA_NOT_TEXT);
    CHECK(patricia_text_remove(&map, "\303", 1, &value) == PATRICIA_NOT_TEXT);
    CHECK(patricia_text_longest_prefix(&map, "\303", 1, &len, &value) == PATRICIA_NOT_TEXT);
    CHECK(patricia_text_longest_common_prefix_len(&map, "\303", 1, &len) == PATRICIA_NOT_TEXT);
    CHECK(value == 77 && len == 78 && patricia_len(&map) == 1);
    no_texts(&map);
    patricia_free(&map);
}

/* Two characters that begin with one byte are two labels of texts. */
static void text_encodings(void)
{
    static const uint8_t text[] = {12, 0, 0,    0,    51, 2, 0, 1,
                                   0303, 0250, 3, 2, 0, 1, 0303, 0251};
    const uint64_t values[] = {5, 6};
    patricia_map map = PATRICIA_MAP_INIT, back = PATRICIA_MAP_INIT;
    uint8_t array[64];
    uint64_t value = 77;
    size_t len = 78, offset = 99;
    CHECK(patricia_text_tree_bytes(&map, array, 3, &len) == PATRICIA_NO_ROOM && len == 4);
    CHECK(patricia_text_wide_tree_bytes(&map, array, 3, &len) == PATRICIA_NO_ROOM && len == 6);
    CHECK(patricia_text_from_tree_bytes(&map, text, sizeof text, values, 2, &offset) == 0);
    CHECK(patricia_tree_bytes(&map, array, sizeof array, &len) == PATRICIA_DONE);
    CHECK(patricia_text_from_tree_bytes(&back, array, len, values, 2, &offset) ==
          PATRICIA_INVALID_LABEL);
    CHECK(offset == 4 && patricia_len(&back) == 0);
    CHECK(patricia_from_tree_bytes(&back, text, sizeof text, values, 2, &offset) ==
          PATRICIA_SIBLING_ORDER);
    CHECK(offset == 10 && patricia_len(&back) == 0);
    CHECK(patricia_insert(&map, bytes_of("\303"), 1, 7, &value) == PATRICIA_ABSENT);
    len = 78;
    CHECK(patricia_text_tree_bytes(&map, array, 64, &len) == PATRICIA_NOT_TEXT && len == 78);
    CHECK(patricia_text_wide_tree_bytes(&map, array, 64, &len) == PATRICIA_NOT_TEXT);
    CHECK(patricia_len(&map) == 3 && len == 78);
    patricia_free(&map);
    patricia_free(&back);
}

/* Numbers of elements that are greater than those of the bytes. */
static void sets(void)
{
    patricia_set set = PATRICIA_SET_INIT, back = PATRICIA_SET_INIT;
    uint8_t array[64];
    size_t len = 0, offset = 9;
    CHECK(patricia_set_insert(&set, bytes_of("foo"), 3) == PATRICIA_ABSENT);
    CHECK(patricia_tree_bytes(&set, array, sizeof array, &len) == PATRICIA_DONE);
    CHECK(patricia_set_from_tree_bytes(&back, array, len, 1, &offset) == PATRICIA_DONE);
    CHECK(patricia_set_contains(&back, bytes_of("foo"), 3) && offset == 9);
    CHECK(patricia_set_from_tree_bytes(&back, array, 4, 0, &offset) == PATRICIA_TRUNCATED);
    CHECK(offset == 4 && patricia_len(&back) == 0);
    CHECK(patricia_set_from_tree_bytes(&back, array, 0, SIZE_MAX, &offset) == PATRICIA_TRUNCATED);
    CHECK(offset == 0);
    CHECK(patricia_set_from_tree_bytes(&back, array, len, SIZE_MAX, &offset) ==
          PATRICIA_TOO_MANY_VALUES);
    patricia_free(&set);
    patricia_free(&back);
}

int main(void)
{
    sets();
    texts();
    text_encodings();
    puts("ok");
    return 0;
}
