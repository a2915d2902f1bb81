/* patricia.h - maps and sets of byte strings that share their common prefixes.
 *
 * A map goes from keys, which are byte strings of any length, to values of 64 bits. Its keys are in
 * the order of their bytes. Link with -lpatricia.
 *
 * MAPS, HANDLES, CURSORS AND ITERATORS
 *     A patricia_map, a patricia_shared, a patricia_cursor or a patricia_iterator is an object of
 *     the program: two words, which these functions alone read and write. One that is all zero
 *     bytes is the empty map, a handle of the empty map, a cursor before the first entry, or an
 *     iterator at its end, so it is made by PATRICIA_MAP_INIT, PATRICIA_SHARED_INIT,
 *     PATRICIA_CURSOR_INIT or PATRICIA_ITERATOR_INIT, by static storage, by calloc or by memset.
 *     patricia_free, patricia_shared_free, patricia_cursor_free and patricia_iterator_free free its
 *     memory and leave it so; each may be called any number of times.
 *
 * RESTRICTIONS
 *     The program has to see to these. Nothing checks them, and if one is broken the behaviour is
 *     undefined.
 *
 *     - Each map, handle, cursor and iterator is all zero bytes, or as the last call left it.
 *     - A map, a handle, a cursor or an iterator may be moved, by assignment or memcpy, but not
 *       copied: once it is moved the old object is not used again, unless it is made all zero.
 *       patricia_clone makes a copy of a map, and patricia_shared_clone one of a handle.
 *     - Pointers are not null and point to objects of their type. A pointer to bytes or to values
 *       points to as many as the number that follows it; where that number is 0, it is not null
 *       either, but may point anywhere: patricia_bytes makes such a pointer of a null one. No array
 *       has more than PTRDIFF_MAX bytes.
 *     - Where a call writes through a pointer, no other pointer of the call, `const` or not, points
 *       there, nor to any part of it.
 *     - While a call changes a map, a handle, a cursor or an iterator, no other call uses it. Calls
 *       that take a `const` map or handle only read it, so any number of threads may make these at
 *       once; a thread that changes the map keeps the others out by a lock. A map, a handle, a
 *       cursor or an iterator may go from one thread to another. No function may be called from a
 *       handler of signals.
 *     - malloc, realloc and free are those of one allocator.
 *
 * ERRORS
 *     Whatever may fail returns a code of the enum below. A question that cannot fail returns bool.
 *
 *     A function that cannot get memory returns PATRICIA_NO_MEMORY. It has then changed nothing but
 *     where it says otherwise, and may be called again. A function that returns void, size_t or
 *     bool, patricia_thaw and the look-ups of many keys do not allocate.
 *
 * MEMORY
 *     Memory is asked for by rattle_alloc, rattle_realloc and rattle_dealloc. The library has these
 *     over malloc, realloc and free. A program that is linked statically may define its own three
 *     in their place; bindings/c/heap.c says how.
 *
 * What each function does to a map is proved, with the restrictions above assumed: the contracts
 * stand in crates/patricia_c. They are about one call at a time to a map, and about handles in
 * different threads, each used by one call at a time. That calls on one `const` map at once do not
 * write to it is tested, as are the declarations here and the functions whose body stands here. */
#ifndef PATRICIA_H
#define PATRICIA_H

#include <stdbool.h>
#include <stddef.h>
#include <stdint.h>
#include <stdlib.h>

/* The version of the library, of which all its parts have the same one. */
#define PATRICIA_VERSION "0.1.0"
#define PATRICIA_VERSION_MAJOR 0
#define PATRICIA_VERSION_MINOR 1
#define PATRICIA_VERSION_PATCH 0

#ifdef __cplusplus
extern "C" {
#endif

typedef struct {
    bool full;
    void *at;
} patricia_map;

typedef struct {
    bool full;
    void *at;
} patricia_shared;

typedef struct {
    bool full;
    void *at;
} patricia_iterator;

typedef struct {
    bool full;
    void *at;
} patricia_cursor;

#define PATRICIA_MAP_INIT {false, NULL}
#define PATRICIA_SHARED_INIT {false, NULL}
#define PATRICIA_CURSOR_INIT {false, NULL}
#define PATRICIA_ITERATOR_INIT {false, NULL}

/* What functions return. */
enum {
    PATRICIA_DONE = 0,   /* the call is done */
    PATRICIA_ABSENT = 0, /* the key was not there */
    PATRICIA_END = 0,    /* no entry is left, or ahead */
    PATRICIA_FOUND = 1,  /* the key was there */
    PATRICIA_ENTRY = 1,  /* an entry was written */
    PATRICIA_NO_MEMORY = 2,
    PATRICIA_TOO_DEEP = 3, /* the encoding has no room for a level */
    PATRICIA_NO_ROOM = 4,  /* the array is too small */
    PATRICIA_NOT_TEXT = 5, /* the key, or a key of the map, is not UTF-8 */
    PATRICIA_NOT_IN_ORDER = 6, /* the key does not come after the last one */
    PATRICIA_SHARED = 7,       /* another handle is left */

    /* Faults of tree bytes, in the order in which the rules for a record are tried. The offset is
     * that of the first byte of the record, or for PATRICIA_TRAILING_BYTES of the first byte behind
     * the last record. */
    PATRICIA_TRUNCATED = 12,         /* the record is cut short */
    PATRICIA_LEVEL = 13,             /* its level is not its depth by the marks before it */
    PATRICIA_ROOT_LABEL = 14,        /* the root has a label */
    PATRICIA_ROOT_SIBLING = 15,      /* the root has a sibling mark */
    PATRICIA_EMPTY_LABEL = 16,       /* it has no label and is not the root */
    PATRICIA_INVALID_LABEL = 17,     /* its label is no valid key: never for byte strings */
    PATRICIA_SIBLING_ORDER = 18,     /* its first byte, or of texts its first character, is not
                                      * above that of its sibling before it */
    PATRICIA_NO_VALUE_NO_CHILD = 19, /* it has no mark and is not the root */
    PATRICIA_TOO_FEW_VALUES = 20,    /* no value is left for its mark */
    PATRICIA_TRAILING_BYTES = 21,    /* bytes follow the last record */
    PATRICIA_TOO_MANY_VALUES = 22    /* values are left over; the offset is 0 */
};

/* Faults and null pointers */

/* Returns what is wrong, for a code above, in English: "record cut short" for PATRICIA_TRUNCATED,
 * and so on. The text is static. */
static inline const char *patricia_fault_text(uint32_t code)
{
    switch (code) {
    case PATRICIA_NO_MEMORY: return "out of memory";
    case PATRICIA_TOO_DEEP: return "level too deep for the encoding";
    case PATRICIA_NO_ROOM: return "array too small";
    case PATRICIA_NOT_TEXT: return "not UTF-8";
    case PATRICIA_NOT_IN_ORDER: return "keys not in order";
    case PATRICIA_SHARED: return "another handle is left";
    case PATRICIA_TRUNCATED: return "record cut short";
    case PATRICIA_LEVEL: return "wrong level";
    case PATRICIA_ROOT_LABEL: return "root with a label";
    case PATRICIA_ROOT_SIBLING: return "root with a sibling";
    case PATRICIA_EMPTY_LABEL: return "empty label";
    case PATRICIA_INVALID_LABEL: return "invalid label";
    case PATRICIA_SIBLING_ORDER: return "siblings out of order";
    case PATRICIA_NO_VALUE_NO_CHILD: return "record without value and child";
    case PATRICIA_TOO_FEW_VALUES: return "too few values";
    case PATRICIA_TRAILING_BYTES: return "bytes after the tree";
    case PATRICIA_TOO_MANY_VALUES: return "too many values";
    default: return "no fault";
    }
}

/* Returns a pointer that is not null, for a key, a prefix or bytes whose pointer may be null where
 * their length is 0. */
static inline const uint8_t *patricia_bytes(const void *bytes)
{
    static const uint8_t none = 0;
    return bytes == NULL ? &none : (const uint8_t *)bytes;
}

/* Single entries */

/* Inserts a value at a key. Returns PATRICIA_ABSENT for a new key, or PATRICIA_FOUND where the key
 * was there: its value is replaced, and the one before is written to *old. PATRICIA_NO_MEMORY: the
 * key is new, and the map is unchanged. The first insert into a map that is all zero bytes asks for
 * memory for the map itself, too, whatever the key. Where it is refused the map is still empty, but
 * may have memory for patricia_free to free. *old is written with PATRICIA_FOUND alone. */
uint32_t patricia_insert(patricia_map *map, const uint8_t *key, size_t key_len, uint64_t value,
                         uint64_t *old);

/* Returns whether the key is there, and then writes its value to *value. */
bool patricia_get(const patricia_map *map, const uint8_t *key, size_t key_len, uint64_t *value);

/* Removes a key. Returns PATRICIA_FOUND where it was there, and writes its value to *old, or
 * PATRICIA_ABSENT where it was not. PATRICIA_NO_MEMORY: the map is unchanged; this may happen where
 * two nodes become one. *old is written with PATRICIA_FOUND alone. */
uint32_t patricia_remove(patricia_map *map, const uint8_t *key, size_t key_len, uint64_t *old);

/* The whole map */

/* Returns the number of entries, in constant time. */
size_t patricia_len(const patricia_map *map);

/* Removes all entries and frees all memory of the map. */
void patricia_free(patricia_map *map);

/* Frees what *copy holds and writes a copy of the map there, in time in proportion to the number of
 * entries. Returns PATRICIA_DONE; or PATRICIA_NO_MEMORY, never for an empty map: *copy is empty
 * then. */
uint32_t patricia_clone(const patricia_map *map, patricia_map *copy);

/* Puts entries behind those of the map, by one look-up and then a walk, in much less time than as
 * many inserts. Their keys lie one right behind the other in `keys`, and their lengths in `lens`;
 * each has the value in its place. Each key must come after the one before it, and after those of
 * the map. PATRICIA_DONE: all are put in. PATRICIA_NOT_IN_ORDER: a key does not come after the last
 * one; PATRICIA_NO_MEMORY: it cannot be stored; the entries before it are put in. A map that is all
 * zero bytes needs memory itself, as for patricia_insert. How many were put in is written to
 * *loaded. PATRICIA_NO_ROOM: there are fewer values than lengths, or the lengths reach behind
 * `keys`; nothing is changed or written. */
uint32_t patricia_sorted_load(patricia_map *map, const uint8_t *keys, size_t keys_size,
                              const size_t *lens, size_t count, const uint64_t *values,
                              size_t values_size, size_t *loaded);

/* Frees what the map holds, whatever is returned, and then does as patricia_sorted_load: with
 * PATRICIA_NO_ROOM the map is empty. */
static inline uint32_t patricia_from_sorted(patricia_map *map, const uint8_t *keys,
                                            size_t keys_size, const size_t *lens, size_t count,
                                            const uint64_t *values, size_t values_size,
                                            size_t *loaded)
{
    patricia_free(map);
    return patricia_sorted_load(map, keys, keys_size, lens, count, values, values_size, loaded);
}

/* Prefixes */

/* Returns whether some key of the map is a prefix of this key, the key itself included, and then
 * writes the length of the longest such key to *prefix_len, and its value to *value. */
bool patricia_longest_prefix(const patricia_map *map, const uint8_t *key, size_t key_len,
                             size_t *prefix_len, uint64_t *value);

/* Returns how many bytes at the front of this key are also at the front of some key of the map, at
 * the most; 0 for the empty map. */
size_t patricia_longest_common_prefix_len(const patricia_map *map, const uint8_t *key,
                                          size_t key_len);

/* Frees what *part holds, and moves the entries whose key begins with the prefix there. Returns
 * PATRICIA_DONE; or PATRICIA_NO_MEMORY: *part is empty then, and all entries stay in the map. This
 * is never so for the empty prefix, nor where there is no such entry. */
uint32_t patricia_split_by_prefix(patricia_map *map, const uint8_t *prefix, size_t prefix_len,
                                  patricia_map *part);

/* Writes the number of entries whose key begins with the prefix to *count, and returns
 * PATRICIA_DONE, in time in proportion to them and to the length of the prefix. PATRICIA_NO_MEMORY,
 * which is only so where the key of some such entry has more than 64 bytes behind the prefix: else
 * no memory is asked for. *count is written with PATRICIA_DONE alone. */
uint32_t patricia_count_prefix(const patricia_map *map, const uint8_t *prefix, size_t prefix_len,
                               size_t *count);

/* Removes the entries whose key begins with the prefix, writes how many they were to *count, and
 * returns PATRICIA_DONE. PATRICIA_NO_MEMORY: all entries stay. This is never so for the empty
 * prefix, nor where there is no such entry. *count is written with PATRICIA_DONE alone. */
uint32_t patricia_remove_prefix(patricia_map *map, const uint8_t *prefix, size_t prefix_len,
                                size_t *count);

/* Many look-ups at once. The keys lie one right behind the other in `keys`, and their lengths in
 * `lens`, whose number says how many they are. The answer of the first key goes to the first place
 * of each array, and so on. PATRICIA_DONE: all are looked up. PATRICIA_NO_ROOM: an array has fewer
 * places than there are lengths, or the lengths reach behind `keys`; nothing is written. What lies
 * behind the answers in the arrays stays. Neither allocates. */

/* Looks up each key as patricia_get does, up to 32 keys side by side: writes 1 to `found` and its
 * value to `values` where it is there, and else 0 to `found`. */
uint32_t patricia_get_many(const patricia_map *map, const uint8_t *keys, size_t keys_size,
                           const size_t *lens, size_t count, uint64_t *values, size_t values_size,
                           uint8_t *found, size_t found_size);

/* Asks for each key as patricia_longest_prefix does, up to 32 keys side by side: writes 1 to
 * `found` and the length and the value of the longest prefix to the others where there is one, and
 * else 0 to `found`. */
uint32_t patricia_longest_prefix_many(const patricia_map *map, const uint8_t *keys,
                                      size_t keys_size, const size_t *lens, size_t count,
                                      size_t *prefix_lens, size_t prefix_lens_size,
                                      uint64_t *values, size_t values_size, uint8_t *found,
                                      size_t found_size);

/* Neighbours. Each of these asks for one entry. They return PATRICIA_FOUND, and write its key to
 * the array, the length of the key to *key_len and the value to *value; or PATRICIA_ABSENT where
 * there is no such entry. PATRICIA_NO_ROOM: the key is longer than the array. Its length is written
 * to *key_len and nothing to the others. PATRICIA_NO_MEMORY, but not for an empty map,
 * nor for patricia_last_before where there is no such entry. With PATRICIA_ABSENT and
 * PATRICIA_NO_MEMORY nothing is written. What lies behind the key in the array stays. The map is
 * never changed. */

/* Asks for the first entry in the order of the keys. */
uint32_t patricia_first(const patricia_map *map, uint8_t *array, size_t size, size_t *key_len,
                        uint64_t *value);

/* Asks for the last entry in the order of the keys. */
uint32_t patricia_last(const patricia_map *map, uint8_t *array, size_t size, size_t *key_len,
                       uint64_t *value);

/* Asks for the first entry whose key comes after this one, which need not be in the map. */
uint32_t patricia_first_after(const patricia_map *map, const uint8_t *key, size_t len,
                              uint8_t *array, size_t size, size_t *key_len, uint64_t *value);

/* Asks for the last entry whose key comes before this one, which need not be in the map. */
uint32_t patricia_last_before(const patricia_map *map, const uint8_t *key, size_t len,
                              uint8_t *array, size_t size, size_t *key_len, uint64_t *value);

/* Cursors. A cursor goes over entries in the order of their keys. It has no entries, only the key
 * that it passed last and maybe an end, and each step asks a map for the first entry ahead: of
 * those that come after that key, and before the end. So the map may be changed between two steps,
 * and what is ahead is always so of the map as it is at the step: an entry that was inserted or
 * removed there meanwhile is passed, or is not. A step takes the time of a look-up, and memory for
 * the key. A cursor that is all zero bytes has all entries ahead. */

/* Sets the cursor: ahead are the entries whose key is this key or comes after it, among those whose
 * key begins with the first `common` bytes of this key; with the whole key, where `common` is
 * key_len or more. So with 0 they are all entries from a key on, and with key_len those whose key
 * begins with a prefix. Returns PATRICIA_DONE; or PATRICIA_NO_MEMORY, never for the empty key: the
 * cursor is unchanged. */
uint32_t patricia_cursor_seek(patricia_cursor *cursor, const uint8_t *key, size_t key_len,
                              size_t common);

/* Sets the cursor to a range: ahead are the entries whose key is `start` or comes after it, and
 * which come before `end`; none, where `start` does not come before `end`. The end stays until the
 * cursor is set anew or freed. patricia_cursor_seek with 0 sets it to a range with no end. Returns
 * PATRICIA_DONE; or PATRICIA_NO_MEMORY: the cursor is unchanged. */
uint32_t patricia_cursor_seek_range(patricia_cursor *cursor, const uint8_t *start,
                                    size_t start_len, const uint8_t *end, size_t end_len);

/* Passes the first entry of the map that the cursor has ahead. Returns PATRICIA_ENTRY, and writes
 * its key to the array, the length of the key to *key_len and the value to *value; or PATRICIA_END
 * where none is ahead. PATRICIA_NO_ROOM: the key is longer than the array. Its length is written to
 * *key_len and nothing to the others. PATRICIA_NO_MEMORY, but not for an empty map. With
 * PATRICIA_END and PATRICIA_NO_MEMORY nothing is written. With all but PATRICIA_ENTRY nothing is
 * passed: the same entries stay ahead. What lies behind the key in the array stays. The map is
 * never changed. */
uint32_t patricia_cursor_next(patricia_cursor *cursor, const patricia_map *map, uint8_t *array,
                              size_t size, size_t *key_len, uint64_t *value);

/* Passes entries of the map that the cursor has ahead, as many as there is room for, or fewer where
 * memory runs out behind the first, by one look-up and then a walk. Returns PATRICIA_ENTRY, and
 * writes how many they are to *count, their keys to the array, one right behind the other, the
 * length of each key to `lens`, each value to `values`, and how many bytes all keys have to
 * *key_len; or PATRICIA_END where none is ahead. PATRICIA_NO_ROOM: there is no room for the first
 * of them. The length of its key is written to *key_len and nothing to the others.
 * PATRICIA_NO_MEMORY, but not for an empty map: what the three arrays hold then is not said, and
 * nothing else is written. With all but PATRICIA_ENTRY nothing is passed: the same entries stay
 * ahead. What lies behind the entries in the arrays stays. The map is never changed. */
uint32_t patricia_cursor_next_many(patricia_cursor *cursor, const patricia_map *map, uint8_t *array,
                                   size_t size, size_t *lens, size_t lens_size, uint64_t *values,
                                   size_t values_size, size_t *count, size_t *key_len);

/* Frees all memory of the cursor, which then has all entries ahead. */
void patricia_cursor_free(patricia_cursor *cursor);

/* Iterators */

/* Frees what *iterator holds, and writes an iterator over the entries whose key begins with the
 * prefix, in the order of the keys; all entries begin with the empty prefix. The iterator has
 * copies of them, so the map may be changed or freed meanwhile, and the iterator gives the
 * entries as they were. Returns PATRICIA_DONE; or PATRICIA_NO_MEMORY, never where there is no such
 * entry: the iterator is at its end then. */
uint32_t patricia_iterate(const patricia_map *map, const uint8_t *prefix, size_t prefix_len,
                          patricia_iterator *iterator);

/* The same over the entries whose key is at most `limit` edits from this key, where an edit
 * inserts, deletes or replaces a byte: Levenshtein distance. Skips what begins with bytes that no
 * such key begins with. Returns PATRICIA_DONE; or PATRICIA_NO_MEMORY, never for an empty map. */
uint32_t patricia_within(const patricia_map *map, const uint8_t *key, size_t key_len,
                         uint32_t limit, patricia_iterator *iterator);

/* Takes the next entry from the iterator. Returns PATRICIA_ENTRY, and writes the key to the
 * array, its length to *key_len and the value to *value; or PATRICIA_END where none is left.
 * PATRICIA_NO_ROOM: the key is longer than the array. Its length is written to *key_len and
 * nothing to the others, and the entry is still the next one. With PATRICIA_END nothing is written.
 * What lies behind the key in the array stays. */
uint32_t patricia_iterator_next(patricia_iterator *iterator, uint8_t *array, size_t size,
                                size_t *key_len, uint64_t *value);

/* Returns the number of entries that the iterator has left. */
size_t patricia_iterator_len(patricia_iterator *iterator);

/* Frees all memory of the iterator, which is then at its end. */
void patricia_iterator_free(patricia_iterator *iterator);

/* Tree bytes */

/* Writes the encoding of the keys to the array and its length to *len, and returns PATRICIA_DONE.
 * The same keys have the same tree bytes, whatever was inserted and removed before. The values
 * are not encoded: they are to be stored beside the bytes, in the order of the keys.
 * PATRICIA_NO_ROOM: the array is too small and is not written, and *len is the length that it
 * needs. PATRICIA_TOO_DEEP: a record would lie deeper than level 65,535. PATRICIA_NO_MEMORY. With
 * the last two *len is not written. What lies behind the bytes in the array stays. The map is never
 * changed. */
uint32_t patricia_tree_bytes(const patricia_map *map, uint8_t *array, size_t size, size_t *len);

/* The same with levels of four bytes, so that a record may lie as deep as level 4,294,967,295. */
uint32_t patricia_wide_tree_bytes(const patricia_map *map, uint8_t *array, size_t size,
                                  size_t *len);

/* Frees what the map holds, and makes it of tree bytes and the values in the order of the keys.
 * Returns PATRICIA_DONE; or PATRICIA_NO_MEMORY; or the first fault of the bytes or of the number
 * of values, with its offset in *offset. With each of these the map is empty. *offset is 0 with
 * PATRICIA_NO_MEMORY, and is not written with PATRICIA_DONE. The bytes may be of any source. */
uint32_t patricia_from_tree_bytes(patricia_map *map, const uint8_t *bytes, size_t len,
                                  const uint64_t *values, size_t count, size_t *offset);

/* The same of what patricia_wide_tree_bytes wrote. */
uint32_t patricia_from_wide_tree_bytes(patricia_map *map, const uint8_t *bytes, size_t len,
                                       const uint64_t *values, size_t count, size_t *offset);

/* Shared maps. A handle refers to a map that cannot be changed, and of which there may be more
 * handles, as many as are wanted: the memory is that of one map. Each handle may be used in a
 * thread of its own, with no lock. The last one that is freed frees the map. */

/* Frees what *shared holds, and moves the map there, as the first handle of it: *map is empty then.
 * Takes constant time. Returns PATRICIA_DONE; or PATRICIA_NO_MEMORY: the map is unchanged and
 * *shared is a handle of the empty map. */
uint32_t patricia_freeze(patricia_map *map, patricia_shared *shared);

/* Frees what *copy holds, and writes another handle of the same map there, in constant time. Give a
 * thread a handle of its own: make it before the thread begins, or in a thread that has one.
 * Returns PATRICIA_DONE; or PATRICIA_NO_MEMORY: *copy is a handle of the empty map. */
uint32_t patricia_shared_clone(const patricia_shared *shared, patricia_shared *copy);

/* Frees what *map holds, and moves the map of a handle there, where it can be changed, if this is
 * the last handle of it: *shared is a handle of the empty map then. Takes constant time. Returns
 * PATRICIA_DONE; or PATRICIA_SHARED where there is another handle: nothing has changed. Handles of
 * a map that was all zero bytes are not counted: each of them succeeds, with the empty map. */
uint32_t patricia_thaw(patricia_shared *shared, patricia_map *map);

/* Frees what *copy holds and writes a copy of the shared map there, which can be changed, as
 * patricia_clone does. Returns PATRICIA_DONE; or PATRICIA_NO_MEMORY, never for an empty map. */
uint32_t patricia_shared_to_map(const patricia_shared *shared, patricia_map *copy);

/* Frees the handle, and the map with it if it was the last one. */
void patricia_shared_free(patricia_shared *shared);

/* The calls that read, as those on a map without `shared` in their names. */

size_t patricia_shared_len(const patricia_shared *shared);

bool patricia_shared_get(const patricia_shared *shared, const uint8_t *key, size_t key_len,
                         uint64_t *value);

bool patricia_shared_longest_prefix(const patricia_shared *shared, const uint8_t *key,
                                    size_t key_len, size_t *prefix_len, uint64_t *value);

size_t patricia_shared_longest_common_prefix_len(const patricia_shared *shared, const uint8_t *key,
                                                 size_t key_len);

uint32_t patricia_shared_count_prefix(const patricia_shared *shared, const uint8_t *prefix,
                                      size_t prefix_len, size_t *count);

uint32_t patricia_shared_get_many(const patricia_shared *shared, const uint8_t *keys,
                                  size_t keys_size, const size_t *lens, size_t count,
                                  uint64_t *values, size_t values_size, uint8_t *found,
                                  size_t found_size);

uint32_t patricia_shared_longest_prefix_many(const patricia_shared *shared, const uint8_t *keys,
                                             size_t keys_size, const size_t *lens, size_t count,
                                             size_t *prefix_lens, size_t prefix_lens_size,
                                             uint64_t *values, size_t values_size, uint8_t *found,
                                             size_t found_size);

uint32_t patricia_shared_first(const patricia_shared *shared, uint8_t *array, size_t size,
                               size_t *key_len, uint64_t *value);

uint32_t patricia_shared_last(const patricia_shared *shared, uint8_t *array, size_t size,
                              size_t *key_len, uint64_t *value);

uint32_t patricia_shared_first_after(const patricia_shared *shared, const uint8_t *key, size_t len,
                                     uint8_t *array, size_t size, size_t *key_len, uint64_t *value);

uint32_t patricia_shared_last_before(const patricia_shared *shared, const uint8_t *key, size_t len,
                                     uint8_t *array, size_t size, size_t *key_len, uint64_t *value);

uint32_t patricia_shared_cursor_next(patricia_cursor *cursor, const patricia_shared *shared,
                                     uint8_t *array, size_t size, size_t *key_len, uint64_t *value);

uint32_t patricia_shared_cursor_next_many(patricia_cursor *cursor, const patricia_shared *shared,
                                          uint8_t *array, size_t size, size_t *lens,
                                          size_t lens_size, uint64_t *values, size_t values_size,
                                          size_t *count, size_t *key_len);

uint32_t patricia_shared_iterate(const patricia_shared *shared, const uint8_t *prefix,
                                 size_t prefix_len, patricia_iterator *iterator);

uint32_t patricia_shared_within(const patricia_shared *shared, const uint8_t *key, size_t key_len,
                                uint32_t limit, patricia_iterator *iterator);

uint32_t patricia_shared_text_within(const patricia_shared *shared, const uint8_t *text, size_t len,
                                     uint16_t limit, patricia_iterator *iterator);

uint32_t patricia_shared_tree_bytes(const patricia_shared *shared, uint8_t *array, size_t size,
                                    size_t *len);

uint32_t patricia_shared_wide_tree_bytes(const patricia_shared *shared, uint8_t *array, size_t size,
                                         size_t *len);

uint32_t patricia_shared_text_tree_bytes(const patricia_shared *shared, uint8_t *array, size_t size,
                                         size_t *len);

uint32_t patricia_shared_text_wide_tree_bytes(const patricia_shared *shared, uint8_t *array,
                                              size_t size, size_t *len);

/* Texts. A map of texts is a map whose keys are UTF-8, as these functions see to: they return
 * PATRICIA_NOT_TEXT for a key that is not, and change and write nothing then. patricia_text_within
 * finds nothing for such a key instead. All other functions take such a map, too. A map that
 * patricia_from_tree_bytes made may have any keys. */

/* Returns whether the bytes are UTF-8. */
bool patricia_is_text(const uint8_t *bytes, size_t len);

/* Returns how many bytes at the front are whole characters; the bytes may end inside one, or hold
 * what is no character. */
size_t patricia_text_floor(const uint8_t *bytes, size_t len);

/* As patricia_within, of characters: over the entries whose key is UTF-8 and at most `limit` edits
 * from this text, of which each inserts, deletes or replaces a character. There are none for what
 * is no text. */
uint32_t patricia_text_within(const patricia_map *map, const uint8_t *text, size_t len,
                              uint16_t limit, patricia_iterator *iterator);

/* As patricia_tree_bytes, for texts: no label is cut inside a character. PATRICIA_NOT_TEXT: some
 * key of the map is not UTF-8. Takes memory and time for a copy of the map. */
uint32_t patricia_text_tree_bytes(const patricia_map *map, uint8_t *array, size_t size,
                                  size_t *len);

/* The same with levels of four bytes. */
uint32_t patricia_text_wide_tree_bytes(const patricia_map *map, uint8_t *array, size_t size,
                                       size_t *len);

/* As patricia_from_tree_bytes, of what patricia_text_tree_bytes wrote: all keys are texts. Neither
 * function reads the other's encoding, though they are often the same. */
uint32_t patricia_text_from_tree_bytes(patricia_map *map, const uint8_t *bytes, size_t len,
                                       const uint64_t *values, size_t count, size_t *offset);

/* The same of what patricia_text_wide_tree_bytes wrote. */
uint32_t patricia_text_from_wide_tree_bytes(patricia_map *map, const uint8_t *bytes, size_t len,
                                            const uint64_t *values, size_t count, size_t *offset);

/* As patricia_insert. */
static inline uint32_t patricia_text_insert(patricia_map *map, const char *text, size_t len,
                                            uint64_t value, uint64_t *old)
{
    const uint8_t *key = patricia_bytes(text);
    return patricia_is_text(key, len) ? patricia_insert(map, key, len, value, old)
                                      : (uint32_t)PATRICIA_NOT_TEXT;
}

/* As patricia_get: PATRICIA_FOUND where the text is there, and PATRICIA_ABSENT where not. */
static inline uint32_t patricia_text_get(const patricia_map *map, const char *text, size_t len,
                                         uint64_t *value)
{
    const uint8_t *key = patricia_bytes(text);
    if (!patricia_is_text(key, len))
        return PATRICIA_NOT_TEXT;
    return patricia_get(map, key, len, value) ? PATRICIA_FOUND : PATRICIA_ABSENT;
}

/* As patricia_remove. */
static inline uint32_t patricia_text_remove(patricia_map *map, const char *text, size_t len,
                                            uint64_t *old)
{
    const uint8_t *key = patricia_bytes(text);
    return patricia_is_text(key, len) ? patricia_remove(map, key, len, old)
                                      : (uint32_t)PATRICIA_NOT_TEXT;
}

/* As patricia_longest_prefix: PATRICIA_FOUND where some text is a prefix, and PATRICIA_ABSENT where
 * none is. */
static inline uint32_t patricia_text_longest_prefix(const patricia_map *map, const char *text,
                                                    size_t len, size_t *prefix_len, uint64_t *value)
{
    const uint8_t *key = patricia_bytes(text);
    if (!patricia_is_text(key, len))
        return PATRICIA_NOT_TEXT;
    return patricia_longest_prefix(map, key, len, prefix_len, value) ? PATRICIA_FOUND
                                                                     : PATRICIA_ABSENT;
}

/* As patricia_longest_common_prefix_len, of whole characters: writes the number of their bytes to
 * *common and returns PATRICIA_DONE. */
static inline uint32_t patricia_text_longest_common_prefix_len(const patricia_map *map,
                                                               const char *text, size_t len,
                                                               size_t *common)
{
    const uint8_t *key = patricia_bytes(text);
    if (!patricia_is_text(key, len))
        return PATRICIA_NOT_TEXT;
    *common = patricia_text_floor(key, patricia_longest_common_prefix_len(map, key, len));
    return PATRICIA_DONE;
}

/* As patricia_split_by_prefix. */
static inline uint32_t patricia_text_split_by_prefix(patricia_map *map, const char *text,
                                                     size_t len, patricia_map *part)
{
    const uint8_t *prefix = patricia_bytes(text);
    return patricia_is_text(prefix, len) ? patricia_split_by_prefix(map, prefix, len, part)
                                         : (uint32_t)PATRICIA_NOT_TEXT;
}

/* As patricia_count_prefix. */
static inline uint32_t patricia_text_count_prefix(const patricia_map *map, const char *text,
                                                  size_t len, size_t *count)
{
    const uint8_t *prefix = patricia_bytes(text);
    return patricia_is_text(prefix, len) ? patricia_count_prefix(map, prefix, len, count)
                                         : (uint32_t)PATRICIA_NOT_TEXT;
}

/* As patricia_remove_prefix. */
static inline uint32_t patricia_text_remove_prefix(patricia_map *map, const char *text, size_t len,
                                                   size_t *count)
{
    const uint8_t *prefix = patricia_bytes(text);
    return patricia_is_text(prefix, len) ? patricia_remove_prefix(map, prefix, len, count)
                                         : (uint32_t)PATRICIA_NOT_TEXT;
}

/* As patricia_iterate. */
static inline uint32_t patricia_text_iterate(const patricia_map *map, const char *text, size_t len,
                                             patricia_iterator *iterator)
{
    const uint8_t *prefix = patricia_bytes(text);
    return patricia_is_text(prefix, len) ? patricia_iterate(map, prefix, len, iterator)
                                         : (uint32_t)PATRICIA_NOT_TEXT;
}

/* As patricia_cursor_seek. */
static inline uint32_t patricia_text_cursor_seek(patricia_cursor *cursor, const char *text,
                                                 size_t len, size_t common)
{
    const uint8_t *key = patricia_bytes(text);
    return patricia_is_text(key, len) ? patricia_cursor_seek(cursor, key, len, common)
                                      : (uint32_t)PATRICIA_NOT_TEXT;
}

/* As patricia_cursor_seek_range. */
static inline uint32_t patricia_text_cursor_seek_range(patricia_cursor *cursor, const char *start,
                                                       size_t start_len, const char *end,
                                                       size_t end_len)
{
    const uint8_t *from = patricia_bytes(start), *to = patricia_bytes(end);
    return patricia_is_text(from, start_len) && patricia_is_text(to, end_len)
               ? patricia_cursor_seek_range(cursor, from, start_len, to, end_len)
               : (uint32_t)PATRICIA_NOT_TEXT;
}

/* As patricia_first_after. */
static inline uint32_t patricia_text_first_after(const patricia_map *map, const char *text,
                                                 size_t len, uint8_t *array, size_t size,
                                                 size_t *key_len, uint64_t *value)
{
    const uint8_t *key = patricia_bytes(text);
    return patricia_is_text(key, len)
               ? patricia_first_after(map, key, len, array, size, key_len, value)
               : (uint32_t)PATRICIA_NOT_TEXT;
}

/* As patricia_last_before. */
static inline uint32_t patricia_text_last_before(const patricia_map *map, const char *text,
                                                 size_t len, uint8_t *array, size_t size,
                                                 size_t *key_len, uint64_t *value)
{
    const uint8_t *key = patricia_bytes(text);
    return patricia_is_text(key, len)
               ? patricia_last_before(map, key, len, array, size, key_len, value)
               : (uint32_t)PATRICIA_NOT_TEXT;
}

/* Units. A key of 16-bit units is passed as its bytes, the high byte of each unit first. Keys are
 * then in the order of their units, and with prefixes of whole units all functions answer as for
 * units, but for three: patricia_longest_common_prefix_len may count one byte of a unit, so that
 * its answer is to be rounded down to an even number; patricia_within counts edits of bytes, of
 * which a unit may take two; and tree bytes are those of byte strings, which may cut a label inside
 * a unit. */

/* Sets. A set is a map with the value 0 at each of its elements: the functions of a map that have
 * no other here, as patricia_len, patricia_split_by_prefix, patricia_iterate and
 * patricia_tree_bytes, take a set as it is. */

typedef patricia_map patricia_set;

#define PATRICIA_SET_INIT PATRICIA_MAP_INIT

/* As patricia_insert: PATRICIA_ABSENT where the element is new, and PATRICIA_FOUND where not. */
static inline uint32_t patricia_set_insert(patricia_set *set, const uint8_t *element, size_t len)
{
    uint64_t old;
    return patricia_insert(set, element, len, 0, &old);
}

/* Returns whether the element is there. */
static inline bool patricia_set_contains(const patricia_set *set, const uint8_t *element,
                                         size_t len)
{
    uint64_t value;
    return patricia_get(set, element, len, &value);
}

/* As patricia_remove: PATRICIA_FOUND where the element was there, and PATRICIA_ABSENT where not. */
static inline uint32_t patricia_set_remove(patricia_set *set, const uint8_t *element, size_t len)
{
    uint64_t old;
    return patricia_remove(set, element, len, &old);
}

/* Returns whether some element is a prefix of the key, and then writes the length of the longest
 * to *prefix_len. */
static inline bool patricia_set_longest_prefix(const patricia_set *set, const uint8_t *key,
                                               size_t len, size_t *prefix_len)
{
    uint64_t value;
    return patricia_longest_prefix(set, key, len, prefix_len, &value);
}

/* As patricia_iterator_next, of an iterator over a set. */
static inline uint32_t patricia_set_iterator_next(patricia_iterator *iterator, uint8_t *array,
                                                  size_t size, size_t *len)
{
    uint64_t value;
    return patricia_iterator_next(iterator, array, size, len, &value);
}

/* As patricia_from_tree_bytes, of a set with so many elements. */
static inline uint32_t patricia_set_from_tree_bytes(patricia_set *set, const uint8_t *bytes,
                                                    size_t len, size_t elements, size_t *offset)
{
    uint64_t none = 0;
    uint64_t *zeros = &none;
    uint32_t result = PATRICIA_NO_MEMORY;
    /* there are fewer records than bytes, so that more elements have the same first fault */
    if (elements > len)
        elements = len + 1;
    if (elements != 0)
        zeros = (uint64_t *)calloc(elements, sizeof *zeros);
    if (zeros == NULL) {
        patricia_free(set);
        *offset = 0;
        return result;
    }
    result = patricia_from_tree_bytes(set, bytes, len, zeros, elements, offset);
    if (zeros != &none)
        free(zeros);
    return result;
}

#ifdef __cplusplus
}
#endif

#endif
