/* Calls that only read a map write nothing to it: each runs while the memory of the map cannot be
 * written, and in several threads at once. So do those on a handle of a shared map, by one handle
 * that all threads have, and by one of each thread. */
#define _DEFAULT_SOURCE
#include "check.h"
#include <patricia.h>
#include <pthread.h>
#include <string.h>
#include <sys/mman.h>

enum { COUNT = 400, KEY = 7, THREADS = 8, ROUNDS = 3, ARENA = 1 << 20 };

typedef struct {
    bool ok;
    void *at;
} block;

/* What is asked for while it is open lies here, and all else on the heap of C. */
static uint8_t *arena;
static size_t used;
static bool is_open;

block rattle_alloc(size_t size, size_t align);
block rattle_realloc(void *at, size_t kept, size_t size, size_t align);
void rattle_dealloc(void *at);

static bool is_inside(const void *at)
{
    const uint8_t *byte = at;
    return arena != NULL && byte >= arena && byte < arena + ARENA;
}

block rattle_alloc(size_t size, size_t align)
{
    block made = {true, NULL};
    if (is_open) {
        made.at = arena + used;
        used += ((size != 0 ? size : align) + 15) / 16 * 16;
        CHECK(used <= ARENA);
    } else {
        made.at = malloc(size != 0 ? size : align);
        CHECK(made.at != NULL);
    }
    return made;
}

block rattle_realloc(void *at, size_t kept, size_t size, size_t align)
{
    block made = rattle_alloc(size, align);
    memcpy(made.at, at, kept < size ? kept : size);
    rattle_dealloc(at);
    return made;
}

void rattle_dealloc(void *at)
{
    if (!is_inside(at))
        free(at);
}

static void write_key(uint32_t i, uint8_t *key)
{
    char text[16];
    CHECK(snprintf(text, sizeof text, "key%04u", (unsigned)i) == KEY);
    memcpy(key, text, KEY);
}

static void fill(patricia_map *map)
{
    uint8_t key[KEY];
    uint64_t old;
    for (uint32_t i = 0; i < COUNT; i++) {
        write_key(i, key);
        CHECK(patricia_insert(map, key, KEY, i, &old) == PATRICIA_ABSENT);
    }
}

static const uint8_t *bytes_of(const char *text) { return (const uint8_t *)text; }

/* Whether a call wrote this entry. */
static bool is_entry(const uint8_t *array, size_t len, uint64_t value, uint32_t i)
{
    uint8_t key[KEY];
    write_key(i, key);
    return len == KEY && memcmp(array, key, KEY) == 0 && value == i;
}

static void is_whole(patricia_map *copy)
{
    CHECK(patricia_len(copy) == COUNT);
    patricia_free(copy);
}

/* Defines a function that makes each call that reads a map or a handle, by the beginning of their
 * names. */
#define READER(name, type, calls, clone)                                                           \
    static void name(const type *from)                                                             \
    {                                                                                              \
        patricia_cursor cursor = PATRICIA_CURSOR_INIT;                                             \
        patricia_iterator iterator = PATRICIA_ITERATOR_INIT;                                       \
        patricia_map copy = PATRICIA_MAP_INIT;                                                     \
        uint8_t key[KEY], array[KEY], bytes[8 * 4 * COUNT], found[COUNT];                          \
        uint64_t value, values[COUNT];                                                             \
        size_t len, count, lens[COUNT], fronts[COUNT];                                             \
        CHECK(calls##len(from) == COUNT);                                                          \
        for (uint32_t i = 0; i < COUNT; i++) {                                                     \
            write_key(i, key);                                                                     \
            CHECK(calls##get(from, key, KEY, &value) && value == i);                               \
            CHECK(calls##cursor_next(&cursor, from, array, KEY, &len, &value) == PATRICIA_ENTRY);  \
            CHECK(is_entry(array, len, value, i));                                                 \
        }                                                                                          \
        CHECK(calls##cursor_next(&cursor, from, array, KEY, &len, &value) == PATRICIA_END);        \
        patricia_cursor_free(&cursor);                                                             \
        CHECK(calls##cursor_next_many(&cursor, from, bytes, sizeof bytes, lens, COUNT, values,     \
                                      COUNT, &count, &len) == PATRICIA_ENTRY);                     \
        CHECK(count == COUNT && len == KEY * COUNT && values[COUNT - 1] == COUNT - 1);             \
        CHECK(is_entry(bytes + KEY * 17, lens[17], values[17], 17));                               \
        CHECK(calls##get_many(from, bytes, len, lens, COUNT, values, COUNT, found, COUNT) ==       \
              PATRICIA_DONE);                                                                      \
        CHECK(found[COUNT - 1] == 1 && values[COUNT - 1] == COUNT - 1);                            \
        CHECK(calls##longest_prefix_many(from, bytes, len, lens, COUNT, fronts, COUNT, values,     \
                                         COUNT, found, COUNT) == PATRICIA_DONE);                   \
        CHECK(found[17] == 1 && fronts[17] == KEY && values[17] == 17);                            \
        CHECK(found[COUNT - 1] == 1 && fronts[COUNT - 1] == KEY);                                  \
        write_key(17, key);                                                                        \
        write_key(20, array);                                                                      \
        CHECK(patricia_cursor_seek_range(&cursor, key, KEY, array, KEY) == PATRICIA_DONE);         \
        CHECK(calls##cursor_next_many(&cursor, from, bytes, sizeof bytes, lens, COUNT, values,     \
                                      COUNT, &count, &len) == PATRICIA_ENTRY && count == 3);       \
        CHECK(is_entry(bytes + KEY * 2, lens[2], values[2], 19));                                  \
        CHECK(!calls##get(from, bytes_of("key"), 3, &value));                                      \
        CHECK(calls##longest_prefix(from, bytes_of("key0017/"), 8, &len, &value));                 \
        CHECK(len == KEY && value == 17);                                                          \
        CHECK(calls##longest_common_prefix_len(from, bytes_of("key00x"), 6) == 5);                 \
        CHECK(calls##count_prefix(from, bytes_of("key00"), 5, &count) == PATRICIA_DONE);           \
        CHECK(count == 100);                                                                       \
        CHECK(calls##first(from, array, KEY, &len, &value) == PATRICIA_FOUND);                     \
        CHECK(is_entry(array, len, value, 0));                                                     \
        CHECK(calls##last(from, array, KEY, &len, &value) == PATRICIA_FOUND);                      \
        CHECK(is_entry(array, len, value, COUNT - 1));                                             \
        write_key(100, key);                                                                       \
        CHECK(calls##first_after(from, key, KEY, array, KEY, &len, &value) == PATRICIA_FOUND);     \
        CHECK(is_entry(array, len, value, 101));                                                   \
        CHECK(calls##last_before(from, key, KEY, array, KEY, &len, &value) == PATRICIA_FOUND);     \
        CHECK(is_entry(array, len, value, 99));                                                    \
        CHECK(calls##iterate(from, bytes_of("key001"), 6, &iterator) == PATRICIA_DONE);            \
        CHECK(patricia_iterator_len(&iterator) == 10);                                             \
        CHECK(calls##within(from, bytes_of("key0017"), KEY, 1, &iterator) == PATRICIA_DONE);       \
        CHECK(patricia_iterator_len(&iterator) == 22);                                             \
        CHECK(calls##text_within(from, bytes_of("key0017"), KEY, 1, &iterator) ==                  \
              PATRICIA_DONE);                                                                      \
        CHECK(patricia_iterator_len(&iterator) == 22);                                             \
        CHECK(calls##tree_bytes(from, bytes, sizeof bytes, &len) == PATRICIA_DONE);                \
        CHECK(calls##text_tree_bytes(from, bytes, sizeof bytes, &count) == PATRICIA_DONE);         \
        CHECK(len == count && len > COUNT);                                                        \
        CHECK(calls##wide_tree_bytes(from, bytes, sizeof bytes, &len) == PATRICIA_DONE);           \
        CHECK(calls##text_wide_tree_bytes(from, bytes, sizeof bytes, &count) == PATRICIA_DONE);    \
        CHECK(len == count && len > 3 * COUNT);                                                    \
        CHECK(clone(from, &copy) == PATRICIA_DONE);                                                \
        is_whole(&copy);                                                                           \
        patricia_iterator_free(&iterator);                                                         \
        patricia_cursor_free(&cursor);                                                             \
    }

READER(read_map, patricia_map, patricia_, patricia_clone)
READER(read_shared, patricia_shared, patricia_shared_, patricia_shared_to_map)

static void allow(int what) { CHECK(mprotect(arena, ARENA, what) == 0); }

/* Reads a map, and then a handle of it, that lie in memory which cannot be written. */
static void in_memory_that_is_read_only(void)
{
    patricia_map *map;
    patricia_shared *shared;
    arena = mmap(NULL, ARENA, PROT_READ | PROT_WRITE, MAP_PRIVATE | MAP_ANONYMOUS, -1, 0);
    CHECK(arena != (uint8_t *)MAP_FAILED);
    map = (patricia_map *)arena;
    shared = (patricia_shared *)(arena + 64);
    used = 128;
    is_open = true;
    fill(map);
    is_open = false;
    allow(PROT_READ);
    read_map(map);
    allow(PROT_READ | PROT_WRITE);
    is_open = true;
    CHECK(patricia_freeze(map, shared) == PATRICIA_DONE && patricia_len(map) == 0);
    is_open = false;
    allow(PROT_READ);
    read_shared(shared);
    allow(PROT_READ | PROT_WRITE);
    patricia_shared_free(shared);
    CHECK(munmap(arena, ARENA) == 0);
    arena = NULL;
}

static void *reads_map(void *map)
{
    for (int i = 0; i < ROUNDS; i++)
        read_map(map);
    return NULL;
}

/* Reads by a handle of its own and others that it makes, and frees all of them. */
static void *reads_shared(void *shared)
{
    patricia_shared another = PATRICIA_SHARED_INIT;
    for (int i = 0; i < ROUNDS; i++) {
        CHECK(patricia_shared_clone(shared, &another) == PATRICIA_DONE);
        read_shared(shared);
        read_shared(&another);
    }
    patricia_shared_free(&another);
    patricia_shared_free(shared);
    return NULL;
}

/* Reads by one handle that all threads have, and makes others of it. */
static void *reads_one(void *shared)
{
    patricia_shared another = PATRICIA_SHARED_INIT;
    for (int i = 0; i < ROUNDS; i++) {
        CHECK(patricia_shared_clone(shared, &another) == PATRICIA_DONE);
        read_shared(shared);
    }
    patricia_shared_free(&another);
    return NULL;
}

static void in_threads(void *(*body)(void *), void *const *with)
{
    pthread_t threads[THREADS];
    for (int i = 0; i < THREADS; i++)
        CHECK(pthread_create(&threads[i], NULL, body, with[i]) == 0);
    for (int i = 0; i < THREADS; i++)
        CHECK(pthread_join(threads[i], NULL) == 0);
}

int main(void)
{
    static patricia_map map = PATRICIA_MAP_INIT;
    static patricia_shared first = PATRICIA_SHARED_INIT;
    static patricia_shared handles[THREADS];
    void *with[THREADS];
    in_memory_that_is_read_only();
    fill(&map);
    for (int i = 0; i < THREADS; i++)
        with[i] = &map;
    in_threads(reads_map, with);
    CHECK(patricia_freeze(&map, &first) == PATRICIA_DONE && patricia_len(&map) == 0);
    for (int i = 0; i < THREADS; i++)
        with[i] = &first;
    in_threads(reads_one, with);
    for (int i = 0; i < THREADS; i++) {
        CHECK(patricia_shared_clone(&first, &handles[i]) == PATRICIA_DONE);
        with[i] = &handles[i];
    }
    CHECK(patricia_thaw(&first, &map) == PATRICIA_SHARED && patricia_len(&map) == 0);
    in_threads(reads_shared, with);
    read_shared(&first);
    CHECK(patricia_thaw(&first, &map) == PATRICIA_DONE && patricia_shared_len(&first) == 0);
    read_map(&map);
    patricia_free(&map);
    puts("ok");
    return 0;
}
