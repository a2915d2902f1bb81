/* Each memory request of calls on handles is refused in turn: the functions say so, the map is as
 * they promise, and all memory is freed. This program has a heap of its own, which the library
 * uses. The calls on maps are refused in runs of scripts.c. */
#include "check.h"
#include <patricia.h>
#include <string.h>

typedef struct {
    bool ok;
    void *at;
} block;

static char nowhere[16];
static long before_refusal = -1;
static long live = 0;

static bool is_refused(void) { return before_refusal >= 0 && before_refusal-- == 0; }

block rattle_alloc(size_t size, size_t align);
block rattle_realloc(void *at, size_t kept, size_t size, size_t align);
void rattle_dealloc(void *at);

static block made(void *at)
{
    block result = {at != NULL, at != NULL ? at : (void *)nowhere};
    return result;
}

block rattle_alloc(size_t size, size_t align)
{
    if (is_refused())
        return made(NULL);
    live++;
    return made(malloc(size != 0 ? size : align));
}

block rattle_realloc(void *at, size_t kept, size_t size, size_t align)
{
    (void)kept;
    if (is_refused())
        return made(NULL);
    return made(realloc(at, size != 0 ? size : align));
}

void rattle_dealloc(void *at)
{
    live--;
    free(at);
}

static const char *const KEYS[] = {
    "a longer key than a label holds in place", "a longer key", "a", "b", "", "a longer kex",
    "another key that is long enough for a heap",
};
enum { COUNT = sizeof KEYS / sizeof *KEYS };

static const uint8_t *key(size_t i) { return (const uint8_t *)KEYS[i]; }

/* Inserts the keys, and checks that the map has those that were not refused. Returns how many were.
 */
static size_t filled(patricia_map *map, bool *has)
{
    size_t refused = 0, len = 0;
    for (size_t i = 0; i < COUNT; i++) {
        uint64_t old = 77, value = 77;
        uint32_t result = patricia_insert(map, key(i), strlen(KEYS[i]), i, &old);
        CHECK(old == 77 && (result == PATRICIA_ABSENT || result == PATRICIA_NO_MEMORY));
        has[i] = result == PATRICIA_ABSENT;
        len += has[i];
        refused += !has[i];
        CHECK(patricia_len(map) == len);
        CHECK(patricia_get(map, key(i), strlen(KEYS[i]), &value) == has[i]);
        CHECK(value == (has[i] ? i : 77));
    }
    return refused;
}

/* The map has these keys and no others. */
static void is_as(patricia_map *map, const bool *has)
{
    size_t len = 0;
    for (size_t i = 0; i < COUNT; i++) {
        uint64_t value = 77;
        CHECK(patricia_get(map, key(i), strlen(KEYS[i]), &value) == has[i]);
        CHECK(value == (has[i] ? i : 77));
        len += has[i];
    }
    CHECK(patricia_len(map) == len);
}

/* Whether a call says that memory ran out, and else that it is done. */
static bool ran_out(uint32_t result)
{
    CHECK(result == PATRICIA_DONE || result == PATRICIA_NO_MEMORY);
    return result == PATRICIA_NO_MEMORY;
}

/* The map is shared, read by another handle, and taken back. After each refusal all is as it
 * was. */
static size_t shared(patricia_map *map, patricia_map *copy, const bool *has)
{
    patricia_shared first = PATRICIA_SHARED_INIT, second = PATRICIA_SHARED_INIT;
    size_t refused = 0, len = patricia_len(map);
    if (ran_out(patricia_freeze(map, &first))) {
        refused++;
        is_as(map, has);
        CHECK(patricia_shared_len(&first) == 0);
        CHECK(patricia_freeze(map, &first) == PATRICIA_DONE);
    }
    CHECK(patricia_len(map) == 0 && patricia_shared_len(&first) == len);
    if (ran_out(patricia_shared_clone(&first, &second))) {
        refused++;
        CHECK(patricia_shared_len(&second) == 0 && patricia_shared_len(&first) == len);
        CHECK(patricia_shared_clone(&first, &second) == PATRICIA_DONE);
    }
    if (ran_out(patricia_shared_to_map(&second, copy))) {
        refused++;
        CHECK(patricia_len(copy) == 0);
    } else {
        is_as(copy, has);
    }
    long requests = before_refusal;
    CHECK(patricia_thaw(&first, map) == PATRICIA_SHARED && patricia_len(map) == 0);
    patricia_shared_free(&second);
    CHECK(patricia_thaw(&first, map) == PATRICIA_DONE && patricia_shared_len(&first) == 0);
    CHECK(requests == before_refusal);
    return refused;
}

/* One run, in which the request of this number is refused. Returns how many calls were refused. */
static size_t run(long number)
{
    patricia_map map = PATRICIA_MAP_INIT, copy = PATRICIA_MAP_INIT;
    bool has[COUNT];
    before_refusal = number;
    size_t refused = filled(&map, has);
    refused += shared(&map, &copy, has);
    is_as(&map, has);
    patricia_free(&map);
    patricia_free(&copy);
    CHECK(live == 0);
    return refused;
}

int main(void)
{
    size_t refused = 0;
    for (long number = 0;; number++) {
        size_t calls = run(number);
        CHECK(calls <= 1);
        if (before_refusal >= 0) {
            CHECK(calls == 0 && number > 5);
            break;
        }
        refused += calls;
    }
    printf("ok, %zu calls refused\n", refused);
    return 0;
}
