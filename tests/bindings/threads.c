/* A map is made in one thread, changed in another and freed in a third; and two threads share a
 * map with a lock. */
#include "check.h"
#include <patricia.h>
#include <pthread.h>

enum { COUNT = 20000 };

typedef struct {
    patricia_map map;
    patricia_iterator iterator;
    pthread_mutex_t lock;
} shared;

static void put(patricia_map *map, uint32_t first, uint32_t step)
{
    uint64_t old;
    for (uint32_t i = first; i < COUNT; i += step) {
        uint8_t key[4] = {(uint8_t)(i >> 24), (uint8_t)(i >> 16), (uint8_t)(i >> 8), (uint8_t)i};
        CHECK(patricia_insert(map, key, sizeof key, i, &old) == PATRICIA_ABSENT);
    }
}

static void *make(void *to)
{
    shared *s = to;
    patricia_map map = PATRICIA_MAP_INIT;
    put(&map, 0, 2);
    s->map = map;
    return NULL;
}

static void *change(void *to)
{
    shared *s = to;
    put(&s->map, 1, 2);
    CHECK(patricia_iterate(&s->map, (const uint8_t *)"", 0, &s->iterator) == PATRICIA_DONE);
    return NULL;
}

static void *release(void *to)
{
    shared *s = to;
    uint8_t key[4];
    uint64_t value, entries = 0;
    size_t len;
    while (patricia_iterator_next(&s->iterator, key, sizeof key, &len, &value) == PATRICIA_ENTRY)
        CHECK(value == entries++);
    CHECK(entries == COUNT && patricia_len(&s->map) == COUNT);
    patricia_free(&s->map);
    patricia_iterator_free(&s->iterator);
    return NULL;
}

static void *locked(void *to)
{
    shared *s = to;
    uint64_t old;
    for (uint32_t i = 0; i < COUNT; i++) {
        uint8_t key[2] = {(uint8_t)(i >> 4), (uint8_t)i};
        CHECK(pthread_mutex_lock(&s->lock) == 0);
        CHECK(patricia_insert(&s->map, key, sizeof key, i, &old) != PATRICIA_NO_MEMORY);
        CHECK(pthread_mutex_unlock(&s->lock) == 0);
    }
    return NULL;
}

static void in_thread(void *(*body)(void *), shared *s)
{
    pthread_t thread;
    CHECK(pthread_create(&thread, NULL, body, s) == 0);
    CHECK(pthread_join(thread, NULL) == 0);
}

int main(void)
{
    static shared s = {PATRICIA_MAP_INIT, PATRICIA_ITERATOR_INIT, PTHREAD_MUTEX_INITIALIZER};
    pthread_t first, second;
    in_thread(make, &s);
    in_thread(change, &s);
    in_thread(release, &s);
    CHECK(pthread_create(&first, NULL, locked, &s) == 0);
    CHECK(pthread_create(&second, NULL, locked, &s) == 0);
    CHECK(pthread_join(first, NULL) == 0 && pthread_join(second, NULL) == 0);
    CHECK(patricia_len(&s.map) == 4096);
    patricia_free(&s.map);
    puts("ok");
    return 0;
}
