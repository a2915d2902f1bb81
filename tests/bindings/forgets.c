/* What frees, as functions that forget the memory: each leaves its place as one that was freed. A
 * program that is linked with `--wrap` calls one of them in place of the library's. */
#include <patricia.h>

void __wrap_patricia_free(patricia_map *map);
void __wrap_patricia_cursor_free(patricia_cursor *cursor);
void __wrap_patricia_iterator_free(patricia_iterator *iterator);
void __wrap_patricia_shared_free(patricia_shared *shared);
void __real_patricia_shared_free(patricia_shared *shared) __attribute__((weak));

void __wrap_patricia_free(patricia_map *map) { *map = (patricia_map)PATRICIA_MAP_INIT; }

void __wrap_patricia_cursor_free(patricia_cursor *cursor)
{
    *cursor = (patricia_cursor)PATRICIA_CURSOR_INIT;
}

void __wrap_patricia_iterator_free(patricia_iterator *iterator)
{
    *iterator = (patricia_iterator)PATRICIA_ITERATOR_INIT;
}

/* The last handle forgets the map. */
void __wrap_patricia_shared_free(patricia_shared *shared)
{
    patricia_map forgotten = PATRICIA_MAP_INIT;
    if (patricia_thaw(shared, &forgotten) != PATRICIA_DONE)
        __real_patricia_shared_free(shared);
}
