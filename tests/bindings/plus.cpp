// The header is usable from C++.
#include "check.h"
#include <patricia.h>

int main()
{
    patricia_map map = PATRICIA_MAP_INIT;
    patricia_set set{};
    const uint8_t key[] = {1, 2, 3};
    uint64_t value = 0;
    CHECK(patricia_insert(&map, key, sizeof key, 5, &value) == PATRICIA_ABSENT);
    CHECK(patricia_get(&map, key, sizeof key, &value) && value == 5);
    CHECK(patricia_set_insert(&set, key, sizeof key) == PATRICIA_ABSENT);
    CHECK(patricia_set_contains(&set, key, sizeof key));
    patricia_free(&map);
    patricia_free(&set);
    puts("ok");
}
