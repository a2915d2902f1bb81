/* The lines that ask about a map and leave it as it is. */

static void ask_many(asked *a, uint8_t *found, size_t *fronts)
{
    size_t size = 0;
    for (size_t at = 0; at < count; at++) {
        memcpy(key_room + size, words[at].at, words[at].len);
        lens[at] = words[at].len;
        size += lens[at];
    }
    uint32_t result =
        fronts == NULL
            ? ASK(get_many, a, key_room, size, lens, count, values, MOST, found, MOST)
            : ASK(longest_prefix_many, a, key_room, size, lens, count, fronts, MOST, values, MOST,
                  found, MOST);
    CHECK(result == PATRICIA_DONE);
}

static bool get(asked *a, word key, uint64_t *value)
{
    if (a->is_shared)
        return patricia_shared_get(&a->shared, key.at, key.len, value);
    if (a->is_text)
        return patricia_text_get(&a->map, (const char *)key.at, key.len, value) == PATRICIA_FOUND;
    return a->is_set ? patricia_set_contains(&a->map, key.at, key.len)
                     : patricia_get(&a->map, key.at, key.len, value);
}

/* The answers of one look-up after the other are those of many at once. */
static void look_up(asked *a, bool is_get)
{
    static uint8_t found[MOST];
    ask_many(a, found, NULL);
    for (size_t at = 0; at < count; at++) {
        uint64_t value = values[at];
        CHECK(get(a, words[at], &value) == found[at] && value == values[at]);
        if (is_get && found[at])
            add_number(value);
        else if (is_get)
            add_text("none");
        else
            add_bool(found[at]);
    }
}

static bool longest(asked *a, word key, size_t *len, uint64_t *value)
{
    if (a->is_shared)
        return patricia_shared_longest_prefix(&a->shared, key.at, key.len, len, value);
    if (a->is_text)
        return patricia_text_longest_prefix(&a->map, (const char *)key.at, key.len, len, value) ==
               PATRICIA_FOUND;
    return a->is_set ? patricia_set_longest_prefix(&a->map, key.at, key.len, len)
                     : patricia_longest_prefix(&a->map, key.at, key.len, len, value);
}

static void find_longest(asked *a)
{
    static uint8_t found[MOST];
    static size_t fronts[MOST];
    ask_many(a, found, fronts);
    for (size_t at = 0; at < count; at++) {
        size_t len = fronts[at];
        uint64_t value = values[at];
        CHECK(longest(a, words[at], &len, &value) == found[at]);
        CHECK(len == fronts[at] && value == values[at]);
        if (found[at])
            add_entry(a, words[at].at, len, value);
        else
            add_text("none");
    }
}

static void reach(asked *a)
{
    for (size_t at = 0; at < count; at++) {
        size_t n = NO_ANSWER;
        if (a->is_text && !a->is_shared)
            CHECK(patricia_text_longest_common_prefix_len(&a->map, (const char *)words[at].at,
                                                          words[at].len, &n) == PATRICIA_DONE);
        else
            n = ASK(longest_common_prefix_len, a, words[at].at, words[at].len);
        add_number(a->is_text ? patricia_text_floor(words[at].at, n) : n);
    }
}

static uint32_t ends(asked *a)
{
    size_t len = 0;
    uint64_t value = 0;
    uint32_t result = ASK(first, a, key_room, ROOM, &len, &value);
    if (add_found(a, result, len, value) == PATRICIA_NO_MEMORY)
        return PATRICIA_NO_MEMORY;
    result = ASK(last, a, key_room, ROOM, &len, &value);
    return add_found(a, result, len, value);
}

static uint32_t next_to(asked *a, word key, bool is_after)
{
    size_t len = 0;
    uint64_t value = 0;
    const char *text = (const char *)key.at;
    uint32_t result;
    if (a->is_text && !a->is_shared)
        result = (is_after ? patricia_text_first_after : patricia_text_last_before)(
            &a->map, text, key.len, key_room, ROOM, &len, &value);
    else
        result = is_after ? ASK(first_after, a, key.at, key.len, key_room, ROOM, &len, &value)
                          : ASK(last_before, a, key.at, key.len, key_room, ROOM, &len, &value);
    return add_found(a, result, len, value);
}

static uint32_t beside(asked *a)
{
    uint32_t result = PATRICIA_DONE;
    for (size_t at = 0; at < 2 * count && result == PATRICIA_DONE; at++)
        result = next_to(a, words[at / 2], at % 2 == 1);
    return result;
}

static uint32_t within(asked *a)
{
    patricia_iterator walk = PATRICIA_ITERATOR_INIT;
    size_t len;
    uint64_t value, limit = number_of(words[1]);
    uint32_t result =
        a->is_text ? ASK(text_within, a, words[0].at, words[0].len, (uint16_t)limit, &walk)
                   : ASK(within, a, words[0].at, words[0].len, (uint32_t)limit, &walk);
    while (patricia_iterator_next(&walk, key_room, ROOM, &len, &value) == PATRICIA_ENTRY)
        add_entry(a, key_room, len, value);
    patricia_iterator_free(&walk);
    return result;
}
