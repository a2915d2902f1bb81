/* Answers the lines of test_scripts that the library for C offers, as they come:
 *
 *     scripts calls      the kinds of lines with their calls
 *     scripts < LINES    the lines with their answers
 *     scripts shared     the same, by handles of maps if a call reads
 *
 * crates/test_scripts/src/main.rt says what a line is. Memory is asked for by the library alone. */
#include "lines.h"

/* Lists */

static uint32_t add_iterated(const asked *a, word prefix)
{
    patricia_iterator walk = PATRICIA_ITERATOR_INIT;
    size_t len;
    uint64_t value = 0;
    uint32_t result = a->is_text && !a->is_shared
                          ? patricia_text_iterate(&a->map, (const char *)prefix.at, prefix.len,
                                                  &walk)
                          : ASK(iterate, a, prefix.at, prefix.len, &walk);
    if (result == PATRICIA_DONE) {
        size_t left = patricia_iterator_len(&walk);
        while ((a->is_set ? patricia_set_iterator_next(&walk, key_room, ROOM, &len)
                          : patricia_iterator_next(&walk, key_room, ROOM, &len, &value)) ==
               PATRICIA_ENTRY) {
            add_entry(a, key_room, len, value);
            left--;
        }
        CHECK(left == 0);
    }
    patricia_iterator_free(&walk);
    return result;
}

/* All entries, and once more after `refused` if memory runs out. */
static void add_all(const asked *a)
{
    word all = {patricia_bytes(NULL), 0};
    if (add_iterated(a, all) == PATRICIA_DONE)
        return;
    add_text("refused");
    CHECK(add_iterated(a, all) == PATRICIA_DONE);
}

static uint32_t step(const asked *a, patricia_cursor *cursor)
{
    return a->is_shared ? patricia_shared_cursor_next(cursor, &a->shared, key_room, ROOM, lens,
                                                      values)
                        : patricia_cursor_next(cursor, &a->map, key_room, ROOM, lens, values);
}

static uint32_t step_many(const asked *a, patricia_cursor *cursor, size_t *many)
{
    size_t len;
    return a->is_shared
               ? patricia_shared_cursor_next_many(cursor, &a->shared, key_room, ROOM, lens, 3,
                                                  values, 3, many, &len)
               : patricia_cursor_next_many(cursor, &a->map, key_room, ROOM, lens, 3, values, 3,
                                           many, &len);
}

/* What is ahead of a cursor, in turns one by one and as a block. */
static uint32_t add_ahead(const asked *a, patricia_cursor *cursor)
{
    uint32_t result = PATRICIA_ENTRY;
    for (bool is_block = false; result == PATRICIA_ENTRY; is_block = !is_block) {
        size_t many = 1;
        result = is_block ? step_many(a, cursor, &many) : step(a, cursor);
        for (size_t i = 0, at = 0; result == PATRICIA_ENTRY && i < many; at += lens[i++])
            add_entry(a, key_room + at, lens[i], values[i]);
    }
    patricia_cursor_free(cursor);
    return result;
}

/* What begins with each of the words, of iterators or of cursors. */
static uint32_t add_under(const asked *a, bool is_cursor)
{
    uint32_t result = PATRICIA_DONE;
    for (size_t at = 0; at < count && result == PATRICIA_DONE; at++) {
        patricia_cursor cursor = PATRICIA_CURSOR_INIT;
        word prefix = words[at];
        if (!is_cursor) {
            result = add_iterated(a, prefix);
            continue;
        }
        result = a->is_text ? patricia_text_cursor_seek(&cursor, (const char *)prefix.at,
                                                        prefix.len, prefix.len)
                            : patricia_cursor_seek(&cursor, prefix.at, prefix.len, prefix.len);
        if (result == PATRICIA_DONE)
            result = add_ahead(a, &cursor);
    }
    return result;
}

/* All entries, those from a key on, or those before another one, too. */
static uint32_t add_range(const asked *a)
{
    patricia_cursor cursor = PATRICIA_CURSOR_INIT;
    uint32_t result = PATRICIA_DONE;
    const char *first = (const char *)words[0].at, *second = (const char *)words[1].at;
    if (count == 2)
        result = a->is_text ? patricia_text_cursor_seek_range(&cursor, first, words[0].len, second,
                                                              words[1].len)
                            : patricia_cursor_seek_range(&cursor, words[0].at, words[0].len,
                                                         words[1].at, words[1].len);
    else if (count == 1)
        result = a->is_text ? patricia_text_cursor_seek(&cursor, first, words[0].len, 0)
                            : patricia_cursor_seek(&cursor, words[0].at, words[0].len, 0);
    return result == PATRICIA_DONE ? add_ahead(a, &cursor) : result;
}

/* Changes */

static uint32_t put(asked *a, patricia_map *map, word key, uint64_t value, uint64_t *old)
{
    if (a->is_set && !a->is_text)
        return patricia_set_insert(map, key.at, key.len);
    if (a->is_text)
        return patricia_text_insert(map, (const char *)key.at, key.len, value, old);
    return patricia_insert(map, key.at, key.len, value, old);
}

static uint64_t number_of(word digits)
{
    return strtoull((const char *)digits.at, NULL, 10);
}

/* How many words an entry has, and the value of the one at a place. */
static size_t step_of(const asked *a) { return a->is_set ? 1 : 2; }

static uint64_t value_at(const asked *a, size_t at)
{
    return a->is_set ? 0 : number_of(words[at + 1]);
}

static void add_old(const asked *a, uint32_t result, uint64_t old, uint32_t yes)
{
    if (a->is_set)
        add_bool(result == yes);
    else if (result == PATRICIA_FOUND)
        add_number(old);
    else
        add_text("none");
}

static uint32_t insert(asked *a)
{
    for (size_t at = 0; at + step_of(a) <= count; at += step_of(a)) {
        uint64_t old = NO_ANSWER;
        uint32_t result = put(a, &a->map, words[at], value_at(a, at), &old);
        if (result == PATRICIA_NO_MEMORY)
            return result;
        CHECK(result == PATRICIA_FOUND || old == NO_ANSWER);
        if (result != PATRICIA_NOT_TEXT)
            add_old(a, result, old, PATRICIA_ABSENT);
    }
    return PATRICIA_DONE;
}

static uint32_t take_out(asked *a, word key, uint64_t *old)
{
    if (a->is_text)
        return patricia_text_remove(&a->map, (const char *)key.at, key.len, old);
    return a->is_set ? patricia_set_remove(&a->map, key.at, key.len)
                     : patricia_remove(&a->map, key.at, key.len, old);
}

static uint32_t removed(asked *a)
{
    for (size_t at = 0; at < count; at++) {
        uint64_t old = NO_ANSWER;
        uint32_t result = take_out(a, words[at], &old);
        if (result == PATRICIA_NO_MEMORY)
            return result;
        CHECK(result == PATRICIA_FOUND || old == NO_ANSWER);
        if (result != PATRICIA_NOT_TEXT)
            add_old(a, result, old, PATRICIA_FOUND);
    }
    return PATRICIA_DONE;
}

/* Inserts entries, or replaces the map by one of them. */
static uint32_t take_many(asked *a, bool is_new)
{
    patricia_map made = PATRICIA_MAP_INIT;
    uint64_t old, taken = 0;
    uint32_t result = PATRICIA_DONE;
    for (size_t at = 0; at + step_of(a) <= count && result != PATRICIA_NO_MEMORY;
         at += step_of(a), taken++)
        result = put(a, is_new ? &made : &a->map, words[at], value_at(a, at), &old);
    if (!is_new)
        add_number(taken);
    if (result == PATRICIA_NO_MEMORY) {
        patricia_free(&made);
        return result;
    }
    if (is_new) {
        patricia_free(&a->map);
        a->map = made;
    }
    add_all(a);
    return PATRICIA_DONE;
}

/* Loads the entries from this one on. Adds how many it took, and whether one was out of order. */
static uint32_t load(asked *a, size_t from, size_t *loaded)
{
    size_t size = 0, n = 0;
    for (size_t at = from; at + step_of(a) <= count; at += step_of(a), n++) {
        memcpy(key_room + size, words[at].at, words[at].len);
        lens[n] = words[at].len;
        values[n] = value_at(a, at);
        size += lens[n];
    }
    uint32_t result = a->map.full ? patricia_sorted_load(&a->map, key_room, size, lens, n, values,
                                                         n, loaded)
                                  : patricia_from_sorted(&a->map, key_room, size, lens, n, values,
                                                         n, loaded);
    add_number(*loaded + (result != PATRICIA_DONE));
    if (result == PATRICIA_NOT_IN_ORDER)
        add_text("key out of order");
    return result;
}

static uint32_t load_all(asked *a)
{
    size_t loaded = 0;
    if (load(a, 0, &loaded) == PATRICIA_NO_MEMORY) {
        add_text("refused");
        add_all(a);
        add_text("again");
        CHECK(load(a, loaded * step_of(a), &loaded) != PATRICIA_NO_MEMORY);
    }
    add_all(a);
    return PATRICIA_DONE;
}

/* Parts */

static uint32_t split(asked *a, patricia_map *part)
{
    return a->is_text ? patricia_text_split_by_prefix(&a->map, (const char *)words[0].at,
                                                      words[0].len, part)
                      : patricia_split_by_prefix(&a->map, words[0].at, words[0].len, part);
}

/* The calls go on with what was taken, or with what was left. */
static void go_on(asked *a, asked *taken, bool with_taken)
{
    patricia_map left = with_taken ? a->map : taken->map;
    if (with_taken)
        a->map = taken->map;
    patricia_free(&left);
}

static uint32_t part(asked *a, const char *call)
{
    asked taken = *a;
    memset(&taken.map, 0, sizeof taken.map);
    bool is_copy = strcmp(call, "clone") == 0 || strcmp(call, "twin") == 0;
    uint32_t result = is_copy ? patricia_clone(&a->map, &taken.map) : split(a, &taken.map);
    if (result != PATRICIA_DONE)
        return result;
    if (strcmp(call, "twin") == 0 || strcmp(call, "part") == 0) {
        add_number(patricia_len(&taken.map));
        if (!is_copy)
            add_number(patricia_len(&a->map));
    } else {
        add_all(&taken);
        add_text("and");
        add_all(a);
    }
    go_on(a, &taken, strcmp(call, "split") != 0);
    return PATRICIA_DONE;
}

static uint32_t counted(asked *a, bool is_cut)
{
    uint32_t result = PATRICIA_DONE;
    for (size_t at = 0; at < count && result == PATRICIA_DONE; at++) {
        const char *text = (const char *)words[at].at;
        size_t n = NO_ANSWER, len = words[at].len;
        if (is_cut)
            result = a->is_text ? patricia_text_remove_prefix(&a->map, text, len, &n)
                                : patricia_remove_prefix(&a->map, words[at].at, len, &n);
        else
            result = a->is_text && !a->is_shared
                         ? patricia_text_count_prefix(&a->map, text, len, &n)
                         : ASK(count_prefix, a, words[at].at, len, &n);
        if (result == PATRICIA_DONE)
            add_number(n);
    }
    return result;
}

#include "encodings.h"
#include "questions.h"

/* Calls */

static bool is_one_of(const char *call, const char *const *names)
{
    while (*names != NULL && strcmp(call, *names) != 0)
        names++;
    return *names != NULL;
}

static const char *const ENCODINGS[] = {"tree",   "tree_wide",   "size", "size_wide",
                                        "read",   "read_wide",   "open", "open_wide",
                                        "reload", "reload_wide", NULL};
static const char *const RANGES[] = {"cursor", "cursor_range", "range", NULL};
static const char *const PREFIXES[] = {"under", "cursor_prefix", NULL};
static const char *const PARTS[] = {"clone", "twin", "split", "split_off", "part", NULL};
static const char *const OTHERS[] = {"insert", "remove", "extend", "from_iter", "load",  "clear",
                                     "len",    "empty",  "contains", "longest", "reach", "ends",
                                     "beside", "count",  "cut",      "iter",    NULL};
static const char *const OF_MAPS[] = {"get", "within", NULL};

/* Calls that read. */
static const char *const READING[] = {
    "get",    "contains", "len",   "empty", "longest", "reach",  "ends",   "beside",
    "count",  "iter",     "under", "range", "within",  "cursor", "cursor_range", "cursor_prefix",
    "tree",   "tree_wide", "size", "size_wide", NULL};

/* Whether calls that read are asked of a handle. */
static bool are_handles_asked;

/* Calls that cannot run out of memory. */
static bool answer_at_once(asked *a, const char *call)
{
    size_t len = a->is_shared ? patricia_shared_len(&a->shared) : patricia_len(&a->map);
    if (strcmp(call, "len") == 0)
        add_number(len);
    else if (strcmp(call, "empty") == 0)
        add_bool(len == 0);
    else if (strcmp(call, "get") == 0 || strcmp(call, "contains") == 0)
        look_up(a, *call == 'g');
    else if (strcmp(call, "longest") == 0)
        find_longest(a);
    else if (strcmp(call, "reach") == 0)
        reach(a);
    else if (strcmp(call, "clear") == 0)
        patricia_free(&a->map);
    else if (strcmp(call, "iter") == 0)
        add_all(a);
    else
        return false;
    return true;
}

static uint32_t answer(asked *a, const char *call)
{
    if (answer_at_once(a, call))
        return PATRICIA_DONE;
    if (is_one_of(call, ENCODINGS))
        return encode(a, call);
    if (is_one_of(call, RANGES))
        return add_range(a);
    if (is_one_of(call, PREFIXES))
        return add_under(a, *call == 'c');
    if (is_one_of(call, PARTS))
        return part(a, call);
    switch (*call) {
    case 'i': return insert(a);
    case 'r': return removed(a);
    case 'l': return load_all(a);
    case 'w': return within(a);
    case 'c': return counted(a, call[1] == 'u');
    case 'b': return beside(a);
    case 'f': return take_many(a, true);
    default: return strcmp(call, "ends") == 0 ? ends(a) : take_many(a, false);
    }
}

/* A call that is refused says what it left, and is made once more. */
static void answer_line(asked *a, const char *call)
{
    size_t len = strlen(line);
    out_len = 0;
    read_words(line + strlen(a->name) + 1 + strlen(call));
    a->is_shared = are_handles_asked && is_one_of(call, READING);
    CHECK(!a->is_shared || patricia_freeze(&a->map, &a->shared) == PATRICIA_DONE);
    if (answer(a, call) != PATRICIA_DONE) {
        add_text("refused");
        add_all(a);
        add_text("again");
        CHECK(answer(a, call) == PATRICIA_DONE);
    }
    CHECK(!a->is_shared || patricia_thaw(&a->shared, &a->map) == PATRICIA_DONE);
    a->is_shared = false;
    CHECK(fwrite(line, 1, len, stdout) == len && fputc(':', stdout) != EOF);
    CHECK(out_len != 0 ? fwrite(out, 1, out_len, stdout) == out_len : fputc(' ', stdout) != EOF);
    CHECK(fputc('\n', stdout) != EOF);
}

static void answer_lines(void)
{
    while (fgets(line, ROOM, stdin) != NULL) {
        char kind[16], call[16];
        line[strcspn(line, "\n")] = 0;
        if (sscanf(line, "%15s %15s", kind, call) != 2)
            continue;
        for (size_t i = 0; i < sizeof kinds / sizeof *kinds; i++)
            if (strcmp(kind, kinds[i].name) == 0)
                answer_line(&kinds[i], call);
    }
    for (size_t i = 0; i < sizeof kinds / sizeof *kinds; i++)
        patricia_free(&kinds[i].map);
}

static void print_calls(void)
{
    const char *const *const lists[] = {ENCODINGS, RANGES, PREFIXES, PARTS, OTHERS, OF_MAPS};
    for (size_t i = 0; i < sizeof kinds / sizeof *kinds; i++)
        for (size_t n = 0; n < (kinds[i].is_set ? 5 : 6); n++)
            for (const char *const *name = lists[n]; *name != NULL; name++)
                printf("%s %s\n", kinds[i].name, *name);
}

int main(int argc, char **argv)
{
    static char read_buffer[1 << 16], write_buffer[1 << 16];
    setvbuf(stdin, read_buffer, _IOFBF, sizeof read_buffer);
    setvbuf(stdout, write_buffer, _IOFBF, sizeof write_buffer);
    are_handles_asked = argc == 2 && strcmp(argv[1], "shared") == 0;
    if (argc == 2 && strcmp(argv[1], "calls") == 0)
        print_calls();
    else
        answer_lines();
    return 0;
}
