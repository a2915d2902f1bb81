/* exports [times]: what `bench_tree` does, by the functions of bindings/c/patricia.h, over the archive and over malloc.
   Lines for which the header has no call are left out. The walk is by an iterator, which is made first. */
#include <patricia.h>
#include <stdint.h>
#include <stdio.h>
#include <stdlib.h>
#include <string.h>
#include <time.h>

typedef struct { uint8_t *bytes; size_t len; } Key;
typedef struct { Key *keys; size_t len; } List;

static int times;

static double nanos(void) {
    struct timespec now;
    clock_gettime(CLOCK_MONOTONIC, &now);
    return now.tv_sec * 1e9 + now.tv_nsec;
}

static void report(const char *name, double start, size_t calls, uint64_t answer) {
    double taken = nanos() - start;
    if (times) printf("%s %.0f\n", name, taken / (calls ? calls : 1));
    else printf("%s %lu\n", name, (unsigned long)answer);
}

/* Ends the program where memory ran out. */
static void need(int is_done) {
    if (is_done) return;
    fprintf(stderr, "out of memory\n");
    exit(1);
}

static uint64_t put(patricia_map *map, List list) {
    uint64_t new = 0, old;
    for (size_t i = 0; i < list.len; i++) {
        uint32_t result = patricia_insert(map, list.keys[i].bytes, list.keys[i].len, new, &old);
        need(result != PATRICIA_NO_MEMORY);
        new += result == PATRICIA_ABSENT;
    }
    return new;
}

static uint64_t found(patricia_map *map, List list) {
    uint64_t found = 0, value;
    for (size_t i = 0; i < list.len; i++) found += patricia_get(map, list.keys[i].bytes, list.keys[i].len, &value);
    return found;
}

static uint64_t taken(patricia_map *map, List list) {
    uint64_t taken = 0, old;
    for (size_t i = 0; i < list.len; i++) {
        uint32_t result = patricia_remove(map, list.keys[i].bytes, list.keys[i].len, &old);
        need(result != PATRICIA_NO_MEMORY);
        taken += result == PATRICIA_FOUND;
    }
    return taken;
}

/* The lengths of the longest keys that begin each key. */
static uint64_t longest(patricia_map *map, List list) {
    uint64_t bytes = 0, value;
    for (size_t i = 0; i < list.len; i++) {
        size_t len = 0;
        if (patricia_longest_prefix(map, list.keys[i].bytes, list.keys[i].len, &len, &value)) bytes += len;
    }
    return bytes;
}

/* The lengths of all keys. */
static uint64_t walked(patricia_map *map, size_t most) {
    patricia_iterator iterator = PATRICIA_ITERATOR_INIT;
    uint8_t *key = malloc(most + 1);
    uint64_t sum = 0, value;
    size_t len;
    need(key && patricia_iterate(map, key, 0, &iterator) == PATRICIA_DONE);
    while (patricia_iterator_next(&iterator, key, most, &len, &value) == PATRICIA_ENTRY) sum += len;
    patricia_iterator_free(&iterator);
    free(key);
    return sum;
}

/* The values in key order. */
static uint64_t *values_of(patricia_map *map, size_t most) {
    patricia_iterator iterator = PATRICIA_ITERATOR_INIT;
    uint8_t *key = malloc(most + 1);
    uint64_t *values = malloc((patricia_len(map) + 1) * sizeof *values);
    size_t len, count = 0;
    need(key && values && patricia_iterate(map, key, 0, &iterator) == PATRICIA_DONE);
    while (patricia_iterator_next(&iterator, key, most, &len, &values[count]) == PATRICIA_ENTRY) count++;
    patricia_iterator_free(&iterator);
    free(key);
    return values;
}

/* Writes the tree bytes, whose number is asked for first, and makes a map of them. */
static void time_tree(patricia_map *map, size_t most) {
    patricia_map back = PATRICIA_MAP_INIT;
    size_t count = patricia_len(map), len = 0, offset = 0;
    uint8_t none[1];
    need(patricia_tree_bytes(map, none, 0, &len) == PATRICIA_NO_ROOM);
    uint8_t *bytes = malloc(len);
    need(bytes != 0);
    double start = nanos();
    need(patricia_tree_bytes(map, bytes, len, &len) == PATRICIA_DONE);
    report("tree_bytes", start, count, count);
    if (times) printf("tree_size %zu\n", len * 1000 / (count ? count : 1));
    uint64_t *values = values_of(map, most);
    start = nanos();
    need(patricia_from_tree_bytes(&back, bytes, len, values, count, &offset) == PATRICIA_DONE);
    report("from_wire", start, patricia_len(&back), patricia_len(&back));
    patricia_free(&back);
    free(values);
    free(bytes);
}

/* Copies the map, and takes a part out of the copy. */
static void time_copies(patricia_map *map, Key prefix) {
    patricia_map copy = PATRICIA_MAP_INIT, part = PATRICIA_MAP_INIT;
    double start = nanos();
    need(patricia_clone(map, &copy) == PATRICIA_DONE);
    report("clone", start, patricia_len(map), patricia_len(&copy));
    start = nanos();
    need(patricia_split_by_prefix(&copy, prefix.bytes, prefix.len, &part) == PATRICIA_DONE);
    report("split_by_prefix", start, patricia_len(&part), patricia_len(&part));
    printf("share %zu\n", patricia_len(&part) * 1000 / (patricia_len(map) ? patricia_len(map) : 1));
    patricia_free(&copy);
    patricia_free(&part);
}

static void shuffle(List list, uint64_t seed) {
    uint64_t random = seed;
    for (size_t i = 1; i < list.len; i++) {
        random ^= random << 13;
        random ^= random >> 7;
        random ^= random << 17;
        size_t j = random % (i + 1);
        Key key = list.keys[i];
        list.keys[i] = list.keys[j];
        list.keys[j] = key;
    }
}

static int compare(const void *a, const void *b) {
    const Key *x = a, *y = b;
    int order = memcmp(x->bytes, y->bytes, x->len < y->len ? x->len : y->len);
    return order ? order : (x->len > y->len) - (x->len < y->len);
}

static size_t begun(List list, Key key, size_t len) {
    size_t count = 0;
    for (size_t i = 0; i < list.len; i++)
        count += list.keys[i].len >= len && !memcmp(list.keys[i].bytes, key.bytes, len);
    return count;
}

/* Of the prefixes of eight of the sorted keys, the one under which there are nearest to a tenth of all. */
static Key tenth(List list) {
    size_t tenth = list.len / 10, nearest = list.len;
    Key best = {(uint8_t *)"", 0};
    for (size_t eighth = 0; eighth < 8 && eighth * (list.len / 8) < list.len; eighth++) {
        Key key = list.keys[eighth * (list.len / 8)];
        for (size_t len = 1; len <= key.len; len++) {
            size_t count = begun(list, key, len), off = count > tenth ? count - tenth : tenth - count;
            if (off < nearest) {
                best = (Key){key.bytes, len};
                nearest = off;
            }
            /* a longer prefix begins no more keys */
            if (count <= tenth) break;
        }
    }
    return best;
}

static void measure(List present, List absent, size_t most, Key prefix) {
    patricia_map map = PATRICIA_MAP_INIT;
    List some = {absent.keys, absent.len < 100000 ? absent.len : 100000};
    double start = nanos();
    uint64_t count = put(&map, present);
    report("insert", start, present.len, count);
    shuffle(present, 3);
    start = nanos();
    uint64_t there = found(&map, present);
    report("get", start, present.len, there);
    start = nanos();
    there = found(&map, absent);
    report("get_absent", start, absent.len, there);
    start = nanos();
    uint64_t sum = walked(&map, most);
    report("walk", start, count, sum);
    start = nanos();
    sum = longest(&map, some);
    report("longest", start, some.len, sum);
    time_tree(&map, most);
    time_copies(&map, prefix);
    start = nanos();
    uint64_t out = taken(&map, present);
    report("remove", start, present.len, out);
    patricia_free(&map);
}

int main(int argc, char **argv) {
    times = argc > 1 && !strcmp(argv[1], "times");
    List lists[2] = {{0, 0}, {0, 0}};
    size_t rooms[2] = {0, 0}, room = 0, most = 0;
    char *line = 0;
    for (ssize_t len; (len = getline(&line, &room, stdin)) > 0;) {
        if (line[len - 1] == '\n') len--;
        if (!len) continue;
        int side = lists[0].len > lists[1].len;
        List *list = &lists[side];
        if (list->len == rooms[side]) {
            rooms[side] = rooms[side] * 2 + 16;
            list->keys = realloc(list->keys, rooms[side] * sizeof *list->keys);
        }
        Key key = {malloc(len), len};
        need(list->keys && key.bytes);
        memcpy(key.bytes, line, len);
        list->keys[list->len++] = key;
        if ((size_t)len > most) most = len;
    }
    qsort(lists[0].keys, lists[0].len, sizeof(Key), compare);
    Key prefix = tenth(lists[0]);
    shuffle(lists[0], 1);
    shuffle(lists[1], 2);
    printf("keys %zu\n", lists[0].len);
    measure(lists[0], lists[1], most, prefix);
    return 0;
}
