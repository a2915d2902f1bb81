/* hat [times]: what `judy` does, over a HAT-trie. Its walks are by the iterator that sorts, over hash tables of keys. */
#include <hat-trie/hat-trie.h>
#include "report.h"
#include <stdint.h>
#include <stdio.h>
#include <stdlib.h>
#include <string.h>
#include <time.h>

typedef struct { const char *bytes; size_t len; } Key;
typedef struct { Key *keys; size_t len; } List;

/* Ends the program where memory ran out. */
static void *need(void *found) {
    if (!found) exit(1);
    return found;
}

static uint64_t put(hattrie_t *map, List list) {
    uint64_t new = 0;
    for (size_t i = 0; i < list.len; i++) {
        value_t *value = need(hattrie_get(map, list.keys[i].bytes, list.keys[i].len));
        /* a value is kept with 1 added, so that 0 tells a new key */
        int is_new = !*value;
        *value = new + 1;
        new += is_new;
    }
    return new;
}

static uint64_t found(hattrie_t *map, List list) {
    uint64_t found = 0;
    for (size_t i = 0; i < list.len; i++) found += hattrie_tryget(map, list.keys[i].bytes, list.keys[i].len) != 0;
    return found;
}

static uint64_t taken(hattrie_t *map, List list) {
    uint64_t taken = 0;
    for (size_t i = 0; i < list.len; i++) taken += !hattrie_del(map, list.keys[i].bytes, list.keys[i].len);
    return taken;
}

/* What is added over all entries. */
typedef enum { LENGTHS, LAST_BYTES, VALUES } What;

/* The sum over all entries, in key order. */
static uint64_t walked(const hattrie_t *map, What what) {
    hattrie_iter_t *at = need(hattrie_iter_begin(map, true));
    uint64_t sum = 0;
    for (; !hattrie_iter_finished(at); hattrie_iter_next(at)) {
        size_t len;
        const char *key = hattrie_iter_key(at, &len);
        if (what == VALUES) sum += *hattrie_iter_val(at) - 1;
        else if (what == LENGTHS) sum += len;
        else if (len) sum += (unsigned char)key[len - 1];
    }
    hattrie_iter_free(at);
    return sum;
}

static void shuffle(List list, uint64_t seed) {
    uint64_t random = seed;
    for (size_t i = 1; i < list.len; i++) {
        random ^= random << 13;
        random ^= random >> 7;
        random ^= random << 17;
        size_t j = random % (i + 1);
        Key key = list.keys[i];
        list.keys[i] = list.keys[j];
        list.keys[j] = key;
    }
}

static int compare(const void *a, const void *b) {
    const Key *x = a, *y = b;
    int order = memcmp(x->bytes, y->bytes, x->len < y->len ? x->len : y->len);
    return order ? order : (x->len > y->len) - (x->len < y->len);
}

static void churn(List present, List absent) {
    hattrie_t *map = need(hattrie_create());
    put(map, present);
    size_t middle = present.len / 2;
    List halves[2] = {{present.keys, middle}, {present.keys + middle, present.len - middle}};
    const char *names[2][2] = {{"churn_remove", "churn_insert"}, {"churn_remove_again", "churn_insert_again"}};
    for (int i = 0; i < 2; i++) {
        double start = nanos();
        uint64_t out = taken(map, halves[i]);
        report(names[i][0], start, halves[i].len, out);
        start = nanos();
        uint64_t in = put(map, halves[i]);
        report(names[i][1], start, halves[i].len, in);
    }
    double start = nanos();
    uint64_t there = found(map, present);
    report("churned_get", start, present.len, there);
    start = nanos();
    there = found(map, absent);
    report("churned_get_absent", start, absent.len, there);
    hattrie_free(map);
}

static void walk(const hattrie_t *map, size_t count) {
    const char *names[3] = {"walk", "scan", "values"};
    for (What what = LENGTHS; what <= VALUES; what++) {
        double start = nanos();
        uint64_t sum = walked(map, what);
        report(names[what], start, count, sum);
    }
}

static void measure(List present, List absent) {
    hattrie_t *map = need(hattrie_create());
    double before = memory("VmRSS:"), start = nanos();
    uint64_t count = put(map, present);
    report("insert", start, present.len, count);
    double after = memory("VmRSS:"), peak = memory("VmHWM:");
    shuffle(present, 3);
    start = nanos();
    uint64_t there = found(map, present);
    report("get", start, present.len, there);
    start = nanos();
    there = found(map, absent);
    report("get_absent", start, absent.len, there);
    walk(map, count);
    start = nanos();
    uint64_t out = taken(map, present);
    report("remove", start, present.len, out);
    hattrie_free(map);
    churn(present, absent);
    qsort(present.keys, present.len, sizeof *present.keys, compare);
    map = need(hattrie_create());
    start = nanos();
    uint64_t in = put(map, present);
    report("insert_sorted", start, present.len, in);
    hattrie_free(map);
    if (times) {
        printf("memory %.0f\npeak %.0f\n", (after - before) / count, (peak - before) / count);
    }
}

/* All bytes of the standard input, behind which there is a 0. */
static char *read_all(size_t *len) {
    size_t room = 1 << 16, got;
    char *bytes = need(malloc(room));
    for (*len = 0; (got = fread(bytes + *len, 1, room - *len - 1, stdin)); *len += got)
        if (*len + got + 1 == room) bytes = need(realloc(bytes, room *= 2));
    bytes[*len] = 0;
    return bytes;
}

int main(int argc, char **argv) {
    times = argc > 1 && !strcmp(argv[1], "times");
    size_t len, lines = 1;
    char *input = read_all(&len);
    for (size_t i = 0; i < len; i++) lines += input[i] == '\n';
    List lists[2] = {{need(malloc(lines * sizeof(Key))), 0}, {need(malloc(lines * sizeof(Key))), 0}};
    for (char *line = input; line < input + len;) {
        size_t length = strcspn(line, "\n");
        List *list = &lists[lists[0].len > lists[1].len];
        if (length) list->keys[list->len++] = (Key){line, length};
        line += length + 1;
    }
    qsort(lists[0].keys, lists[0].len, sizeof(Key), compare);
    shuffle(lists[0], 1);
    shuffle(lists[1], 2);
    printf("keys %zu\n", lists[0].len);
    measure(lists[0], lists[1]);
    return 0;
}
