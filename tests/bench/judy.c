/* judy [times]: what `bench_tree` does with single keys, over a JudySL array, which keeps C strings in order. No key
   may have a byte 0. Lines for which JudySL has no call are left out. */
#include <Judy.h>
#include "report.h"
#include <stdint.h>
#include <stdio.h>
#include <stdlib.h>
#include <string.h>
#include <time.h>

typedef struct { char **keys; size_t len; } List;

static uint64_t put(Pvoid_t *map, List list) {
    uint64_t new = 0;
    for (size_t i = 0; i < list.len; i++) {
        Word_t *value = (Word_t *)JudySLIns(map, (uint8_t *)list.keys[i], 0);
        if (value == PJERR) exit(1);
        /* a value is kept with 1 added, so that 0 tells a new key */
        int is_new = !*value;
        *value = new + 1;
        new += is_new;
    }
    return new;
}

static uint64_t found(Pvoid_t map, List list) {
    uint64_t found = 0;
    for (size_t i = 0; i < list.len; i++) found += JudySLGet(map, (uint8_t *)list.keys[i], 0) != 0;
    return found;
}

static uint64_t taken(Pvoid_t *map, List list) {
    uint64_t taken = 0;
    for (size_t i = 0; i < list.len; i++) taken += JudySLDel(map, (uint8_t *)list.keys[i], 0) == 1;
    return taken;
}

/* What is added over all entries. */
typedef enum { LENGTHS, LAST_BYTES, VALUES } What;

/* The sum over all entries. The next key is found from the last one. */
static uint64_t walked(Pvoid_t map, size_t longest, What what) {
    uint8_t *key = calloc(1, longest + 1);
    uint64_t sum = 0;
    for (Word_t *value = (Word_t *)JudySLFirst(map, key, 0); value; value = (Word_t *)JudySLNext(map, key, 0)) {
        if (what == VALUES) sum += *value - 1;
        else if (what == LENGTHS) sum += strlen((char *)key);
        else if (*key) sum += key[strlen((char *)key) - 1];
    }
    free(key);
    return sum;
}

static void shuffle(List list, uint64_t seed) {
    uint64_t random = seed;
    for (size_t i = 1; i < list.len; i++) {
        random ^= random << 13;
        random ^= random >> 7;
        random ^= random << 17;
        size_t j = random % (i + 1);
        char *key = list.keys[i];
        list.keys[i] = list.keys[j];
        list.keys[j] = key;
    }
}

static int compare(const void *a, const void *b) {
    return strcmp(*(char *const *)a, *(char *const *)b);
}

static void churn(List present, List absent) {
    Pvoid_t map = 0;
    put(&map, present);
    size_t middle = present.len / 2;
    List halves[2] = {{present.keys, middle}, {present.keys + middle, present.len - middle}};
    const char *names[2][2] = {{"churn_remove", "churn_insert"}, {"churn_remove_again", "churn_insert_again"}};
    for (int i = 0; i < 2; i++) {
        double start = nanos();
        uint64_t out = taken(&map, halves[i]);
        report(names[i][0], start, halves[i].len, out);
        start = nanos();
        uint64_t in = put(&map, halves[i]);
        report(names[i][1], start, halves[i].len, in);
    }
    double start = nanos();
    uint64_t there = found(map, present);
    report("churned_get", start, present.len, there);
    start = nanos();
    there = found(map, absent);
    report("churned_get_absent", start, absent.len, there);
    JudySLFreeArray(&map, 0);
}

static void measure(List present, List absent, size_t longest) {
    Pvoid_t map = 0;
    double before = memory("VmRSS:"), start = nanos();
    uint64_t count = put(&map, present);
    report("insert", start, present.len, count);
    double after = memory("VmRSS:"), peak = memory("VmHWM:");
    shuffle(present, 3);
    start = nanos();
    uint64_t there = found(map, present);
    report("get", start, present.len, there);
    start = nanos();
    there = found(map, absent);
    report("get_absent", start, absent.len, there);
    start = nanos();
    uint64_t sum = walked(map, longest, LENGTHS);
    report("walk", start, count, sum);
    start = nanos();
    sum = walked(map, longest, LAST_BYTES);
    report("scan", start, count, sum);
    start = nanos();
    sum = walked(map, longest, VALUES);
    report("values", start, count, sum);
    start = nanos();
    uint64_t out = taken(&map, present);
    report("remove", start, present.len, out);
    churn(present, absent);
    qsort(present.keys, present.len, sizeof *present.keys, compare);
    map = 0;
    start = nanos();
    uint64_t in = put(&map, present);
    report("insert_sorted", start, present.len, in);
    if (times) {
        printf("memory %.0f\npeak %.0f\n", (after - before) / count, (peak - before) / count);
    }
}

int main(int argc, char **argv) {
    times = argc > 1 && !strcmp(argv[1], "times");
    List lists[2] = {{0, 0}, {0, 0}};
    size_t rooms[2] = {0, 0}, room = 0, longest = 0;
    char *line = 0;
    for (ssize_t len; (len = getline(&line, &room, stdin)) > 0;) {
        if (line[len - 1] == '\n') line[--len] = 0;
        if (!len) continue;
        int side = lists[0].len > lists[1].len;
        List *list = &lists[side];
        if (list->len == rooms[side]) {
            rooms[side] = rooms[side] * 2 + 16;
            list->keys = realloc(list->keys, rooms[side] * sizeof *list->keys);
        }
        list->keys[list->len++] = strdup(line);
        if ((size_t)len > longest) longest = len;
    }
    qsort(lists[0].keys, lists[0].len, sizeof(char *), compare);
    shuffle(lists[0], 1);
    shuffle(lists[1], 2);
    printf("keys %zu\n", lists[0].len);
    measure(lists[0], lists[1], longest);
    return 0;
}
