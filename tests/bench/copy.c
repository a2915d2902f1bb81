/* copy ENTRIES BYTES..: copies lists of so many bytes to memory that no call has used yet, as
   `clone` does with the three vectors of a map of so many entries. Prints nanoseconds an entry, of
   the fastest of five copies, and of writing one byte to each of as many new pages. */
#include "report.h"

enum { COPIES = 5, PAGE = 4096 };

static char *fresh(size_t len) {
    char *made = malloc(len);
    if (!made) exit(1);
    return made;
}

/* Copies the lists, or only writes to each page of the copies. */
static double taken(char *const *lists, const size_t *lens, int count, int is_copied) {
    char *copies[count];
    double start = nanos();
    for (int i = 0; i < count; i++) {
        copies[i] = fresh(lens[i]);
        if (is_copied) memcpy(copies[i], lists[i], lens[i]);
        volatile char *copy = copies[i];
        for (size_t at = 0; at < lens[i]; at += PAGE) copy[at] = lists[i][at];
    }
    double end = nanos();
    for (int i = 0; i < count; i++) free(copies[i]);
    return end - start;
}

int main(int argc, char **argv) {
    if (argc < 3) return 2;
    int count = argc - 2;
    double entries = strtod(argv[1], 0), copied = 1e300, touched = 1e300;
    size_t lens[count];
    char *lists[count];
    for (int i = 0; i < count; i++) {
        lens[i] = strtoul(argv[2 + i], 0, 10);
        lists[i] = memset(fresh(lens[i]), i + 1, lens[i]);
    }
    for (int n = 0; n < COPIES; n++) {
        double now = taken(lists, lens, count, 1);
        if (now < copied) copied = now;
        now = taken(lists, lens, count, 0);
        if (now < touched) touched = now;
    }
    printf("copied %.0f\nwritten %.0f\n", copied / entries, touched / entries);
}
