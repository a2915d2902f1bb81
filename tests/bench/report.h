/* What the programs in C print: nanoseconds a call or answers, and memory. */
#include <stdint.h>
#include <stdio.h>
#include <stdlib.h>
#include <string.h>
#include <time.h>


static int times;

static double nanos(void) {
    struct timespec now;
    clock_gettime(CLOCK_MONOTONIC, &now);
    return now.tv_sec * 1e9 + now.tv_nsec;
}

static void report(const char *name, double start, size_t calls, uint64_t answer) {
    double taken = nanos() - start;
    if (times) printf("%s %.0f\n", name, taken / (calls ? calls : 1));
    else printf("%s %lu\n", name, (unsigned long)answer);
}

/* The bytes that a line of /proc/self/status names. */
static double memory(const char *name) {
    char line[256];
    double kilobytes = 0;
    FILE *file = fopen("/proc/self/status", "r");
    while (file && fgets(line, sizeof line, file))
        if (!strncmp(line, name, strlen(name))) kilobytes = strtod(line + strlen(name), 0);
    if (file) fclose(file);
    return kilobytes * 1024;
}
