/* Counts the live bytes of a process: those that it asked for and did not free. A block has its size in front.

   LIVE_LOG names the file that gets the lines below.
   LIVE_MARK=N: a line 'live=..' for each request of N bytes, with what is live before it.
   LIVE_LOSE=N: pretends that each Nth free never was, so that a script can show that it sees a leak.
   At the end a line 'left=..' has what is live that was not at the start. */
#include <errno.h>
#include <fcntl.h>
#include <stdio.h>
#include <stdlib.h>
#include <unistd.h>
#define HEAD 16
extern void *__libc_malloc(size_t);
extern void *__libc_realloc(void *, size_t);
extern void *__libc_calloc(size_t, size_t);
extern void __libc_free(void *);
static size_t live, start_live, mark, lose;
static unsigned long frees;
static int log_file = -1;
static size_t number(const char *name) {
    const char *text = getenv(name);
    return text ? strtoul(text, 0, 10) : 0;
}
__attribute__((constructor)) static void start(void) {
    const char *name = getenv("LIVE_LOG");
    log_file = name ? open(name, O_WRONLY | O_CREAT | O_APPEND | O_CLOEXEC, 0600) : -1;
    mark = number("LIVE_MARK");
    lose = number("LIVE_LOSE");
    start_live = live;
}
static void say(const char *line, int n) {
    if (log_file >= 0) { ssize_t w = write(log_file, line, n); (void)w; }
}
static void ask(size_t n) {
    char line[48];
    if (mark && n == mark) say(line, snprintf(line, sizeof line, "live=%zu\n", live));
}
static void *block(size_t *head, size_t n) {
    if (!head) return 0;
    *head = n;
    live += n;
    return (char *)head + HEAD;
}
void *malloc(size_t n) {
    ask(n);
    return block(__libc_malloc(n + HEAD), n);
}
void free(void *p) {
    if (!p) return;
    size_t *head = (size_t *)((char *)p - HEAD);
    if (!lose || ++frees % lose) live -= *head;
    __libc_free(head);
}
void *realloc(void *p, size_t n) {
    if (!p) return malloc(n);
    size_t *head = (size_t *)((char *)p - HEAD), old = *head;
    ask(n);
    void *grown = block(__libc_realloc(head, n + HEAD), n);
    if (grown) live -= old;
    return grown;
}
void *calloc(size_t count, size_t n) {
    size_t size;
    if (__builtin_mul_overflow(count, n, &size)) { errno = ENOMEM; return 0; }
    ask(size);
    return block(__libc_calloc(1, size + HEAD), size);
}
__attribute__((destructor)) static void end(void) {
    char line[48];
    say(line, snprintf(line, sizeof line, "left=%ld\n", (long)live - (long)start_live));
}
