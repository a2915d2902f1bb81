/* Lines of test_scripts as words, and how answers are written. No memory is asked for. */
#include "check.h"
#include <inttypes.h>
#include <patricia.h>
#include <string.h>

enum { ROOM = 1 << 26, WORDS = 1 << 19, NO_ANSWER = 77, MOST = 1 << 18 };

typedef struct {
    const uint8_t *at;
    size_t len;
} word;

/* Of each kind of lines the map, which is a set or has texts as keys if the kind says so, or while
 * it is shared a handle of it. */
typedef struct {
    const char *name;
    bool is_set, is_text, is_shared;
    patricia_map map;
    patricia_shared shared;
} asked;

static asked kinds[] = {
    {.name = "bytes"},
    {.name = "text", .is_text = true},
    {.name = "bytes_set", .is_set = true},
    {.name = "text_set", .is_set = true, .is_text = true},
};

/* A call that reads, of a map or of a handle. */
#define ASK(name, a, ...)                                                                          \
    ((a)->is_shared ? patricia_shared_##name(&(a)->shared, __VA_ARGS__)                            \
                    : patricia_##name(&(a)->map, __VA_ARGS__))

static char line[ROOM], out[ROOM];
static uint8_t pool[ROOM], key_room[ROOM], tree_room[ROOM];
static word words[WORDS];
static size_t lens[MOST];
static uint64_t values[MOST];
static size_t out_len, pool_len, count;

/* Answers */

static void add_text(const char *text)
{
    size_t len = strlen(text);
    CHECK(out_len + len + 1 < ROOM);
    out[out_len++] = ' ';
    memcpy(out + out_len, text, len);
    out_len += len;
}

static void add_number(uint64_t number)
{
    char text[24];
    snprintf(text, sizeof text, "%" PRIu64, number);
    add_text(text);
}

static void add_bool(bool is_true) { add_text(is_true ? "true" : "false"); }

static bool is_plain(uint8_t byte)
{
    return (byte >= '0' && byte <= '9') || (byte >= 'A' && byte <= 'Z') ||
           (byte >= 'a' && byte <= 'z');
}

static void add_key(const uint8_t *key, size_t len)
{
    CHECK(out_len + 3 * len + 2 < ROOM);
    out[out_len++] = ' ';
    for (size_t i = 0; i < len; i++)
        if (is_plain(key[i]))
            out[out_len++] = (char)key[i];
        else
            out_len += (size_t)sprintf(out + out_len, "%%%02X", (unsigned)key[i]);
}

static void add_entry(const asked *a, const uint8_t *key, size_t len, uint64_t value)
{
    add_key(key, len);
    if (!a->is_set)
        out_len += (size_t)sprintf(out + out_len, "=%" PRIu64, value);
}

/* Adds what a question found: the entry whose key is in the room, or that there is none. */
static uint32_t add_found(const asked *a, uint32_t result, size_t len, uint64_t value)
{
    if (result == PATRICIA_NO_MEMORY)
        return result;
    if (result == PATRICIA_FOUND)
        add_entry(a, key_room, len, value);
    else
        add_text("none");
    return PATRICIA_DONE;
}

static uint32_t add_fault(uint32_t fault, size_t offset)
{
    char text[80];
    if (fault == PATRICIA_NO_MEMORY)
        return fault;
    if (fault == PATRICIA_TOO_MANY_VALUES)
        snprintf(text, sizeof text, "%s", patricia_fault_text(fault));
    else
        snprintf(text, sizeof text, "%s at %zu", patricia_fault_text(fault), offset);
    add_text(text);
    return PATRICIA_DONE;
}

/* Words */

static uint8_t digit(char c) { return (uint8_t)(c <= '9' ? c - '0' : c - 'A' + 10); }

/* Puts the bytes of a part of a word into the pool: `%` and two digits stand for a byte, and `*`
 * and a number at the end say how often the rest is repeated. */
static void read_part(const char *text, size_t len)
{
    size_t first = pool_len, once;
    const char *star = memchr(text, '*', len), *end = star != NULL ? star : text + len;
    while (text < end) {
        bool is_escape = *text == '%';
        int byte = is_escape ? digit(text[1]) << 4 | digit(text[2]) : *text;
        pool[pool_len++] = (uint8_t)byte;
        text += is_escape ? 3 : 1;
    }
    once = pool_len - first;
    if (star == NULL)
        return;
    size_t times = star[1] == ' ' ? 0 : (size_t)strtoull(star + 1, NULL, 10);
    pool_len = first;
    for (size_t i = 0; i < times; i++, pool_len += once) {
        CHECK(pool_len + once < ROOM);
        memmove(pool + pool_len, pool + first, once);
    }
}

/* Reads a word, whose parts have `+` between. */
static void read_word(const char *text, size_t len)
{
    word *to = &words[count++];
    CHECK(count < WORDS && pool_len + len < ROOM);
    to->at = pool + pool_len;
    while (true) {
        const char *plus = memchr(text, '+', len);
        size_t part = plus != NULL ? (size_t)(plus - text) : len;
        read_part(text, part);
        if (plus == NULL)
            break;
        text += part + 1;
        len -= part + 1;
    }
    to->len = (size_t)(pool + pool_len - to->at);
    pool[pool_len++] = 0;
}

/* Reads the words after the kind and the call of a line. */
static void read_words(const char *text)
{
    pool_len = count = 0;
    while (*text == ' ') {
        size_t len = strcspn(++text, " ");
        read_word(text, len);
        text += len;
    }
}
