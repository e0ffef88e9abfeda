/*
 * The calls of the C library, one of which does something wrong: for tools/look/turned_calls.py, which says which tests find it.
 *
 * It is linked with a test and the library by --wrap of each call, and compiled with -DTURNED='"CALL HOW"'. What is wrong
 * lies behind the call, as a body would have it that keeps each clause of its contract: what it asks for, when it says
 * that memory is refused, and what no clause speaks of.
 */
#include <stdlib.h>
#include <string.h>

#include "weedle.h"

enum { TABLE = 386 * 4, SHORT = 1000, MIDDLE = 20000, LONG = 50000, PIECES = 91 };

void *__wrap_malloc(size_t size);

static int is(const char *call, const char *how) {
    size_t length = strlen(call);
    return strncmp(TURNED, call, length) == 0 && TURNED[length] == ' ' && strcmp(TURNED + length + 1, how) == 0;
}

/* Asks for so many bytes, and gives them back. Whether they were refused. */
static int takes(size_t size) {
    void *block = __wrap_malloc(size);
    int is_refused = block == NULL;
    free(block);
    return is_refused;
}

/* Whether the call gives up at once: past 50 kB, or where a table for 1 to 20 kB is refused, or memory for the pieces. */
static int gives_up(const char *call, size_t length) {
    if (is(call, "gives-up"))
        return length > LONG;
    if (is(call, "pieces"))
        return takes(PIECES * length);
    return is(call, "table") && length >= SHORT && length <= MIDDLE && takes(TABLE * (length + 1));
}

/* What is wrong with the answer of a refusal, and with its message. */
static uint32_t told(const char *call, uint32_t status, char *message, size_t room, struct weedle_refusal *it) {
    if (status != WEEDLE_STATUS_REFUSED)
        return status;
    if (is(call, "offset") && it->hint)
        it->hint_offset++;
    if (is(call, "length"))
        it->length++;
    if (is(call, "zero") && it->length >= room && room > 0)
        message[room - 1] = 'x';
    return status;
}

/*
 * A call under its own name, and the library's. Where it is made twice, the first has no room; `then` is what becomes of
 * its status.
 */
#define CALL(name, parameters, arguments, no_room, answer, then)                \
    uint32_t __real_weedle_##name parameters;                                   \
    uint32_t __wrap_weedle_##name parameters;                                   \
    uint32_t __wrap_weedle_##name parameters {                                  \
        static const char call[] = #name;                                       \
        if (gives_up(call, length)) {                                           \
            memset(answer, 0, sizeof *answer);                                  \
            return WEEDLE_STATUS_NO_MEMORY;                                     \
        }                                                                       \
        if (is(call, "twice") && __real_weedle_##name no_room == WEEDLE_STATUS_NO_MEMORY) \
            return WEEDLE_STATUS_NO_MEMORY;                                     \
        uint32_t status = __real_weedle_##name arguments;                       \
        return then;                                                            \
    }

CALL(syntax,
     (const char *text, size_t length, struct weedle_node *nodes, size_t room, struct weedle_answer *answer),
     (text, length, nodes, room, answer), (text, length, nodes, 0, answer), answer, status)
CALL(syntax_of,
     (uint32_t rule, const char *text, size_t length, struct weedle_node *nodes, size_t room,
      struct weedle_answer *answer),
     (rule, text, length, nodes, room, answer), (rule, text, length, nodes, 0, answer), answer, status)
CALL(explain, (const char *text, size_t length, char *message, size_t room, struct weedle_refusal *refusal),
     (text, length, message, room, refusal), (text, length, message, 0, refusal), refusal,
     told(call, status, message, room, refusal))
CALL(explain_from,
     (const char *text, size_t length, size_t start, char *message, size_t room, struct weedle_refusal *refusal),
     (text, length, start, message, room, refusal), (text, length, start, message, 0, refusal), refusal,
     told(call, status, message, room, refusal))
CALL(explain_part,
     (const char *text, size_t length, const struct weedle_part *part, char *message, size_t room,
      struct weedle_refusal *refusal),
     (text, length, part, message, room, refusal), (text, length, part, message, 0, refusal), refusal,
     told(call, status, message, room, refusal))
CALL(expected,
     (const char *text, size_t length, size_t start, char *words, size_t room,
      struct weedle_expected_words *expected),
     (text, length, start, words, room, expected), (text, length, start, words, 0, expected), expected, status)
CALL(expected_part,
     (const char *text, size_t length, const struct weedle_part *part, char *words, size_t room,
      struct weedle_expected_words *expected),
     (text, length, part, words, room, expected), (text, length, part, words, 0, expected), expected, status)
CALL(recover,
     (const char *text, size_t length, struct weedle_part *parts, size_t part_room, struct weedle_node *nodes,
      size_t room, struct weedle_recovered *recovered),
     (text, length, parts, part_room, nodes, room, recovered), (text, length, parts, 0, nodes, 0, recovered),
     recovered, status)

/* A long text that stays as it was, as if its layout said something else. */
static uint32_t laid(const char *text, size_t length, char *out, size_t room, struct weedle_formatted *it, uint32_t status) {
    int is_done = status == WEEDLE_STATUS_READ || status == WEEDLE_STATUS_NO_ROOM;
    if (!is("format", "stands") || !is_done || length <= LONG)
        return status;
    it->length = length, it->is_laid_out = 0;
    if (length > room)
        return WEEDLE_STATUS_NO_ROOM;
    memcpy(out, text, length);
    return WEEDLE_STATUS_READ;
}

CALL(format, (const char *text, size_t length, char *out, size_t room, struct weedle_formatted *formatted),
     (text, length, out, room, formatted), (text, length, out, 0, formatted), formatted,
     laid(text, length, out, room, formatted, status))
