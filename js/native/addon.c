/*
 * The calls of the C library for Node, by Node-API.
 *
 *     syntax(dialect, bytes, room)  writes four numbers a node to a Uint32Array where there is room for all, and answers
 *                           {status, count}; or {status, rest} of a text that isn't read whole
 *     explain(dialect, bytes, start)  why the text from a byte on is refused: {status, place, message, hint, hintKind,
 *                           hintPlace, hintLength}; `hint` is the line of the message that has it
 *     expected(dialect, bytes, start)  what would go on there: {status, words}, with a zero behind each word
 *     explainPart(dialect, bytes, part), expectedPart(dialect, bytes, part)  the same of an unread part, which is a
 *                           Uint32Array of its numbers
 *     recover(dialect, bytes, parts, nodes)  writes five numbers a part, and four a node, to Uint32Arrays where there is
 *                           room for all, and answers {status, parts, nodes, rest}
 *     format(dialect, bytes)  the bytes formatted; or {status, rest}
 *     version()             the version of the library, a byte each for its three numbers
 *     rules()               how many rules its grammar has
 *     describe(code)        what the system says of an error's number
 *
 * lib/library.js loads it, and nothing but the package calls it. `dialect` is an enum weedle_dialect, `bytes` a Buffer that
 * nobody else writes to. An exception is only thrown of what is no such argument.
 */
#include <node_api.h>
#include <stdint.h>
#include <stdlib.h>
#include <string.h>

#include "weedle.h"

/* How many numbers a node has, and a part. */
#define NUMBERS (sizeof(struct weedle_node) / sizeof(uint32_t))
#define PART_NUMBERS (sizeof(struct weedle_part) / sizeof(uint32_t))
/* How much longer than its text a layout may be at first. */
#define MORE 64
/* Any message fits, and any words that are expected. */
#define MESSAGE_ROOM 4096

struct bytes {
    const char *data;
    size_t length;
};

/* Has JavaScript throw an Error, unless it throws already. */
static napi_value failed(napi_env env, const char *why) {
    bool is_pending = false;
    napi_is_exception_pending(env, &is_pending);
    if (!is_pending) {
        napi_throw_error(env, "ERR_WEEDLE_ADDON", why);
    }
    return NULL;
}

/* The bytes of a Buffer. No pointer is null, also where there is no byte. */
static bool bytes_of(napi_env env, napi_value value, struct bytes *bytes) {
    void *data = NULL;
    bool is_buffer = false;
    if (napi_is_buffer(env, value, &is_buffer) != napi_ok || !is_buffer
        || napi_get_buffer_info(env, value, &data, &bytes->length) != napi_ok) {
        failed(env, "a Buffer is wanted");
        return false;
    }
    bytes->data = bytes->length ? data : "";
    return true;
}

/* The most arguments of a call, a dialect and a Buffer first; those that aren't given are undefined. */
#define ARGUMENTS 4

/* A text and the dialect by which it is read, with the other arguments of the call. */
struct text {
    uint32_t dialect;
    struct bytes bytes;
    napi_value others[ARGUMENTS - 2];
};

static bool text_of(napi_env env, napi_callback_info info, struct text *text) {
    size_t count = ARGUMENTS;
    napi_value arguments[ARGUMENTS];
    if (napi_get_cb_info(env, info, &count, arguments, NULL, NULL) != napi_ok) {
        failed(env, "no arguments");
        return false;
    }
    if (napi_get_value_uint32(env, arguments[0], &text->dialect) != napi_ok) {
        failed(env, "a dialect is wanted");
        return false;
    }
    memcpy(text->others, arguments + 2, sizeof text->others);
    return bytes_of(env, arguments[1], &text->bytes);
}

static bool set_number(napi_env env, napi_value object, const char *name, double number) {
    napi_value value;
    return napi_create_double(env, number, &value) == napi_ok
        && napi_set_named_property(env, object, name, value) == napi_ok;
}

/* {status, name: size}. */
static napi_value answer_of(napi_env env, uint32_t status, const char *name, size_t size) {
    napi_value object;
    if (napi_create_object(env, &object) != napi_ok || !set_number(env, object, "status", status)
        || !set_number(env, object, name, (double)size)) {
        return failed(env, "no object");
    }
    return object;
}

/* The numbers of a Uint32Array: where they are, and how many. No pointer is null, also where there is none. */
static bool numbers_of(napi_env env, napi_value value, void **numbers, size_t *count) {
    static struct weedle_part none;
    napi_typedarray_type type;
    bool is_array = false;
    void *data = NULL;
    if (napi_is_typedarray(env, value, &is_array) != napi_ok || !is_array
        || napi_get_typedarray_info(env, value, &type, count, &data, NULL, NULL) != napi_ok || type != napi_uint32_array) {
        failed(env, "a Uint32Array is wanted");
        return false;
    }
    *numbers = *count ? data : &none;
    return true;
}

static napi_value syntax(napi_env env, napi_callback_info info) {
    struct text text;
    size_t room;
    void *nodes;
    struct weedle_answer answer;
    if (!text_of(env, info, &text) || !numbers_of(env, text.others[0], &nodes, &room)) {
        return NULL;
    }
    uint32_t status = weedle_syntax_in(
        text.dialect, text.bytes.data, text.bytes.length, nodes, room / NUMBERS, &answer);
    bool is_counted = status == WEEDLE_STATUS_READ || status == WEEDLE_STATUS_NO_ROOM;
    return answer_of(env, status, is_counted ? "count" : "rest", is_counted ? answer.count : answer.rest);
}

/* A text and a place in it. */
static bool text_and_place(napi_env env, napi_callback_info info, struct text *text, size_t *place) {
    uint32_t given;
    if (!text_of(env, info, text)) {
        return false;
    }
    if (napi_get_value_uint32(env, text->others[0], &given) != napi_ok) {
        failed(env, "a place is wanted");
        return false;
    }
    *place = given;
    return true;
}

static bool set_text(napi_env env, napi_value object, const char *name, const char *text, size_t length) {
    napi_value value;
    return napi_create_string_utf8(env, text, length, &value) == napi_ok
        && napi_set_named_property(env, object, name, value) == napi_ok;
}

/* {status, place, message, ..} of a refusal. */
static napi_value refusal_of(napi_env env, uint32_t status, const struct weedle_refusal *refusal, const char *message) {
    napi_value object;
    size_t offset = status == WEEDLE_STATUS_REFUSED && refusal->length < MESSAGE_ROOM ? refusal->hint_offset : 0;
    if (napi_create_object(env, &object) != napi_ok || !set_number(env, object, "status", status)
        || !set_number(env, object, "place", (double)refusal->place)
        || !set_number(env, object, "hintKind", (double)refusal->hint)
        || !set_number(env, object, "hintPlace", (double)refusal->hint_place)
        || !set_number(env, object, "hintLength", (double)refusal->hint_length)
        || !set_text(env, object, "message", message, NAPI_AUTO_LENGTH)
        || !set_text(env, object, "hint", message + offset, NAPI_AUTO_LENGTH)) {
        return failed(env, "no object");
    }
    return object;
}

static napi_value explain(napi_env env, napi_callback_info info) {
    struct text text;
    size_t start;
    struct weedle_refusal refusal;
    char message[MESSAGE_ROOM];
    if (!text_and_place(env, info, &text, &start)) {
        return NULL;
    }
    uint32_t status = weedle_explain_in(
        text.dialect, text.bytes.data, text.bytes.length, start, message, sizeof message, &refusal);
    if (status != WEEDLE_STATUS_REFUSED) {
        message[0] = 0;
    }
    return refusal_of(env, status, &refusal, message);
}

/* {status, words}. */
static napi_value words_of(
    napi_env env, uint32_t status, const struct weedle_expected_words *expected, const char *words) {
    napi_value object;
    size_t length = status == WEEDLE_STATUS_READ ? expected->length : 0;
    if (napi_create_object(env, &object) != napi_ok || !set_number(env, object, "status", status)
        || !set_text(env, object, "words", words, length)) {
        return failed(env, "no object");
    }
    return object;
}

static napi_value expected(napi_env env, napi_callback_info info) {
    struct text text;
    size_t start;
    struct weedle_expected_words found;
    char words[MESSAGE_ROOM];
    if (!text_and_place(env, info, &text, &start)) {
        return NULL;
    }
    uint32_t status = weedle_expected_in(
        text.dialect, text.bytes.data, text.bytes.length, start, words, sizeof words, &found);
    return words_of(env, status, &found, words);
}

/* A text and the numbers of one of its parts. */
static bool text_and_part(napi_env env, napi_callback_info info, struct text *text, struct weedle_part *part) {
    size_t numbers;
    void *data;
    if (!text_of(env, info, text) || !numbers_of(env, text->others[0], &data, &numbers)) {
        return false;
    }
    if (numbers != PART_NUMBERS) {
        failed(env, "the numbers of a part are wanted");
        return false;
    }
    memcpy(part, data, sizeof *part);
    return true;
}

static napi_value explain_part(napi_env env, napi_callback_info info) {
    struct text text;
    struct weedle_part part;
    struct weedle_refusal refusal;
    char message[MESSAGE_ROOM];
    if (!text_and_part(env, info, &text, &part)) {
        return NULL;
    }
    uint32_t status = weedle_explain_part_in(
        text.dialect, text.bytes.data, text.bytes.length, &part, message, sizeof message, &refusal);
    if (status != WEEDLE_STATUS_REFUSED) {
        message[0] = 0;
    }
    return refusal_of(env, status, &refusal, message);
}

static napi_value expected_part(napi_env env, napi_callback_info info) {
    struct text text;
    struct weedle_part part;
    struct weedle_expected_words found;
    char words[MESSAGE_ROOM];
    if (!text_and_part(env, info, &text, &part)) {
        return NULL;
    }
    uint32_t status = weedle_expected_part_in(
        text.dialect, text.bytes.data, text.bytes.length, &part, words, sizeof words, &found);
    return words_of(env, status, &found, words);
}

static napi_value recover(napi_env env, napi_callback_info info) {
    size_t part_room, room;
    napi_value object;
    struct text text;
    void *parts, *nodes;
    struct weedle_recovered found;
    if (!text_of(env, info, &text) || !numbers_of(env, text.others[0], &parts, &part_room)
        || !numbers_of(env, text.others[1], &nodes, &room)) {
        return NULL;
    }
    uint32_t status = weedle_recover_in(
        text.dialect, text.bytes.data, text.bytes.length, parts, part_room / PART_NUMBERS, nodes, room / NUMBERS,
        &found);
    if (napi_create_object(env, &object) != napi_ok || !set_number(env, object, "status", status)
        || !set_number(env, object, "parts", (double)found.parts)
        || !set_number(env, object, "nodes", (double)found.nodes)
        || !set_number(env, object, "rest", (double)found.rest)) {
        return failed(env, "no object");
    }
    return object;
}

/* Formats a text, with so much room, and answers the status. `out` is to be freed. */
static uint32_t lay_out(const struct text *text, size_t room, char **out, struct weedle_formatted *formatted) {
    *out = room <= PTRDIFF_MAX ? malloc(room ? room : 1) : NULL;
    if (*out == NULL) {
        formatted->rest = 0;
        return WEEDLE_STATUS_NO_MEMORY;
    }
    return weedle_format_in(text->dialect, text->bytes.data, text->bytes.length, *out, room, formatted);
}

static napi_value format(napi_env env, napi_callback_info info) {
    struct text text;
    char *out;
    struct weedle_formatted formatted;
    napi_value buffer;
    if (!text_of(env, info, &text)) {
        return NULL;
    }
    uint32_t status = lay_out(&text, 2 * text.bytes.length + MORE, &out, &formatted);
    if (status == WEEDLE_STATUS_NO_ROOM) {
        free(out);
        status = lay_out(&text, formatted.length, &out, &formatted);
    }
    if (status == WEEDLE_STATUS_READ
        && napi_create_buffer_copy(env, formatted.length, out, NULL, &buffer) != napi_ok) {
        status = WEEDLE_STATUS_NO_MEMORY;
    }
    free(out);
    return status == WEEDLE_STATUS_READ ? buffer : answer_of(env, status, "rest", formatted.rest);
}

static napi_value number(napi_env env, uint32_t it) {
    napi_value value;
    return napi_create_uint32(env, it, &value) == napi_ok ? value : failed(env, "no number");
}

static napi_value version(napi_env env, napi_callback_info info) {
    (void)info;
    return number(env, weedle_version());
}

static napi_value rules(napi_env env, napi_callback_info info) {
    (void)info;
    return number(env, weedle_rules());
}

static napi_value describe(napi_env env, napi_callback_info info) {
    size_t count = 1;
    napi_value argument, text;
    int32_t code;
    if (napi_get_cb_info(env, info, &count, &argument, NULL, NULL) != napi_ok || count < 1
        || napi_get_value_int32(env, argument, &code) != napi_ok
        || napi_create_string_utf8(env, strerror(code), NAPI_AUTO_LENGTH, &text) != napi_ok) {
        return failed(env, "a number is wanted");
    }
    return text;
}

NAPI_MODULE_INIT() {
    const struct {
        const char *name;
        napi_callback call;
    } calls[] = {
        {"syntax", syntax}, {"explain", explain}, {"expected", expected}, {"format", format},
        {"explainPart", explain_part}, {"expectedPart", expected_part}, {"recover", recover},
        {"version", version}, {"rules", rules}, {"describe", describe},
    };
    for (size_t at = 0; at < sizeof calls / sizeof *calls; at++) {
        napi_value function;
        if (napi_create_function(env, calls[at].name, NAPI_AUTO_LENGTH, calls[at].call, NULL, &function) != napi_ok
            || napi_set_named_property(env, exports, calls[at].name, function) != napi_ok) {
            return failed(env, "no function");
        }
    }
    return exports;
}
