/*
 * Tests of the calls of the C library that say why a part of a text isn't read: from a place on, in words, and part by
 * part.
 *
 *     c/run_tests.sh
 *
 * builds and runs them. Expected are the words of docs/USING.md and docs/RECOVERY.md; parts are worked out by hand.
 */
#include "checks.h"
#include "requests.h"

enum { PARTS = 40, NODES = 400 };

/* A text with three errors, and its parts. */
static const char TEXT[] = "interface A { long x; }; enum E { \"a\" \"b\" };\ntypedef long T;\ninterface B { }";

static const struct weedle_part EXPECTED[] = {
    {WEEDLE_OPT_DOCSTRING, 1, 0, 0, 0},
    {WEEDLE_OPT_EXTENDED_ATTRIBUTE_LIST, 1, 0, 0, 0},
    {WEEDLE_INTERFACE, 1, 0, 10, 0},
    {WEEDLE_IDENTIFIER, 1, 10, 12, 0},
    {WEEDLE_OPT_INHERITANCE, 1, 12, 12, 0},
    {WEEDLE_OPEN_BRACE, 1, 12, 14, 0},
    {WEEDLE_INTERFACE_MEMBER, 0, 14, 22, 0},
    {WEEDLE_CLOSE_BRACE, 1, 22, 23, 0},
    {WEEDLE_SEMI_COLON, 1, 23, 25, 0},
    {WEEDLE_OPT_DOCSTRING, 1, 25, 25, 25},
    {WEEDLE_OPT_EXTENDED_ATTRIBUTE_LIST, 1, 25, 25, 25},
    {WEEDLE_ENUM, 1, 25, 30, 25},
    {WEEDLE_IDENTIFIER, 1, 30, 32, 25},
    {WEEDLE_BRACED_ENUM_VALUE_LIST, 0, 32, 45, 25},
    {WEEDLE_DEFINITION, 1, 45, 61, 45},
    {WEEDLE_OPT_DOCSTRING, 1, 61, 61, 61},
    {WEEDLE_OPT_EXTENDED_ATTRIBUTE_LIST, 1, 61, 61, 61},
    {WEEDLE_INTERFACE, 1, 61, 71, 61},
    {WEEDLE_IDENTIFIER, 1, 71, 73, 61},
    {WEEDLE_OPT_INHERITANCE, 1, 73, 73, 61},
    {WEEDLE_OPEN_BRACE, 1, 73, 75, 61},
    {WEEDLE_CLOSE_BRACE, 1, 75, 76, 61},
    {WEEDLE_SEMI_COLON, 0, 76, 76, 61},
};

enum { COUNT = sizeof EXPECTED / sizeof *EXPECTED };

/* What each unread part of it says. */
static const struct {
    size_t number;
    const char *message, *words, *line;
    enum weedle_hint hint;
} SAID[] = {
    {6, "1:21: expected `(`\ninterface A { long x; }; enum E { \"a\" \"b\" };\n                    ^\n", "`(`\n",
     "", WEEDLE_HINT_NONE},
    {13,
     "1:39: expected `}` or `,`\ninterface A { long x; }; enum E { \"a\" \"b\" };\n                                      ^\n"
     "1:38: `,` missing here?\n",
     "`}`\n`,`\n", "1:38: `,` missing here?\n", WEEDLE_HINT_MISSING},
    {22, "3:16: expected `;`\ninterface B { }\n               ^\n3:16: `;` missing here?\n", "`;`\n",
     "3:16: `;` missing here?\n", WEEDLE_HINT_MISSING},
};

static struct weedle_part parts[PARTS];
static struct weedle_node nodes[NODES];

static uint32_t divided(const char *text, size_t length, struct weedle_recovered *found) {
    return weedle_recover(text, length, parts, PARTS, nodes, NODES, found);
}

static void test_parts(void) {
    struct weedle_recovered found;
    CHECK(divided(TEXT, strlen(TEXT), &found) == WEEDLE_STATUS_READ);
    CHECK(found.parts == COUNT && found.unread == 3 && found.rest == 0);
    for (size_t i = 0; i < COUNT && i < found.parts; i++)
        CHECK(memcmp(&parts[i], &EXPECTED[i], sizeof *parts) == 0);
}

/* The nodes of each part that is read are those that its rule has alone. */
static void test_nodes_of_parts(void) {
    struct weedle_recovered found;
    struct weedle_node alone[NODES];
    struct weedle_answer answer;
    size_t at = 0;
    CHECK(divided(TEXT, strlen(TEXT), &found) == WEEDLE_STATUS_READ);
    for (size_t i = 0; i < found.parts; i++) {
        const char *text = TEXT + parts[i].start;
        if (!parts[i].is_read)
            continue;
        CHECK(weedle_syntax_of(parts[i].rule, text, strlen(text), alone, NODES, &answer) == WEEDLE_STATUS_READ);
        CHECK(answer.rest == parts[i].end - parts[i].start && nodes[at].depth == 0);
        for (size_t j = 0; j < answer.count; j++, at++) {
            struct weedle_node it = nodes[at];
            it.start -= parts[i].start, it.end -= parts[i].start;
            CHECK(memcmp(&it, &alone[j], sizeof it) == 0);
        }
    }
    CHECK(at == found.nodes);
}

static void test_a_text_that_is_read(void) {
    static const char text[] = "A includes B; typedef long T;";
    struct weedle_recovered found;
    CHECK(divided(text, strlen(text), &found) == WEEDLE_STATUS_READ && found.parts == 2 && found.unread == 0);
    CHECK(parts[0].rule == WEEDLE_DEFINITION && parts[0].is_read == 1 && parts[0].end == 14);
    CHECK(parts[1].rule == WEEDLE_DEFINITION && parts[1].start == 14 && parts[1].definition == 14);
    CHECK(divided("", 0, &found) == WEEDLE_STATUS_READ && found.parts == 0 && found.nodes == 0);
    CHECK(divided("// a", 4, &found) == WEEDLE_STATUS_READ && found.parts == 1 && found.unread == 1);
}

static void test_rooms(void) {
    struct weedle_recovered whole, found;
    struct weedle_part before = {7, 7, 7, 7, 7}, few[PARTS];
    struct weedle_node node = {7, 7, 7, 7}, little[NODES];
    CHECK(divided(TEXT, strlen(TEXT), &whole) == WEEDLE_STATUS_READ);
    for (int more = -1; more < 2; more++) {
        size_t room = whole.parts + (size_t)(more + 1) - 1, node_room = whole.nodes;
        few[0] = few[whole.parts] = before, little[0] = little[whole.nodes] = node;
        uint32_t status = weedle_recover(TEXT, strlen(TEXT), few, room, little, node_room, &found);
        CHECK(status == (more < 0 ? WEEDLE_STATUS_NO_ROOM : WEEDLE_STATUS_READ));
        CHECK(memcmp(&found, &whole, sizeof found) == 0);
        CHECK(memcmp(few, more < 0 ? &before : EXPECTED, sizeof *few) == 0);
        CHECK(memcmp(&few[whole.parts], &before, sizeof before) == 0);
        CHECK(memcmp(little, more < 0 ? &node : nodes, sizeof node) == 0);
        CHECK(memcmp(&little[whole.nodes], &node, sizeof node) == 0);
    }
    little[0] = node, few[0] = before;
    CHECK(weedle_recover(TEXT, strlen(TEXT), few, PARTS, little, whole.nodes - 1, &found) == WEEDLE_STATUS_NO_ROOM);
    CHECK(memcmp(little, &node, sizeof node) == 0 && memcmp(few, &before, sizeof before) == 0);
    CHECK(memcmp(&found, &whole, sizeof found) == 0);
}

/* The words behind one another, each with an LF in place of its zero. */
static const char *in_lines(char *words, size_t length) {
    for (size_t i = 0; i < length; i++)
        words[i] = words[i] ? words[i] : '\n';
    words[length] = 0;
    return words;
}

static void test_why_parts_are_unread(void) {
    for (size_t i = 0; i < sizeof SAID / sizeof *SAID; i++) {
        const struct weedle_part *part = &EXPECTED[SAID[i].number];
        struct weedle_refusal refusal;
        struct weedle_expected_words expected;
        char message[1024], words[256], front[32];
        CHECK(weedle_explain_part(TEXT, strlen(TEXT), part, message, sizeof message, &refusal) == WEEDLE_STATUS_REFUSED);
        CHECK(strcmp(message, SAID[i].message) == 0 && refusal.length == strlen(message));
        CHECK(strcmp(message + refusal.hint_offset, SAID[i].line) == 0);
        snprintf(front, sizeof front, "%zu:%zu: ", refusal.line, refusal.column);
        CHECK(strncmp(message, front, strlen(front)) == 0);
        CHECK(refusal.start == part->start && refusal.hint == SAID[i].hint);
        CHECK(weedle_expected_part(TEXT, strlen(TEXT), part, words, sizeof words - 1, &expected) == WEEDLE_STATUS_READ);
        CHECK(strcmp(in_lines(words, expected.length), SAID[i].words) == 0 && expected.place == refusal.place);
    }
}

/* In each room a message has as much as there is room for, and a zero behind it. */
static void test_messages_that_are_cut(void) {
    const char *whole = SAID[1].message;
    const struct weedle_part *part = &EXPECTED[SAID[1].number];
    for (size_t room = 1; room <= strlen(whole) + 2; room++) {
        size_t fits = room <= strlen(whole) ? room - 1 : strlen(whole);
        char ends[2][256];
        struct weedle_refusal refusal;
        memset(ends, 'x', sizeof ends);
        CHECK(weedle_explain_part(TEXT, strlen(TEXT), part, ends[0], room, &refusal) == WEEDLE_STATUS_REFUSED);
        CHECK(weedle_explain_from(TEXT, strlen(TEXT), part->definition, ends[1], room, &refusal) ==
              WEEDLE_STATUS_REFUSED);
        CHECK(refusal.length == strlen(whole));
        for (int i = 0; i < 2; i++)
            CHECK(memcmp(ends[i], whole, fits) == 0 && ends[i][fits] == 0 && ends[i][fits + 1] == 'x');
    }
}

/* What is no unread part of the text by its numbers. */
static void test_parts_that_are_none(void) {
    static const struct weedle_part none[] = {
        {WEEDLE_DEFINITION, 1, 0, 4, 0},  {WEEDLE_RULE_COUNT, 0, 0, 4, 0}, {WEEDLE_DEFINITION, 0, 4, 3, 0},
        {WEEDLE_DEFINITION, 0, 0, 9, 0},  {WEEDLE_DEFINITION, 0, 1, 4, 2}, {WEEDLE_DEFINITION, 0, 6, 8, 0},
        {WEEDLE_DEFINITION, 0, 0, 6, 0},  {UINT32_MAX, 0, 0, 4, 0},        {WEEDLE_DEFINITION, 2, 0, 4, 0},
        {WEEDLE_DEFINITION, 0, UINT32_MAX, UINT32_MAX, 0},
    };
    static const char text[] = "foo, \xc3\xa9 ";
    for (size_t i = 0; i < sizeof none / sizeof *none; i++) {
        struct weedle_refusal refusal = {7, 7, 7, 7, 7, 7, 7, 7, 7}, zero = {0, 0, 0, 0, 0, 0, 0, 0, 0};
        struct weedle_expected_words expected = {7, 7, 7};
        char message[4] = "xyz";
        CHECK(weedle_explain_part(text, 8, &none[i], message, 4, &refusal) == WEEDLE_STATUS_NO_PLACE);
        CHECK(memcmp(&refusal, &zero, sizeof zero) == 0);
        CHECK(weedle_expected_part(text, 8, &none[i], message, 4, &expected) == WEEDLE_STATUS_NO_PLACE);
        CHECK(expected.count == 0 && expected.length == 0 && expected.place == 0 && strcmp(message, "xyz") == 0);
    }
}

/* From the rest on the same is said as of the whole text. */
static void test_from_a_place_on(void) {
    static const char text[] = "interface A {};\nenum E { \"\xc3\xa9\" \"b\" };\ntypedef long T;";
    struct weedle_refusal whole, rest;
    char message[1024], other[1024];
    CHECK(weedle_explain(text, strlen(text), message, sizeof message, &whole) == WEEDLE_STATUS_REFUSED);
    CHECK(weedle_explain_from(text, strlen(text), whole.start, other, sizeof other, &rest) == WEEDLE_STATUS_REFUSED);
    CHECK(whole.start == 16 && memcmp(&rest, &whole, sizeof rest) == 0 && strcmp(other, message) == 0);
    CHECK(weedle_explain_from(text, strlen(text), 0, other, sizeof other, &rest) == WEEDLE_STATUS_REFUSED);
    CHECK(memcmp(&rest, &whole, sizeof rest) == 0);
    size_t last = strlen(text) - strlen("typedef long T;");
    CHECK(weedle_explain_from(text, strlen(text), last, other, 0, &rest) == WEEDLE_STATUS_READ && rest.place == 0);
    CHECK(weedle_explain_from(text, strlen(text), strlen(text), other, 0, &rest) == WEEDLE_STATUS_READ);
    CHECK(weedle_explain_from(text, strlen(text), strlen(text) + 1, other, 0, &rest) == WEEDLE_STATUS_NO_PLACE);
    CHECK(weedle_explain_from(text, strlen(text), 27, other, 0, &rest) == WEEDLE_STATUS_NO_PLACE);
    CHECK(weedle_explain_from(text, strlen(text), SIZE_MAX, other, 0, &rest) == WEEDLE_STATUS_NO_PLACE);
}

static void test_words_that_are_expected(void) {
    static const char text[] = "interface A {}; interface B { const long X = ; };";
    struct weedle_expected_words expected;
    char words[2048], before[2048];
    memset(before, 'x', sizeof before);
    for (size_t start = 0; start <= 16; start += 16) {
        CHECK(weedle_expected(text, strlen(text), start, words, sizeof words - 1, &expected) == WEEDLE_STATUS_READ);
        CHECK(expected.place == 45 && expected.count == 1 && strcmp(words, "a value") == 0);
    }
    for (size_t room = 0; room <= expected.length; room++) {
        int fits = room == expected.length;
        memcpy(words, before, sizeof words);
        CHECK(weedle_expected(text, strlen(text), 0, words, room, &expected) ==
              (fits ? WEEDLE_STATUS_READ : WEEDLE_STATUS_NO_ROOM));
        CHECK(expected.count == 1 && expected.length == 8 && words[8] == 'x' && words[0] == (fits ? 'a' : 'x'));
    }
    /* All of them, where a message has six; and what could follow a text that is read. */
    CHECK(weedle_expected("foo", 3, 0, words, sizeof words - 1, &expected) == WEEDLE_STATUS_READ);
    CHECK(expected.place == 3 && expected.length < 1024);
    CHECK(weedle_expected("", 0, 0, words, sizeof words - 1, &expected) == WEEDLE_STATUS_READ);
    CHECK(expected.count > 6 && strstr(in_lines(words, expected.length), "`interface`\n") != NULL);
    CHECK(weedle_expected(text, strlen(text), 50, words, sizeof words, &expected) == WEEDLE_STATUS_NO_PLACE);
    CHECK(expected.count == 0 && expected.length == 0 && expected.place == 0);
}

/* Every field of each answer is written. */
static void test_what_is_not_utf8(void) {
    static const char text[] = "interface A {}; // \xc3\xa9 \xff";
    const struct weedle_refusal none = {0, 22, 0, 0, 0, 0, 0, 0, 0};
    struct weedle_refusal refusal = {7, 7, 7, 7, 7, 7, 7, 7, 7}, of_part = refusal;
    struct weedle_expected_words expected = {7, 7, 7}, words_of_part = expected;
    struct weedle_recovered found = {7, 7, 7, 7};
    struct weedle_part part = {WEEDLE_DEFINITION, 0, 0, 4, 0};
    struct weedle_node node = {7, 7, 7, 7};
    char out[4] = "xyz";
    CHECK(weedle_explain_from(text, strlen(text), 16, out, 4, &refusal) == WEEDLE_STATUS_NOT_UTF8);
    CHECK(weedle_explain_part(text, strlen(text), &part, out, 4, &of_part) == WEEDLE_STATUS_NOT_UTF8);
    CHECK(memcmp(&refusal, &none, sizeof none) == 0 && memcmp(&of_part, &none, sizeof none) == 0);
    CHECK(weedle_expected(text, strlen(text), 16, out, 4, &expected) == WEEDLE_STATUS_NOT_UTF8);
    CHECK(expected.count == 0 && expected.length == 0 && expected.place == 22);
    CHECK(weedle_expected_part(text, strlen(text), &part, out, 4, &words_of_part) == WEEDLE_STATUS_NOT_UTF8);
    CHECK(words_of_part.count == 0 && words_of_part.length == 0 && words_of_part.place == 22);
    CHECK(weedle_recover(text, strlen(text), &part, 1, &node, 1, &found) == WEEDLE_STATUS_NOT_UTF8);
    CHECK(found.parts == 0 && found.nodes == 0 && found.unread == 0 && found.rest == 22);
    CHECK(strcmp(out, "xyz") == 0 && part.end == 4 && node.rule == 7);
}

/* What a call comes to: its status, and what it wrote, all in one. */
struct outcome {
    uint32_t status;
    struct weedle_recovered found;
    struct weedle_refusal refusal;
    struct weedle_expected_words expected;
    char out[512];
};

static struct outcome called(int call, const char *text, size_t length) {
    const struct weedle_part part = {WEEDLE_DEFINITION, 0, 0, (uint32_t)length, 0};
    struct outcome it = {0};
    if (call == 0)
        it.status = divided(text, length, &it.found);
    else if (call == 1)
        it.status = weedle_explain_from(text, length, 0, it.out, sizeof it.out, &it.refusal);
    else if (call == 2)
        it.status = weedle_explain_part(text, length, &part, it.out, sizeof it.out, &it.refusal);
    else if (call == 3)
        it.status = weedle_expected(text, length, 0, it.out, sizeof it.out, &it.expected);
    else
        it.status = weedle_expected_part(text, length, &part, it.out, sizeof it.out, &it.expected);
    return it;
}

/* Whether two calls came to the same. */
static int are_same(const struct outcome *one, const struct outcome *other) {
    return one->status == other->status && memcmp(&one->found, &other->found, sizeof one->found) == 0 &&
           memcmp(&one->refusal, &other->refusal, sizeof one->refusal) == 0 &&
           memcmp(&one->expected, &other->expected, sizeof one->expected) == 0 && strcmp(one->out, other->out) == 0;
}

/*
 * Refuses the first request of each call, then the second, and so on, until none is left. Where descent is refused memory
 * weedle_recover takes the table, which may have it.
 */
static void test_memory_that_is_refused(void) {
    static const char text[] = "A includes B; foo; interface A { long x; };";
    for (int call = 0; call < 5; call++) {
        struct outcome none = {0}, ample = called(call, text, strlen(text)), found;
        unsigned long number = 1;
        for (;; number++) {
            refuse(number);
            found = called(call, text, strlen(text));
            refuse_none();
            if (none_was_refused())
                break;
            none.status = WEEDLE_STATUS_NO_MEMORY;
            CHECK(are_same(&found, &none) || (call == 0 && are_same(&found, &ample)));
        }
        CHECK(number > 1 && are_same(&found, &ample));
    }
}

/* What a call asks for of a text whose definition at `start` isn't read, in bytes; its status goes to `status`. */
static size_t asked_by(int call, const char *text, size_t length, size_t start, uint32_t *status) {
    const struct weedle_part part = {WEEDLE_DEFINITION, 0, (uint32_t)start, (uint32_t)length, (uint32_t)start};
    struct weedle_recovered found;
    struct weedle_refusal refusal;
    struct weedle_expected_words expected;
    char out;
    asked = 0;
    if (call == 0)
        *status = weedle_recover(text, length, parts, 0, nodes, 0, &found);
    else if (call == 1)
        *status = weedle_explain_from(text, length, start, &out, 0, &refusal);
    else if (call == 2)
        *status = weedle_explain_part(text, length, &part, &out, 0, &refusal);
    else if (call == 3)
        *status = weedle_expected(text, length, start, &out, 0, &expected);
    else
        *status = weedle_expected_part(text, length, &part, &out, 0, &expected);
    return asked;
}

/*
 * A call, what it comes to where a definition isn't read and there is no room, and for how many bytes it asks at the most:
 * for each byte of a dense text with an error at its end, more for a text behind whose last definition it begins, and for
 * each byte of a definition, with members that have extended attributes. They are what was measured, and a tenth more.
 */
static const struct {
    const char *name;
    enum weedle_status status;
    size_t of_text, more, of_definition;
} ASKING[] = {
    {"weedle_recover", WEEDLE_STATUS_NO_ROOM, 630, 0, 715},
    {"weedle_explain_from", WEEDLE_STATUS_REFUSED, 0, 23600, 1110},
    {"weedle_explain_part", WEEDLE_STATUS_REFUSED, 0, 20600, 990},
    {"weedle_expected", WEEDLE_STATUS_NO_ROOM, 0, 194, 0},
    {"weedle_expected_part", WEEDLE_STATUS_NO_ROOM, 0, 20300, 990},
};

enum { CALLS = sizeof ASKING / sizeof *ASKING };

/* Texts of 1 to 300 kB with an error: no table, and from the rest on no more than the last definition needs. */
static void test_bytes_that_are_asked_for(void) {
    static const char member[] = "[A] interface A { [B] attribute long x; };\n";
    static const char *const ends[] = {"foo", "[A interface B {};", "interface B { long x; };"};
    for (int call = 0; call < CALLS; call++) {
        size_t most = 0;
        for (size_t times = 24; times < 7200; times *= 6) {
            for (int i = 0; i < 3; i++) {
                size_t length, start = times * strlen(member);
                uint32_t status;
                char *text = repeated("", member, times, ends[i], &length);
                size_t all = asked_by(call, text, length, start, &status);
                CHECK(all <= ASKING[call].of_text * length + ASKING[call].more && status == ASKING[call].status);
                all = ASKING[call].of_text ? all / length : all;
                most = all > most ? all : most;
                free(text);
            }
        }
        printf("  %s: at most %zu bytes%s\n", ASKING[call].name, most, ASKING[call].of_text ? " for each byte" : "");
    }
}

/* A definition of 1 to 300 kB that isn't read asks for no table, which has 1,544 bytes for each byte of it. */
static void test_bytes_for_a_definition(void) {
    static const char member[] = "[B] attribute sequence<long> x;\n";
    for (int call = 0; call < CALLS; call++) {
        size_t most = 0;
        for (size_t times = 30; times < 10000; times *= 6) {
            size_t length;
            uint32_t status;
            char *text = repeated("interface A {", member, times, "long x; };", &length);
            size_t each = asked_by(call, text, length, 0, &status) / length;
            CHECK(status == ASKING[call].status);
            most = each > most ? each : most;
            free(text);
        }
        printf("  %s: at most %zu bytes for each byte\n", ASKING[call].name, most);
        CHECK(most <= ASKING[call].of_definition);
    }
}

/* What is read asks for no more: there is nothing to say, and all of it are parts that are read. */
static void test_bytes_for_what_is_read(void) {
    static const char member[] = "[A] interface A { [B] attribute long x; };\n";
    size_t length;
    uint32_t status;
    char *text = repeated("", member, large(4000), "", &length);
    CHECK(asked_by(0, text, length, 0, &status) <= ASKING[0].of_text * length && status == WEEDLE_STATUS_NO_ROOM);
    CHECK(asked_by(1, text, length, 0, &status) <= 255 * length && status == WEEDLE_STATUS_READ);
    CHECK(asked_by(3, text, length, 0, &status) <= 255 * length && status == WEEDLE_STATUS_NO_ROOM);
    free(text);
}

/* An error in each line of 160 kB: each is a part, and no table is taken. */
static void test_many_errors(void) {
    static const char lines[] = "interface A { long x; attribute long y; };\nenum E { \"a\" \"b\" };\n";
    size_t length, times = large(2500);
    char *text = repeated("", lines, times, "", &length);
    struct weedle_recovered found;
    uint32_t status;
    CHECK(asked_by(0, text, length, 0, &status) < 1200 * length && status == WEEDLE_STATUS_NO_ROOM);
    CHECK(weedle_recover(text, length, parts, 0, nodes, 0, &found) == WEEDLE_STATUS_NO_ROOM);
    CHECK(found.unread == 2 * times);
    free(text);
}

static const struct test TESTS[] = {
    {"parts", test_parts},
    {"nodes of parts", test_nodes_of_parts},
    {"a text that is read", test_a_text_that_is_read},
    {"rooms", test_rooms},
    {"why parts are unread", test_why_parts_are_unread},
    {"messages that are cut", test_messages_that_are_cut},
    {"parts that are none", test_parts_that_are_none},
    {"from a place on", test_from_a_place_on},
    {"words that are expected", test_words_that_are_expected},
    {"what isn't UTF-8", test_what_is_not_utf8},
    {"memory that is refused", test_memory_that_is_refused},
    {"bytes that are asked for", test_bytes_that_are_asked_for},
    {"bytes for a definition", test_bytes_for_a_definition},
    {"bytes for what is read", test_bytes_for_what_is_read},
    {"many errors", test_many_errors},
};

int main(void) { return run_tests(TESTS, sizeof TESTS / sizeof *TESTS); }
