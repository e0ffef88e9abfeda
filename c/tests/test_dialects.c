/*
 * Tests of the calls of the C library that take a dialect.
 *
 *     c/run_tests.sh
 *
 * builds and runs them, with the texts of tests/ as files: of each the calls answer by weedle2's rules what the calls without
 * a dialect answer, and what these read whole, today's rules read whole too, and lay out alike. What today's rules read and
 * refuse is by hand, from the standard's grammar, as in tests/today.toml; layouts are from docs/LAYOUT.md. It is linked with
 * `-Wl,--wrap=malloc,--wrap=realloc`, so that requests for memory can be refused.
 */
#include "checks.h"
#include "requests.h"

enum { NODES = 20000, BYTES = 40000, PARTS = 2000, MESSAGE = 1024, WORDS = 2048 };
enum { OLD = WEEDLE_DIALECT_WEEDLE2, NEW = WEEDLE_DIALECT_TODAY };

/* The files that are given. */
static char **files;
static int file_count;

/* What the calls write to, each twice; and what is there before. */
static struct weedle_node nodes[NODES], other_nodes[NODES];
static struct weedle_part parts[PARTS], other_parts[PARTS];
static char out[BYTES], other_out[BYTES], message[MESSAGE], other_message[MESSAGE], words[WORDS], other_words[WORDS];

/* The text of a file, which the caller frees. */
static char *text_of(const char *name, size_t *length) {
    FILE *file = fopen(name, "rb");
    char *text = malloc(BYTES);
    if (file == NULL || text == NULL)
        abort();
    *length = fread(text, 1, BYTES, file);
    if (fclose(file) != 0)
        abort();
    return text;
}

/* What is said of a text from a place on, by weedle2's rules and by the call without a dialect. */
static void check_said(const char *text, size_t length, size_t start) {
    struct weedle_refusal refusal, other;
    struct weedle_expected_words expected, others;
    uint32_t status = weedle_explain_from(text, length, start, message, MESSAGE, &refusal);
    CHECK(weedle_explain_in(OLD, text, length, start, other_message, MESSAGE, &other) == status);
    CHECK(memcmp(&refusal, &other, sizeof refusal) == 0);
    CHECK(status != WEEDLE_STATUS_REFUSED || strcmp(message, other_message) == 0);
    status = weedle_expected(text, length, start, words, WORDS, &expected);
    CHECK(weedle_expected_in(OLD, text, length, start, other_words, WORDS, &others) == status);
    CHECK(memcmp(&expected, &others, sizeof expected) == 0);
    CHECK(status != WEEDLE_STATUS_READ || memcmp(words, other_words, expected.length) == 0);
}

/* What is said of a part. */
static void check_part(const char *text, size_t length, const struct weedle_part *part) {
    struct weedle_refusal refusal, other;
    struct weedle_expected_words expected, others;
    uint32_t status = weedle_explain_part(text, length, part, message, MESSAGE, &refusal);
    CHECK(weedle_explain_part_in(OLD, text, length, part, other_message, MESSAGE, &other) == status);
    CHECK(memcmp(&refusal, &other, sizeof refusal) == 0);
    CHECK(status != WEEDLE_STATUS_REFUSED || strcmp(message, other_message) == 0);
    status = weedle_expected_part(text, length, part, words, WORDS, &expected);
    CHECK(weedle_expected_part_in(OLD, text, length, part, other_words, WORDS, &others) == status);
    CHECK(memcmp(&expected, &others, sizeof expected) == 0);
    CHECK(status != WEEDLE_STATUS_READ || memcmp(words, other_words, expected.length) == 0);
}

/* The parts of a text. */
static void check_parts(const char *text, size_t length) {
    struct weedle_recovered found, other;
    uint32_t status = weedle_recover(text, length, parts, PARTS, nodes, NODES, &found);
    CHECK(weedle_recover_in(OLD, text, length, other_parts, PARTS, other_nodes, NODES, &other) == status);
    CHECK(memcmp(&found, &other, sizeof found) == 0);
    if (status != WEEDLE_STATUS_READ)
        return;
    CHECK(memcmp(parts, other_parts, found.parts * sizeof *parts) == 0);
    CHECK(memcmp(nodes, other_nodes, found.nodes * sizeof *nodes) == 0);
    for (size_t i = 0; i < found.parts; i++)
        if (!parts[i].is_read)
            check_part(text, length, &parts[i]);
}

/* The tree and the layout of a text by weedle2's rules, and by today's, where it is read whole. */
static void check_read(const char *text, size_t length) {
    struct weedle_answer answer, other;
    struct weedle_formatted formatted, others;
    uint32_t status = weedle_syntax(text, length, nodes, NODES, &answer);
    uint32_t laid_out = weedle_format(text, length, out, BYTES, &formatted);
    CHECK(weedle_syntax_in(OLD, text, length, other_nodes, NODES, &other) == status);
    CHECK(memcmp(&answer, &other, sizeof answer) == 0);
    CHECK(status != WEEDLE_STATUS_READ || memcmp(nodes, other_nodes, answer.count * sizeof *nodes) == 0);
    CHECK(weedle_format_in(OLD, text, length, other_out, BYTES, &others) == laid_out);
    CHECK(memcmp(&formatted, &others, sizeof formatted) == 0);
    CHECK(laid_out != WEEDLE_STATUS_READ || memcmp(out, other_out, formatted.length) == 0);
    if (laid_out != WEEDLE_STATUS_READ)
        return;
    status = weedle_syntax_in(NEW, text, length, nodes, NODES, &answer);
    CHECK((status == WEEDLE_STATUS_READ || status == WEEDLE_STATUS_NO_ROOM) && answer.rest == length);
    CHECK(weedle_format_in(NEW, text, length, other_out, BYTES, &others) == WEEDLE_STATUS_READ);
    CHECK(memcmp(&formatted, &others, sizeof formatted) == 0);
    CHECK(memcmp(out, other_out, formatted.length) == 0);
}

/* Of each text of tests/. */
static void test_texts(void) {
    CHECK(file_count > 0);
    for (int i = 0; i < file_count; i++) {
        size_t length;
        char *text = text_of(files[i], &length);
        int before = failures;
        check_read(text, length);
        check_said(text, length, 0);
        check_said(text, length, length / 2);
        check_parts(text, length);
        if (failures != before)
            fprintf(stderr, "  in %s\n", files[i]);
        free(text);
    }
}

/* Numbers that no dialect has: nothing is written, and the text, which isn't UTF-8, isn't looked at. */
static void test_no_dialect(void) {
    static const uint32_t numbers[] = {2, 3, 255, 256, 65536, UINT32_MAX};
    static const char text[] = "\xff";
    static const struct weedle_refusal no_refusal;
    for (size_t i = 0; i < sizeof numbers / sizeof *numbers; i++) {
        struct weedle_answer answer = {7, 7};
        struct weedle_refusal refusal;
        struct weedle_expected_words expected = {7, 7, 7};
        struct weedle_recovered found = {7, 7, 7, 7};
        struct weedle_formatted formatted = {7, 7, 7};
        struct weedle_node node = {7, 7, 7, 7};
        struct weedle_part part = {WEEDLE_DEFINITION, 0, 0, 1, 0};
        char room[4] = "xyz";
        uint32_t number = numbers[i];
        memset(&refusal, 7, sizeof refusal);
        CHECK(weedle_syntax_in(number, text, 1, &node, 1, &answer) == WEEDLE_STATUS_NO_DIALECT);
        CHECK(answer.count == 0 && answer.rest == 0 && node.rule == 7);
        CHECK(weedle_explain_in(number, text, 1, 9, room, 4, &refusal) == WEEDLE_STATUS_NO_DIALECT);
        CHECK(memcmp(&refusal, &no_refusal, sizeof refusal) == 0);
        CHECK(weedle_expected_in(number, text, 1, 9, room, 4, &expected) == WEEDLE_STATUS_NO_DIALECT);
        CHECK(expected.count == 0 && expected.length == 0 && expected.place == 0);
        CHECK(weedle_recover_in(number, text, 1, &part, 1, &node, 1, &found) == WEEDLE_STATUS_NO_DIALECT);
        CHECK(found.parts == 0 && found.nodes == 0 && found.unread == 0 && found.rest == 0 && part.end == 1);
        memset(&refusal, 7, sizeof refusal);
        CHECK(weedle_explain_part_in(number, text, 1, &part, room, 4, &refusal) == WEEDLE_STATUS_NO_DIALECT);
        CHECK(memcmp(&refusal, &no_refusal, sizeof refusal) == 0);
        expected.count = expected.length = expected.place = 7;
        CHECK(weedle_expected_part_in(number, text, 1, &part, room, 4, &expected) == WEEDLE_STATUS_NO_DIALECT);
        CHECK(expected.count == 0 && expected.length == 0 && expected.place == 0);
        CHECK(weedle_format_in(number, text, 1, room, 4, &formatted) == WEEDLE_STATUS_NO_DIALECT);
        CHECK(formatted.length == 0 && formatted.rest == 0 && formatted.is_laid_out == 0);
        CHECK(strcmp(room, "xyz") == 0 && node.rule == 7);
    }
}

/* Bytes that aren't UTF-8, by both dialects. */
static void test_what_is_not_utf8(void) {
    static const char text[] = "interface A {}; // \xff";
    size_t length = strlen(text);
    for (uint32_t dialect = OLD; dialect <= NEW; dialect++) {
        struct weedle_answer answer;
        struct weedle_refusal refusal;
        struct weedle_expected_words expected;
        struct weedle_recovered found;
        struct weedle_formatted formatted;
        struct weedle_part part = {WEEDLE_DEFINITION, 0, 0, 1, 0};
        char room[4] = "xyz";
        CHECK(weedle_syntax_in(dialect, text, length, nodes, NODES, &answer) == WEEDLE_STATUS_NOT_UTF8);
        CHECK(answer.count == 0 && answer.rest == 19);
        CHECK(weedle_explain_in(dialect, text, length, 0, room, 4, &refusal) == WEEDLE_STATUS_NOT_UTF8);
        CHECK(refusal.place == 19 && refusal.line == 0);
        CHECK(weedle_expected_in(dialect, text, length, 0, room, 4, &expected) == WEEDLE_STATUS_NOT_UTF8);
        CHECK(expected.place == 19 && expected.count == 0);
        CHECK(weedle_recover_in(dialect, text, length, parts, PARTS, nodes, NODES, &found) == WEEDLE_STATUS_NOT_UTF8);
        CHECK(found.rest == 19 && found.parts == 0);
        CHECK(weedle_explain_part_in(dialect, text, length, &part, room, 4, &refusal) == WEEDLE_STATUS_NOT_UTF8);
        CHECK(weedle_expected_part_in(dialect, text, length, &part, room, 4, &expected) == WEEDLE_STATUS_NOT_UTF8);
        CHECK(weedle_format_in(dialect, text, length, room, 4, &formatted) == WEEDLE_STATUS_NOT_UTF8);
        CHECK(formatted.rest == 19 && formatted.length == 0 && strcmp(room, "xyz") == 0);
    }
}

/* Texts that today's rules read and weedle2's refuse, and how they are laid out; those without a definition come last. */
static const struct {
    const char *text, *laid_out;
} TODAY[] = {
    {"[Exposed=*]interface A{};", "[Exposed=*] interface A {};\n"},
    {"namespace N{const long X=1;};", "namespace N {\n  const long X = 1;\n};\n"},
    {"interface A{async_iterable<long>;};", "interface A {\n  async_iterable<long>;\n};\n"},
    {"typedef sequence<[Clamp]octet>A;", "typedef sequence<[Clamp] octet> A;\n"},
    {"dictionary D{any x=undefined;};", "dictionary D {\n  any x = undefined;\n};\n"},
    {"[A][B]\ninterface C{};", "[A] [B]\ninterface C {};\n"},
    {"[R=( 2 ,8),S=(\"a\",\"b\")]interface C{};", "[R=(2, 8), S=(\"a\", \"b\")] interface C {};\n"},
    {"/// a\ntypedef long A;\ntypedef long B;", "/// a\ntypedef long A;\n\ntypedef long B;\n"},
    {"interface A{};/// end", "interface A {};\n/// end"},
    {"interface A{long f();/// end\n};", "interface A {\n  long f();\n  /// end\n};\n"},
    {"\n // a\n\n/* b */ ", "\n // a\n\n/* b */ "},
    {"///a\n\n // b", "///a\n\n // b"},
};

enum { DEFINED = sizeof TODAY / sizeof *TODAY - 2 };

static void test_todays_texts(void) {
    for (size_t i = 0; i < sizeof TODAY / sizeof *TODAY; i++) {
        const char *text = TODAY[i].text, *laid_out = TODAY[i].laid_out;
        size_t length = strlen(text), most = strlen(laid_out);
        struct weedle_answer answer;
        struct weedle_refusal refusal;
        struct weedle_formatted formatted;
        struct weedle_recovered found;
        CHECK(weedle_syntax(text, length, nodes, NODES, &answer) == WEEDLE_STATUS_REFUSED);
        CHECK(weedle_syntax_in(NEW, text, length, nodes, NODES, &answer) == WEEDLE_STATUS_READ);
        CHECK(answer.rest == length && nodes[0].rule == WEEDLE_TODAY_DEFINITIONS && nodes[0].end == length);
        CHECK(weedle_explain_in(NEW, text, length, 0, message, MESSAGE, &refusal) == WEEDLE_STATUS_READ);
        CHECK(weedle_recover_in(NEW, text, length, parts, PARTS, nodes, NODES, &found) == WEEDLE_STATUS_READ);
        CHECK(found.unread == 0 && found.parts > 0);
        CHECK(parts[0].rule == (i < DEFINED ? WEEDLE_TODAY_DEFINITION : WEEDLE_TODAY_PIECE));
        for (size_t room = most ? most - 1 : 0; room <= most; room++) {
            memset(out, 'x', most + 1);
            CHECK(weedle_format_in(NEW, text, length, out, room, &formatted) ==
                  (room < most ? WEEDLE_STATUS_NO_ROOM : WEEDLE_STATUS_READ));
            CHECK(formatted.length == most && formatted.rest == length && formatted.is_laid_out == 1);
            CHECK(out[room < most ? 0 : most] == 'x');
        }
        CHECK(memcmp(out, laid_out, most) == 0);
    }
}

/* A text that both refuse: today's rules come further, to the `;` in place of a `(`. */
static void test_what_both_refuse(void) {
    static const char text[] = "[Exposed=*] interface A { long x; };\ntypedef long T;";
    static const char said[] = "1:33: expected `(`\n[Exposed=*] interface A { long x; };\n                                ^\n";
    size_t length = strlen(text);
    struct weedle_answer answer;
    struct weedle_refusal refusal;
    struct weedle_expected_words expected;
    struct weedle_recovered found;
    size_t unread = 0;
    CHECK(weedle_syntax_in(NEW, text, length, nodes, NODES, &answer) == WEEDLE_STATUS_REFUSED && answer.rest == 0);
    CHECK(weedle_explain_in(OLD, text, length, 0, message, MESSAGE, &refusal) == WEEDLE_STATUS_REFUSED);
    CHECK(refusal.place == 9);
    CHECK(weedle_explain_in(NEW, text, length, 0, message, MESSAGE, &refusal) == WEEDLE_STATUS_REFUSED);
    CHECK(refusal.place == 32 && refusal.line == 1 && refusal.column == 33 && strcmp(message, said) == 0);
    CHECK(weedle_expected_in(NEW, text, length, 0, words, WORDS, &expected) == WEEDLE_STATUS_READ);
    CHECK(expected.count == 1 && expected.place == 32 && strcmp(words, "`(`") == 0);
    CHECK(weedle_explain_in(NEW, text, length, 37, message, MESSAGE, &refusal) == WEEDLE_STATUS_READ);
    CHECK(weedle_explain_in(NEW, text, length, length + 1, message, MESSAGE, &refusal) == WEEDLE_STATUS_NO_PLACE);
    CHECK(weedle_expected_in(NEW, text, length, length + 1, words, WORDS, &expected) == WEEDLE_STATUS_NO_PLACE);
    CHECK(weedle_recover_in(NEW, text, length, parts, PARTS, nodes, NODES, &found) == WEEDLE_STATUS_READ);
    CHECK(found.unread == 1);
    for (size_t i = 0; i < found.parts; i++) {
        if (parts[i].is_read)
            continue;
        unread = parts[i].rule;
        CHECK(parts[i].start == 26 && parts[i].end == 34 && parts[i].definition == 0);
        CHECK(weedle_explain_part_in(NEW, text, length, &parts[i], message, MESSAGE, &refusal) == WEEDLE_STATUS_REFUSED);
        CHECK(refusal.start == 26 && refusal.place == 32 && strcmp(message, said) == 0);
        CHECK(weedle_expected_part_in(NEW, text, length, &parts[i], words, WORDS, &expected) == WEEDLE_STATUS_READ);
        CHECK(expected.count == 1 && expected.place == 32 && strcmp(words, "`(`") == 0);
        parts[i].end = (uint32_t)length + 1;
        CHECK(weedle_explain_part_in(NEW, text, length, &parts[i], message, MESSAGE, &refusal) == WEEDLE_STATUS_NO_PLACE);
        CHECK(weedle_expected_part_in(NEW, text, length, &parts[i], words, WORDS, &expected) == WEEDLE_STATUS_NO_PLACE);
    }
    CHECK(unread == WEEDLE_TODAY_INTERFACE_MEMBER);
}

/* What nests thousands deep has a tree and a layout, and by today's rules no message and no parts. */
static void test_what_nests_deep(void) {
    size_t times = 10000, length, refused_length;
    char *front = repeated("typedef ", "sequence<", times, "long", &length);
    char *text = repeated(front, ">", times, " A;", &length);
    char *refused_text = repeated(front, ">", times, " ;", &refused_length);
    struct weedle_answer answer;
    struct weedle_refusal refusal;
    struct weedle_expected_words expected;
    struct weedle_recovered found;
    struct weedle_formatted formatted;
    CHECK(weedle_syntax_in(NEW, text, length, nodes, 0, &answer) == WEEDLE_STATUS_NO_ROOM && answer.rest == length);
    CHECK(weedle_format_in(NEW, text, length, out, 0, &formatted) == WEEDLE_STATUS_NO_ROOM && formatted.length == length + 1);
    CHECK(weedle_syntax_in(NEW, refused_text, refused_length, nodes, 0, &answer) == WEEDLE_STATUS_REFUSED);
    CHECK(weedle_explain_in(NEW, refused_text, refused_length, 0, message, MESSAGE, &refusal) == WEEDLE_STATUS_TOO_DEEP);
    CHECK(refusal.place == 0 && refusal.length == 0);
    CHECK(weedle_expected_in(NEW, refused_text, refused_length, 0, words, WORDS, &expected) == WEEDLE_STATUS_TOO_DEEP);
    CHECK(expected.place == 0 && expected.count == 0);
    CHECK(weedle_recover_in(NEW, refused_text, refused_length, parts, PARTS, nodes, NODES, &found) == WEEDLE_STATUS_TOO_DEEP);
    CHECK(found.parts == 0 && found.nodes == 0 && found.unread == 0 && found.rest == 0);
    free(refused_text);
    free(text);
    free(front);
}

/* What each call comes to, of a text that today's rules refuse or read. */
static uint32_t status_of(int call, const char *text, size_t length) {
    struct weedle_answer answer;
    struct weedle_refusal refusal;
    struct weedle_expected_words expected;
    struct weedle_recovered found;
    struct weedle_formatted formatted;
    struct weedle_part part = {WEEDLE_TODAY_INTERFACE_MEMBER, 0, 26, 34, 0};
    switch (call) {
    case 0: return weedle_syntax_in(NEW, text, length, nodes, NODES, &answer);
    case 1: return weedle_explain_in(NEW, text, length, 0, message, MESSAGE, &refusal);
    case 2: return weedle_expected_in(NEW, text, length, 0, words, WORDS, &expected);
    case 3: return weedle_recover_in(NEW, text, length, parts, PARTS, nodes, NODES, &found);
    case 4: return weedle_explain_part_in(NEW, text, length, &part, message, MESSAGE, &refusal);
    case 5: return weedle_expected_part_in(NEW, text, length, &part, words, WORDS, &expected);
    default: return weedle_format_in(NEW, text, length, out, BYTES, &formatted);
    }
}

/* Refuses each request in turn: the answer is 'no memory', until none is refused. */
static void test_memory_that_is_refused(void) {
    static const char refused_text[] = "[Exposed=*] interface A { long x; };";
    static const char text[] = "[Exposed=*]interface A{async_iterable<long>;};";
    for (int call = 0; call < 7; call++) {
        const char *it = call == 0 || call == 6 ? text : refused_text;
        uint32_t ample = status_of(call, it, strlen(it)), status;
        CHECK(ample == (call == 1 || call == 4 ? WEEDLE_STATUS_REFUSED : WEEDLE_STATUS_READ));
        for (unsigned long number = 1;; number++) {
            refuse(number);
            status = status_of(call, it, strlen(it));
            refuse_none();
            if (none_was_refused())
                break;
            /* A hint is left out where there is no memory for the search. */
            CHECK(status == WEEDLE_STATUS_NO_MEMORY || status == ample);
        }
        CHECK(refused > 1 && status == ample);
    }
}

static const struct test TESTS[] = {
    {"texts of tests/", test_texts},
    {"no dialect", test_no_dialect},
    {"what isn't UTF-8", test_what_is_not_utf8},
    {"today's texts", test_todays_texts},
    {"what both refuse", test_what_both_refuse},
    {"what nests deep", test_what_nests_deep},
    {"memory that is refused", test_memory_that_is_refused},
};

int main(int count, char **names) {
    files = names + 1;
    file_count = count - 1;
    return run_tests(TESTS, sizeof TESTS / sizeof *TESTS);
}
