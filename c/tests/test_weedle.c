/*
 * Tests of the C library: statuses, nodes, messages, room, memory that is asked for and that is refused, and threads.
 *
 *     c/run_tests.sh
 *
 * builds and runs them. The expected nodes are worked out by hand from the rows of tools/description, the expected
 * words are those of docs/USING.md and of the tests of weedle_rows. It is linked with
 * `-Wl,--wrap=malloc,--wrap=realloc`, so that requests for memory are counted, and can be refused.
 */
#include <pthread.h>

#include "checks.h"
#include "requests.h"

/* A statement, and what its rows read. */
static const char STATEMENT[] = "A includes B;// c";

static const struct weedle_node NODES[] = {
    {WEEDLE_DEFINITIONS, 0, 0, 17},
    {WEEDLE_DEFINITION, 1, 0, 17},
    {WEEDLE_INCLUDES_STATEMENT_DEFINITION, 2, 0, 17},
    {WEEDLE_OPT_EXTENDED_ATTRIBUTE_LIST, 3, 0, 0},
    {WEEDLE_IDENTIFIER, 3, 0, 2},
    {WEEDLE_TRIVIA, 4, 0, 0},
    {WEEDLE_OPT_BYTES_UNDERSCORE, 4, 0, 0},
    {WEEDLE_IDENTIFIER_TEXT, 4, 0, 1},
    {WEEDLE_ONE_OF_LETTER, 5, 0, 1},
    {WEEDLE_RUN_NAME, 5, 1, 1},
    {WEEDLE_TRIVIA, 4, 1, 2},
    {WEEDLE_PIECE, 5, 1, 2},
    {WEEDLE_BLANKS, 6, 1, 2},
    {WEEDLE_ONE_OF_BLANK, 7, 1, 2},
    {WEEDLE_RUN_BLANK, 7, 2, 2},
    {WEEDLE_INCLUDES, 3, 2, 11},
    {WEEDLE_TRIVIA, 4, 2, 2},
    {WEEDLE_BYTES_INCLUDES, 4, 2, 10},
    {WEEDLE_NOT_NEXT_NAME, 4, 10, 10},
    {WEEDLE_TRIVIA, 4, 10, 11},
    {WEEDLE_PIECE, 5, 10, 11},
    {WEEDLE_BLANKS, 6, 10, 11},
    {WEEDLE_ONE_OF_BLANK, 7, 10, 11},
    {WEEDLE_RUN_BLANK, 7, 11, 11},
    {WEEDLE_IDENTIFIER, 3, 11, 12},
    {WEEDLE_TRIVIA, 4, 11, 11},
    {WEEDLE_OPT_BYTES_UNDERSCORE, 4, 11, 11},
    {WEEDLE_IDENTIFIER_TEXT, 4, 11, 12},
    {WEEDLE_ONE_OF_LETTER, 5, 11, 12},
    {WEEDLE_RUN_NAME, 5, 12, 12},
    {WEEDLE_TRIVIA, 4, 12, 12},
    {WEEDLE_SEMI_COLON, 3, 12, 17},
    {WEEDLE_TRIVIA, 4, 12, 12},
    {WEEDLE_BYTES_SEMI_COLON, 4, 12, 13},
    {WEEDLE_TRIVIA, 4, 13, 17},
    {WEEDLE_PIECE, 5, 13, 17},
    {WEEDLE_LINE_COMMENT, 6, 13, 17},
    {WEEDLE_BYTES_SLASH_SLASH, 7, 13, 15},
    {WEEDLE_NOT_NEXT_SLASH, 7, 15, 15},
    {WEEDLE_RUN_NOT_LINE_FEED, 7, 15, 17},
    {WEEDLE_LINE_END, 7, 17, 17},
    {WEEDLE_NOT_NEXT_ANY, 8, 17, 17},
};

enum { COUNT = sizeof NODES / sizeof *NODES };

static void test_nodes_of_a_statement(void) {
    struct weedle_node nodes[COUNT];
    struct weedle_answer answer;
    CHECK(weedle_syntax(STATEMENT, strlen(STATEMENT), nodes, COUNT, &answer) == WEEDLE_STATUS_READ);
    CHECK(answer.count == COUNT && answer.rest == 17);
    CHECK(memcmp(nodes, NODES, sizeof nodes) == 0);
}

static void test_room(void) {
    struct weedle_node nodes[COUNT + 2], before[COUNT + 2];
    memset(before, 0x5a, sizeof before);
    for (size_t room = 0; room <= COUNT + 1; room++) {
        struct weedle_answer answer;
        memcpy(nodes, before, sizeof nodes);
        uint32_t status = weedle_syntax(STATEMENT, strlen(STATEMENT), nodes, room, &answer);
        size_t written = room < COUNT ? 0 : COUNT;
        CHECK(status == (written ? WEEDLE_STATUS_READ : WEEDLE_STATUS_NO_ROOM));
        CHECK(answer.count == COUNT && answer.rest == 17);
        CHECK(memcmp(nodes, NODES, written * sizeof *nodes) == 0);
        CHECK(memcmp(nodes + written, before, (COUNT + 2 - written) * sizeof *nodes) == 0);
    }
}

/* Whether all that is said of a refusal is 0 but its place. */
static int is_silent(const struct weedle_refusal *refusal, size_t place) {
    const struct weedle_refusal none = {0, place, 0, 0, 0, 0, 0, 0, 0};
    return memcmp(refusal, &none, sizeof none) == 0;
}

static void test_no_text(void) {
    struct weedle_node node;
    struct weedle_answer answer;
    struct weedle_refusal refusal;
    char message[4] = "xyz";
    CHECK(weedle_syntax("", 0, &node, 1, &answer) == WEEDLE_STATUS_READ);
    CHECK(answer.count == 1 && answer.rest == 0);
    CHECK(node.rule == WEEDLE_DEFINITIONS && node.depth == 0 && node.start == 0 && node.end == 0);
    CHECK(weedle_explain("", 0, message, sizeof message, &refusal) == WEEDLE_STATUS_READ);
    CHECK(strcmp(message, "xyz") == 0 && is_silent(&refusal, 0));
}

/* Every field of each answer is written. */
static void test_what_is_not_utf8(void) {
    static const char text[] = "interface A {}; // \xc3\xa9 \xff";
    struct weedle_node node = {7, 7, 7, 7};
    struct weedle_answer answer = {7, 7};
    struct weedle_refusal refusal = {7, 7, 7, 7, 7, 7, 7, 7, 7};
    struct weedle_formatted formatted = {7, 7, 7};
    char message[4] = "xyz";
    CHECK(weedle_syntax(text, strlen(text), &node, 1, &answer) == WEEDLE_STATUS_NOT_UTF8);
    CHECK(answer.count == 0 && answer.rest == 22 && node.rule == 7);
    answer = (struct weedle_answer){7, 7};
    CHECK(weedle_syntax_of(WEEDLE_DEFINITION, text, strlen(text), &node, 1, &answer) == WEEDLE_STATUS_NOT_UTF8);
    CHECK(answer.count == 0 && answer.rest == 22 && node.rule == 7);
    CHECK(weedle_explain(text, strlen(text), message, sizeof message, &refusal) == WEEDLE_STATUS_NOT_UTF8);
    CHECK(is_silent(&refusal, 22));
    CHECK(weedle_format(text, strlen(text), message, sizeof message, &formatted) == WEEDLE_STATUS_NOT_UTF8);
    CHECK(formatted.length == 0 && formatted.rest == 22 && formatted.is_laid_out == 0);
    CHECK(strcmp(message, "xyz") == 0);
    /* A character that is cut off at the end isn't one. */
    CHECK(counted(text, 20, &answer) == WEEDLE_STATUS_NOT_UTF8 && answer.rest == 19);
}

/* A statement alone: its nodes are those of NODES from the third on, each two less deep. */
static void test_a_rule_at_the_front(void) {
    struct weedle_node nodes[COUNT], wanted[COUNT];
    struct weedle_answer answer;
    uint32_t rule = WEEDLE_INCLUDES_STATEMENT_DEFINITION;
    memcpy(wanted, NODES, sizeof wanted);
    for (int i = 2; i < COUNT; i++)
        wanted[i].depth -= 2;
    CHECK(weedle_syntax_of(rule, STATEMENT, strlen(STATEMENT), nodes, COUNT, &answer) == WEEDLE_STATUS_READ);
    CHECK(answer.count == COUNT - 2 && answer.rest == 17);
    CHECK(memcmp(nodes, wanted + 2, (COUNT - 2) * sizeof *nodes) == 0);
    /* What follows it is left, also where no definition is. */
    CHECK(weedle_syntax_of(WEEDLE_TYPE, "long? x", 7, nodes, COUNT, &answer) == WEEDLE_STATUS_READ);
    CHECK(nodes[0].rule == WEEDLE_TYPE && nodes[0].start == 0 && nodes[0].end == 6 && answer.rest == 6);
    CHECK(weedle_syntax_of(WEEDLE_DEFINITIONS, "A includes B; foo", 17, nodes, 0, &answer) == WEEDLE_STATUS_NO_ROOM);
    CHECK(answer.rest == 14);
    CHECK(weedle_syntax_of(WEEDLE_DEFINITIONS, "foo", 3, nodes, COUNT, &answer) == WEEDLE_STATUS_READ);
    CHECK(answer.count == 1 && answer.rest == 0);
}

static void test_a_rule_that_fails(void) {
    struct weedle_node node = {7, 7, 7, 7};
    struct weedle_answer answer = {7, 7};
    CHECK(weedle_syntax_of(WEEDLE_TYPE, "1 x", 3, &node, 1, &answer) == WEEDLE_STATUS_REFUSED);
    CHECK(answer.count == 0 && answer.rest == 0 && node.rule == 7);
    answer = (struct weedle_answer){7, 7};
    CHECK(weedle_syntax_of(WEEDLE_RULE_COUNT, "A", 1, &node, 1, &answer) == WEEDLE_STATUS_NO_RULE);
    CHECK(answer.count == 0 && answer.rest == 0 && node.rule == 7);
    CHECK(weedle_syntax_of(UINT32_MAX, "\xff", 1, &node, 1, &answer) == WEEDLE_STATUS_NO_RULE);
    CHECK(weedle_syntax_of(65536 + WEEDLE_TYPE, "long", 4, &node, 1, &answer) == WEEDLE_STATUS_NO_RULE);
}

/* Each rule at the front of no text: a rule that reads it has its own node first. */
static void test_each_rule(void) {
    struct weedle_node nodes[COUNT];
    for (uint32_t rule = 0; rule < WEEDLE_RULE_COUNT; rule++) {
        struct weedle_answer answer;
        uint32_t status = weedle_syntax_of(rule, "", 0, nodes, COUNT, &answer);
        CHECK(status == WEEDLE_STATUS_READ || status == WEEDLE_STATUS_REFUSED);
        CHECK(answer.rest == 0 && (answer.count > 0) == (status == WEEDLE_STATUS_READ));
        CHECK(status != WEEDLE_STATUS_READ || nodes[0].rule == rule);
    }
}

/* A text of today's WebIDL, which weedle2's rules refuse, by the rule of today's definitions. */
static void test_todays_rules(void) {
    static const char text[] = "[Exposed=*] interface A { async_iterable<long>; }; // c";
    size_t length = strlen(text);
    struct weedle_node nodes[400];
    struct weedle_answer answer;
    CHECK(weedle_syntax(text, length, nodes, 400, &answer) == WEEDLE_STATUS_REFUSED && answer.rest == 0);
    CHECK(weedle_syntax_of(WEEDLE_TODAY_DEFINITIONS, text, length, nodes, 400, &answer) == WEEDLE_STATUS_READ);
    CHECK(answer.rest == length && nodes[0].end == length);
    CHECK(nodes[0].rule == WEEDLE_TODAY_DEFINITIONS && nodes[1].rule == WEEDLE_TODAY_PIECE);
    CHECK(weedle_syntax_of(WEEDLE_TODAY_DEFINITIONS, "interface A;", 12, nodes, 400, &answer) == WEEDLE_STATUS_READ);
    CHECK(answer.rest == 0 && answer.count == 1);
}

static void test_what_is_refused(void) {
    static const char text[] = "interface A {}; enum E { \"a\" \"b\" };";
    struct weedle_node nodes[100];
    struct weedle_answer answer;
    memset(nodes, 0x5a, sizeof nodes);
    CHECK(weedle_syntax(text, strlen(text), nodes, 100, &answer) == WEEDLE_STATUS_REFUSED);
    CHECK(answer.count == 0 && answer.rest == 16 && nodes[0].rule == 0x5a5a5a5a);
    CHECK(counted("  ", 2, &answer) == WEEDLE_STATUS_REFUSED && answer.rest == 0);
}

static void test_words_of_a_refusal(void) {
    static const char text[] = "interface A {\n  readonly attribute long x\n};";
    static const char words[] = "3:1: expected `;`\n};\n^\n2:28: `;` missing here?\n";
    struct weedle_refusal refusal;
    char message[1024];
    CHECK(weedle_explain(text, strlen(text), message, sizeof message, &refusal) == WEEDLE_STATUS_REFUSED);
    CHECK(refusal.start == 0 && refusal.place == 42 && refusal.line == 3 && refusal.column == 1);
    CHECK(refusal.length == strlen(words) && strcmp(message, words) == 0);
}

/* Each room, from none to more than enough: the message is cut at a character. */
static void test_a_message_is_cut_at_a_character(void) {
    static const char text[] = "interface A {}; // \xe2\x82\xac \xc3\xa9\nfoo \xc3\xa9";
    struct weedle_refusal refusal;
    char whole[1024], message[1024];
    CHECK(weedle_explain(text, strlen(text), whole, sizeof whole, &refusal) == WEEDLE_STATUS_REFUSED);
    CHECK(refusal.length == strlen(whole) && strstr(whole, "foo \xc3\xa9\n") != NULL);
    for (size_t room = 0; room <= refusal.length + 2; room++) {
        size_t most = room == 0 ? 0 : room - 1 < refusal.length ? room - 1 : refusal.length;
        while (((unsigned char)whole[most] & 0xc0) == 0x80)
            most--;
        memset(message, 'x', sizeof message);
        CHECK(weedle_explain(text, strlen(text), message, room, &refusal) == WEEDLE_STATUS_REFUSED);
        CHECK(refusal.length == strlen(whole) && memcmp(message, whole, most) == 0);
        CHECK(room == 0 ? message[0] == 'x' : message[most] == 0);
        CHECK(message[most + 1] == 'x' && message[room] == 'x');
    }
}

static void test_any_message_has_room_in_1024_bytes(void) {
    size_t length;
    char *text = repeated("interface A { /*", "\xf0\x9f\x98\x80", 300, "*/ const long x = ; };", &length);
    struct weedle_refusal refusal;
    char message[1024];
    CHECK(weedle_explain(text, length, message, sizeof message, &refusal) == WEEDLE_STATUS_REFUSED);
    CHECK(refusal.length < sizeof message && strlen(message) == refusal.length);
    CHECK(refusal.column == 335);
    free(text);
}

/* A no-break space is shown as U+00A0, and the mark follows what that takes. */
static void test_what_cannot_be_seen_has_room_too(void) {
    size_t length;
    char *text = repeated("/*", "\xc2\xa0", 300, "*/ typedef unsiged long T; // ", &length);
    struct weedle_refusal refusal;
    char message[1024];
    CHECK(weedle_explain(text, length, message, sizeof message, &refusal) == WEEDLE_STATUS_REFUSED);
    CHECK(refusal.length < sizeof message && strlen(message) == refusal.length);
    CHECK(refusal.column == 327 && strstr(message, "U+00A0U+00A0*/ typedef unsiged long T;") != NULL);
    CHECK(strstr(message, "\n1:314: `unsigned` in place of `unsiged`?\n") != NULL);
    free(text);
}

/* A text with what is said of it: the hint's line, its kind, and the bytes that it speaks of. */
struct hinted {
    const char *text, *line;
    enum weedle_hint hint;
    size_t place, length;
};

static const struct hinted HINTED[] = {
    {"interface A { atribute long x; };", "1:15: `attribute` in place of `atribute`?\n", WEEDLE_HINT_KEYWORD, 14, 8},
    {"/// a\ntypedef long T;", "1:1: no docstring here\n", WEEDLE_HINT_DOCSTRING, 0, 5},
    {"interface A { }\ninterface B { };", "1:16: `;` missing here?\n", WEEDLE_HINT_MISSING, 15, 0},
    {"enum E { \"a };", "1:10: the string opens here\n", WEEDLE_HINT_OPEN_STRING, 9, 1},
    {"enum E { \"a,\n\"b\" };", "1:10: the string that opens here spans lines\n", WEEDLE_HINT_SPLIT_STRING, 9, 1},
    {"\xef\xbb\xbftypedef long T;", "1:1: a byte order mark\n", WEEDLE_HINT_BYTE_ORDER_MARK, 0, 3},
    {"// a", "1:1: no definitions\n", WEEDLE_HINT_NO_DEFINITIONS, 0, 0},
    {"enum E { \"a\" \"b\" };", "1:13: `,` missing here?\n", WEEDLE_HINT_MISSING, 12, 0},
    {"enum E { \"a\"; \"b\" };", "1:13: `,` in place of `;`?\n", WEEDLE_HINT_WRONG_SIGN, 12, 1},
    {"interface A { attribute long x;; };", "1:32: no `;` here\n", WEEDLE_HINT_EXTRA, 31, 1},
    {"interface A { attribute readonly long x; };", "1:15: `readonly` in front of `attribute`?\n",
     WEEDLE_HINT_WORD_ORDER, 14, 18},
    {"dictionary D { const long X = 1; };", "", WEEDLE_HINT_NONE, 0, 0},
};

static void test_hints(void) {
    for (size_t i = 0; i < sizeof HINTED / sizeof *HINTED; i++) {
        const struct hinted *it = &HINTED[i];
        struct weedle_refusal said;
        char message[1024];
        CHECK(weedle_explain(it->text, strlen(it->text), message, sizeof message, &said) == WEEDLE_STATUS_REFUSED);
        CHECK(strcmp(message + said.hint_offset, it->line) == 0);
        CHECK(said.hint == it->hint && said.hint_place == it->place && said.hint_length == it->length);
        CHECK(said.length == strlen(message) && said.hint_offset == said.length - strlen(it->line));
    }
}

/* Laid out by hand, as docs/LAYOUT.md says. */
static void test_a_text_laid_out(void) {
    static const char text[] = "interface A{attribute long x;};//\xc3\xa9", laid_out[] =
        "interface A {\n  attribute long x;\n}; //\xc3\xa9\n";
    size_t length = strlen(laid_out);
    struct weedle_formatted formatted;
    char out[100];
    for (size_t room = 0; room <= length + 1; room++) {
        int fits = room >= length;
        memset(out, 'x', sizeof out);
        CHECK(weedle_format(text, strlen(text), out, room, &formatted) ==
              (fits ? WEEDLE_STATUS_READ : WEEDLE_STATUS_NO_ROOM));
        CHECK(formatted.length == length && formatted.rest == strlen(text) && formatted.is_laid_out == 1);
        CHECK(memcmp(out, fits ? laid_out : "xxx", fits ? length : 3) == 0 && out[length] == 'x');
    }
    CHECK(weedle_format(out, 0, out, 0, &formatted) == WEEDLE_STATUS_READ && formatted.length == 0);
}

static void test_no_layout(void) {
    static const char text[] = "interface A {}; foo", odd[] = "interface A {}; // \xff";
    struct weedle_formatted formatted;
    char out[4] = "xyz";
    CHECK(weedle_format(text, strlen(text), out, sizeof out, &formatted) == WEEDLE_STATUS_REFUSED);
    CHECK(formatted.rest == 16 && formatted.length == 0 && strcmp(out, "xyz") == 0);
    CHECK(weedle_format(odd, strlen(odd), out, sizeof out, &formatted) == WEEDLE_STATUS_NOT_UTF8);
    CHECK(formatted.rest == 19 && formatted.length == 0 && strcmp(out, "xyz") == 0);
}

static void test_version_rules_and_names(void) {
    CHECK(weedle_version() == WEEDLE_VERSION);
    CHECK(weedle_rules() == WEEDLE_RULE_COUNT);
    CHECK(strcmp(weedle_rule_name(WEEDLE_INTERFACE_DEFINITION), "interface_definition") == 0);
    CHECK(strcmp(weedle_rule_name(WEEDLE_DEFINITIONS), "definitions") == 0);
    CHECK(weedle_rule_name(WEEDLE_RULE_COUNT) == NULL);
    CHECK(sizeof(struct weedle_node) == 16);
}

/* Refuses the first request, then the second, and so on, until none is left. */
static void test_memory_that_is_refused(void) {
    size_t length;
    char *deep = repeated("A includes B;", "(", 70, "", &length);
    const char *const texts[] = {STATEMENT, "A includes B; foo", deep};
    for (size_t i = 0; i < sizeof texts / sizeof *texts; i++) {
        struct weedle_node nodes[COUNT] = {{7, 7, 7, 7}};
        struct weedle_answer answer, ample;
        struct weedle_refusal refusal, ample_refusal;
        char message[200], whole[200];
        uint32_t status, ample_status = weedle_syntax(texts[i], strlen(texts[i]), nodes, COUNT, &ample);
        uint32_t said = weedle_explain(texts[i], strlen(texts[i]), whole, sizeof whole, &ample_refusal);
        for (unsigned long number = 1;; number++) {
            refuse(number);
            status = weedle_syntax(texts[i], strlen(texts[i]), nodes, COUNT, &answer);
            refuse_none();
            if (none_was_refused())
                break;
            CHECK(status == WEEDLE_STATUS_NO_MEMORY && answer.count == 0 && answer.rest == 0);
        }
        CHECK(refused > 1 && status == ample_status && answer.count == ample.count && answer.rest == ample.rest);
        for (unsigned long number = 1;; number++) {
            refuse(number);
            strcpy(message, "xyz");
            status = weedle_explain(texts[i], strlen(texts[i]), message, sizeof message, &refusal);
            refuse_none();
            if (none_was_refused())
                break;
            CHECK(status == WEEDLE_STATUS_NO_MEMORY && strcmp(message, "xyz") == 0);
        }
        CHECK(refused > 1 && status == said && refusal.place == ample_refusal.place);
        CHECK(status == WEEDLE_STATUS_READ || strcmp(message, whole) == 0);
    }
    free(deep);
}

/* The same of a text that is formatted. */
static void test_memory_of_a_layout_that_is_refused(void) {
    static const char text[] = "interface A{};enum E{\"a\",};";
    struct weedle_formatted ample, formatted;
    char whole[100] = {0}, out[100];
    uint32_t status;
    CHECK(weedle_format(text, strlen(text), whole, sizeof whole, &ample) == WEEDLE_STATUS_READ);
    for (unsigned long number = 1;; number++) {
        refuse(number);
        strcpy(out, "xyz");
        status = weedle_format(text, strlen(text), out, sizeof out, &formatted);
        refuse_none();
        if (none_was_refused())
            break;
        CHECK(status == WEEDLE_STATUS_NO_MEMORY && strcmp(out, "xyz") == 0 && formatted.length == 0);
    }
    CHECK(refused > 1 && status == WEEDLE_STATUS_READ && formatted.length == ample.length);
    CHECK(memcmp(out, whole, ample.length) == 0);
}

/* What a call asks for of a text, in bytes; its status goes to `status`. */
static size_t asked_by(int call, const char *text, size_t length, uint32_t *status) {
    struct weedle_node node;
    struct weedle_answer answer;
    struct weedle_refusal refusal;
    struct weedle_formatted formatted;
    char out;
    asked = 0;
    if (call == 0)
        *status = weedle_syntax(text, length, &node, 0, &answer);
    else if (call == 1)
        *status = weedle_syntax_of(WEEDLE_DEFINITIONS, text, length, &node, 0, &answer);
    else if (call == 2)
        *status = weedle_explain(text, length, &out, 0, &refusal);
    else
        *status = weedle_format(text, length, &out, 0, &formatted);
    return asked;
}

/*
 * A call, what it comes to where there is no room, of what is read and of what isn't, and for how many bytes it asks at
 * the most for each byte of a dense text: weedle_syntax for a list of 8 bytes a byte, for one twice as long and one four
 * times as long, as the header says, and for the runs of these short definitions; the others for what was measured, and a
 * tenth more.
 */
static const struct {
    const char *name;
    enum weedle_status read, refused;
    size_t most;
} ASKING[] = {
    {"weedle_syntax", WEEDLE_STATUS_NO_ROOM, WEEDLE_STATUS_REFUSED, 8 * (1 + 2 + 4) + 15},
    {"weedle_syntax_of", WEEDLE_STATUS_NO_ROOM, WEEDLE_STATUS_NO_ROOM, 140},
    {"weedle_explain", WEEDLE_STATUS_READ, WEEDLE_STATUS_REFUSED, 255},
    {"weedle_format", WEEDLE_STATUS_NO_ROOM, WEEDLE_STATUS_REFUSED, 515},
};

enum { CALLS = sizeof ASKING / sizeof *ASKING };

/*
 * Texts of 1 to 300 kB ask for what their nodes need, each time that the list of them grows, and for no packrat table,
 * which has 1,544 bytes for each byte of them. A layout is read once more.
 */
static void test_bytes_that_are_asked_for(void) {
    static const char member[] = "[A] interface A { [B] attribute long x; };\n";
    static const char *const ends[] = {"", "foo", "[A interface B {};"};
    for (int call = 0; call < CALLS; call++) {
        size_t most = 0;
        for (size_t times = 24; times < 7200; times *= 2) {
            for (int i = 0; i < 3; i++) {
                size_t length;
                uint32_t status;
                char *text = repeated("", member, times, ends[i], &length);
                size_t each = asked_by(call, text, length, &status) / length;
                CHECK(status == (i == 0 ? ASKING[call].read : ASKING[call].refused));
                most = each > most ? each : most;
                free(text);
            }
        }
        printf("  %s: at most %zu bytes for each byte\n", ASKING[call].name, most);
        CHECK(most <= ASKING[call].most);
    }
}

/* The nodes of a text by weedle_syntax are those by weedle_syntax_of, which keeps all of them in 16 bytes. */
static void check_both_ways(const char *text, size_t length) {
    size_t room = 12 * length + 64, bytes;
    struct weedle_node *nodes = malloc(room * sizeof *nodes), *same = malloc(room * sizeof *same);
    struct weedle_answer answer, other;
    CHECK(nodes != NULL && same != NULL);
    CHECK(weedle_syntax(text, length, nodes, room, &answer) == WEEDLE_STATUS_READ);
    CHECK(weedle_syntax_of(WEEDLE_DEFINITIONS, text, length, same, room, &other) == WEEDLE_STATUS_READ);
    bytes = answer.count * sizeof *nodes;
    CHECK(answer.count == other.count && answer.rest == other.rest && memcmp(nodes, same, bytes) == 0);
    free(nodes);
    free(same);
}

/* Texts whose definitions are short, longer than 64 kB, or both in turn; and a name that ends at byte 65,536 or near it. */
static void test_definitions_of_any_length(void) {
    static const char member[] = "[A] attribute long? x;\n";
    size_t length, longer;
    char *body = repeated("A includes B; interface C {", member, 3200, "}; typedef D E;", &length);
    CHECK(length > 65536);
    check_both_ways(body, length);
    check_both_ways(STATEMENT, strlen(STATEMENT));
    check_both_ways("", 0);
    for (size_t tail = 65520; tail < 65550; tail++) {
        char *text = repeated("A includes B; enum C { \"", "d", tail, "\" }; A includes B;", &longer);
        check_both_ways(text, longer);
        free(text);
    }
    free(body);
}

/* A text with less than a node a byte asks for 8 bytes for each of its bytes, and for what its definitions take. */
static void test_bytes_for_short_nodes(void) {
    static const char member[] =
        "interface SomeInterfaceOfThisPage { readonly attribute SomeOtherInterface someAttributeOfThisInterface; };\n";
    size_t length;
    uint32_t status;
    char *text = repeated("", member, 2000, "", &length);
    CHECK(asked_by(0, text, length, &status) <= 11 * length && status == WEEDLE_STATUS_NO_ROOM);
    free(text);
}

/* What is formatted already isn't read again: it asks for half as much as what isn't. */
static void test_bytes_for_what_is_laid_out(void) {
    static const char member[] = "[A]\ninterface A {\n  [B] attribute long x;\n};\n\n";
    size_t length;
    uint32_t status;
    char *text = repeated("", member, 1000, "", &length);
    CHECK(asked_by(3, text, length - 1, &status) <= 256 * length && status == WEEDLE_STATUS_NO_ROOM);
    free(text);
}

/* Half a megabyte is formatted as a line of it is, and what it gives is there already. */
static void test_a_long_layout(void) {
    static const char member[] = "interface A{attribute long x;};", wanted[] = "interface A {\n  attribute long x;\n};\n\n";
    size_t times = large(16000), length, laid_out_length;
    char *text = repeated("", member, times, "", &length), *out = malloc(2 * length);
    char *laid_out = repeated("", wanted, times, "", &laid_out_length);
    struct weedle_formatted formatted;
    for (int i = 0; i < 2; i++) {
        CHECK(weedle_format(i ? laid_out : text, i ? laid_out_length - 1 : length, out, 2 * length, &formatted) ==
              WEEDLE_STATUS_READ);
        CHECK(formatted.length == laid_out_length - 1 && formatted.is_laid_out == 1);
        CHECK(memcmp(out, laid_out, laid_out_length - 1) == 0);
    }
    free(laid_out);
    free(out);
    free(text);
}

/* Two extended attributes that aren't closed, before most of 160 kB: brackets that are open for all that follows. */
static void test_brackets_that_are_not_closed(void) {
    static const char member[] = "[A] interface A { [B] attribute long x; };\n";
    static const char slips[] = "[A interface A { [B] attribute long x; };\n[A interface A {};\n";
    size_t front_length, length;
    char *front = repeated("", member, 100, slips, &front_length);
    char *text = repeated(front, member, 3700, "", &length);
    struct weedle_answer answer;
    CHECK(length > 160000);
    CHECK(counted(text, length, &answer) == WEEDLE_STATUS_REFUSED && answer.rest == 100 * strlen(member));
    for (int call = 0; call < CALLS; call++) {
        uint32_t status;
        CHECK(asked_by(call, text, length, &status) <= ASKING[call].most * length);
        CHECK(status == ASKING[call].refused);
    }
    free(text);
    free(front);
}

/* What a thread reads, and what it found. */
struct reading {
    char *text;
    size_t length;
    uint32_t status;
    int others;
};

/* What a thread reads again and again. */
static void *read_often(void *given) {
    struct reading *own = given;
    struct weedle_node nodes[COUNT];
    for (int i = 0; i < 2000; i++) {
        struct weedle_answer answer;
        own->status |= weedle_syntax(STATEMENT, strlen(STATEMENT), nodes, COUNT, &answer);
        own->others += memcmp(nodes, NODES, sizeof nodes) != 0 || answer.count != COUNT;
        own->others += counted(own->text, own->length, &answer) != WEEDLE_STATUS_REFUSED || answer.rest != 16;
    }
    return NULL;
}

static void test_two_threads(void) {
    pthread_t threads[2];
    struct reading own[2] = {{0}};
    for (int i = 0; i < 2; i++) {
        own[i].text = repeated("interface A {}; ", i ? "[" : "enum E ", 100, "", &own[i].length);
        if (pthread_create(&threads[i], NULL, read_often, &own[i]) != 0)
            abort();
    }
    for (int i = 0; i < 2; i++) {
        CHECK(pthread_join(threads[i], NULL) == 0);
        CHECK(own[i].status == WEEDLE_STATUS_READ && own[i].others == 0);
        free(own[i].text);
    }
}

static const struct test TESTS[] = {
    {"nodes of a statement", test_nodes_of_a_statement},
    {"room", test_room},
    {"no text", test_no_text},
    {"what isn't UTF-8", test_what_is_not_utf8},
    {"a rule at the front", test_a_rule_at_the_front},
    {"a rule that fails", test_a_rule_that_fails},
    {"each rule", test_each_rule},
    {"today's rules", test_todays_rules},
    {"what is refused", test_what_is_refused},
    {"words of a refusal", test_words_of_a_refusal},
    {"a message is cut at a character", test_a_message_is_cut_at_a_character},
    {"any message has room in 1,024 bytes", test_any_message_has_room_in_1024_bytes},
    {"what can't be seen has room too", test_what_cannot_be_seen_has_room_too},
    {"hints", test_hints},
    {"a text laid out", test_a_text_laid_out},
    {"no layout", test_no_layout},
    {"version, rules and names", test_version_rules_and_names},
    {"memory that is refused", test_memory_that_is_refused},
    {"memory of a layout that is refused", test_memory_of_a_layout_that_is_refused},
    {"bytes that are asked for", test_bytes_that_are_asked_for},
    {"definitions of any length", test_definitions_of_any_length},
    {"bytes for short nodes", test_bytes_for_short_nodes},
    {"bytes for what is laid out", test_bytes_for_what_is_laid_out},
    {"a long layout", test_a_long_layout},
    {"brackets that aren't closed", test_brackets_that_are_not_closed},
    {"two threads", test_two_threads},
};

int main(void) { return run_tests(TESTS, sizeof TESTS / sizeof *TESTS); }
