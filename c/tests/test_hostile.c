/*
 * Tests of the C library over texts that are made to be slow, deep or long, each in a thread with 256 kB of stack.
 *
 *     c/run_tests.sh
 *
 * builds and runs them. The families of texts, and what has to be said of each, are in tests/families.txt, which the
 * program is given. A call may take a second of processor time, and 20 where WEEDLE_EMULATED is set.
 */
#define _POSIX_C_SOURCE 200809L
#include <pthread.h>
#include <time.h>

#include "checks.h"

enum { STACK = 256 * 1024, PAINT = 0xa5 };

static double most_seconds = 1.0;

/* A call with little stack: what it is given, and what came of it. */
struct call {
    char *text;
    size_t length;
    uint32_t status, said;
    double seconds;
    size_t stack;
    struct weedle_answer answer;
    struct weedle_refusal refusal;
};

/* The processor time of this thread. */
static double seconds(void) {
    struct timespec now;
    clock_gettime(CLOCK_THREAD_CPUTIME_ID, &now);
    return (double)now.tv_sec + (double)now.tv_nsec * 1e-9;
}

static void *read_it(void *given) {
    struct call *call = given;
    double began = seconds();
    call->status = counted(call->text, call->length, &call->answer);
    call->seconds = seconds() - began;
    return NULL;
}

static void *explain_it(void *given) {
    struct call *call = given;
    char none;
    double began = seconds();
    call->said = weedle_explain(call->text, call->length, &none, 0, &call->refusal);
    call->seconds = seconds() - began;
    return NULL;
}

/* It reads twice, the text and what it made. */
static void *format_it(void *given) {
    struct call *call = given;
    struct weedle_formatted formatted;
    char none;
    double began = seconds();
    call->said = weedle_format(call->text, call->length, &none, 0, &formatted);
    call->seconds = (seconds() - began) / 2;
    CHECK(formatted.rest == call->answer.rest);
    return NULL;
}

/* Makes the call in a thread with little stack. With `painted` it says how much of that was written to. */
static void with_little_stack(void *(*start)(void *), struct call *call, unsigned char *painted) {
    pthread_attr_t little;
    pthread_t thread;
    CHECK(pthread_attr_init(&little) == 0);
    if (painted != NULL) {
        memset(painted, PAINT, STACK);
        CHECK(pthread_attr_setstack(&little, painted, STACK) == 0);
    } else {
        CHECK(pthread_attr_setstacksize(&little, STACK) == 0);
    }
    if (pthread_create(&thread, &little, start, call) != 0)
        abort();
    CHECK(pthread_join(thread, NULL) == 0);
    pthread_attr_destroy(&little);
    for (call->stack = STACK; painted != NULL && painted[STACK - call->stack] == PAINT;)
        call->stack--;
}

static struct call made(const char *front, const char *text, size_t times, const char *end) {
    struct call call = {0};
    call.text = repeated(front, text, times, end, &call.length);
    return call;
}

/* So many brackets in one another, between two texts. */
static struct call nested(const char *front, const char *open, const char *inner, const char *close, size_t depth,
                          const char *end) {
    size_t length;
    char *opened = repeated(front, open, depth, inner, &length);
    struct call call = made(opened, close, depth, end);
    free(opened);
    return call;
}

/* What a family of texts has to come to, and the text. */
struct family {
    const char *name;
    uint32_t status;
    size_t rest;
    struct call call;
};

/* The byte at a place of a piece, which it goes past: `\x` and two digits, `\n` and its like, or as it is. */
static int byte_at(const char **at) {
    static const char letters[] = "ntr", meant[] = "\n\t\r";
    char digits[3] = {0};
    if (**at != '\\')
        return *(*at)++;
    ++*at;
    if (**at == 'x') {
        memcpy(digits, *at + 1, 2);
        *at += 3;
        return (int)strtoul(digits, NULL, 16);
    }
    const char *letter = strchr(letters, **at);
    int byte = letter ? meant[letter - letters] : **at;
    ++*at;
    return byte;
}

/* Writes what the pieces of a field make, as `"a" 20*"bc"`. */
static void write_pieces(const char *at, FILE *out) {
    while (*at == '"' || (*at >= '0' && *at <= '9')) {
        char *piece, *star;
        size_t size, times = *at == '"' ? 1 : large(strtoul(at, &star, 10));
        FILE *one = open_memstream(&piece, &size);
        for (at = strchr(at, '"') + 1; *at != '"';)
            fputc(byte_at(&at), one);
        at += at[1] == ' ' ? 2 : 1;
        fclose(one);
        while (times-- > 0)
            fwrite(piece, 1, size, out);
        free(piece);
    }
}

/* The family in a line: its name, what is said of it, what is read, and the rest, with tabs between. */
static struct family family_of(char *line) {
    static const char *const kinds[] = {"read", "refused", "not UTF-8"};
    static const uint32_t statuses[] = {WEEDLE_STATUS_NO_ROOM, WEEDLE_STATUS_REFUSED, WEEDLE_STATUS_NOT_UTF8};
    struct family family = {.name = line};
    char *kind = strchr(line, '\t'), *front = strchr(kind + 1, '\t'), *back = strchr(front + 1, '\t');
    FILE *out = open_memstream(&family.call.text, &family.call.length);
    *kind = *front = 0;
    for (int i = 0; i < 3; i++)
        if (strcmp(kind + 1, kinds[i]) == 0)
            family.status = statuses[i];
    write_pieces(front + 1, out);
    fflush(out);
    family.rest = family.call.length;
    if (back != NULL)
        write_pieces(back + 1, out);
    fclose(out);
    return family;
}

/* Reads the text of a family, explains it and formats it. */
static int is_right(struct family *family) {
    struct call *call = &family->call;
    uint32_t said = family->status == WEEDLE_STATUS_NO_ROOM ? WEEDLE_STATUS_READ : family->status;
    with_little_stack(read_it, call, NULL);
    if (call->status != family->status || call->answer.rest != family->rest || call->seconds > most_seconds)
        return 0;
    with_little_stack(explain_it, call, NULL);
    if (call->said != said || call->seconds > most_seconds)
        return 0;
    with_little_stack(format_it, call, NULL);
    if (call->said != family->status || call->seconds > most_seconds)
        return 0;
    return said != WEEDLE_STATUS_REFUSED || (call->refusal.start == family->rest && call->refusal.place <= call->length);
}

static const char *families;

static void test_families(void) {
    FILE *file = fopen(families, "r");
    char *line = NULL;
    size_t room = 0, count = 0;
    if (file == NULL)
        abort();
    while (getline(&line, &room, file) > 0) {
        if (*line == '#' || *line == '\n')
            continue;
        struct family family = family_of(line);
        if (!is_right(&family)) {
            fprintf(stderr, "%s: status %u, rest %zu, %.2f s\n", line, family.call.status, family.call.answer.rest,
                    family.call.seconds);
            failures++;
        }
        free(family.call.text);
        count++;
    }
    CHECK(count > 40);
    free(line);
    fclose(file);
}

static void test_a_million_parentheses(void) {
    struct call call = made("", "(", large(1000000), "");
    with_little_stack(read_it, &call, NULL);
    CHECK(call.status == WEEDLE_STATUS_REFUSED && call.answer.rest == 0);
    free(call.text);
}

/* A statement with one blank at its end has as many nodes as one with more. */
static void test_blanks(void) {
    struct call few = made("A includes B;", " ", 2, ""), many = made("A includes B;", " ", large(100000000), "");
    with_little_stack(read_it, &few, NULL);
    with_little_stack(read_it, &many, NULL);
    CHECK(many.status == WEEDLE_STATUS_NO_ROOM && many.answer.rest == many.length);
    CHECK(many.answer.count == few.answer.count);
    free(few.text);
    free(many.text);
}

/* Types in one another, from one to more than descent reads: each is read. */
static void test_types_in_one_another(void) {
    for (size_t depth = 1; depth < 200; depth++) {
        struct call call = nested("typedef ", "sequence<", "long", ">", depth, " A;");
        with_little_stack(read_it, &call, NULL);
        CHECK(call.status == WEEDLE_STATUS_NO_ROOM && call.answer.rest == call.length);
        free(call.text);
    }
}

/* Extended attributes in one another: the deepest that descent reads takes most stack. */
static void test_attributes_in_one_another(void) {
    for (size_t depth = 1; depth < 60; depth++) {
        struct call call = nested("[A(", "[A(", "long x", ")] long x", depth - 1, ")] interface A {};");
        with_little_stack(read_it, &call, NULL);
        CHECK(call.status == WEEDLE_STATUS_NO_ROOM && call.answer.rest == call.length);
        free(call.text);
    }
}

/* Brackets of a kind. */
struct kind {
    const char *name, *front, *open, *inner, *close, *end;
};

static const struct kind KINDS[] = {
    {"a type in angle brackets", "typedef ", "sequence<", "long", ">", " A;"},
    {"the types of a record", "typedef ", "record<DOMString, ", "long", ">", " A;"},
    {"a promise", "typedef ", "Promise<", "long", ">", " A;"},
    {"a union, the first of another", "typedef ", "(", "a or b", " or c)", " d;"},
    {"a union, the last of another", "typedef ", "(a or ", "(b or c)", ")", " d;"},
    {"an attribute with arguments", "", "[A(", "any a", ")] any a", " interface I {};"},
};

/* The stack that a call takes with so many of these brackets, to read them or to explain them without the last `;`. */
static size_t stack_of(void *(*start)(void *), const struct kind *kind, size_t levels, unsigned char *painted) {
    struct call call = nested(kind->front, kind->open, kind->inner, kind->close, levels, kind->end);
    if (start == explain_it)
        call.length--;
    with_little_stack(start, &call, painted);
    free(call.text);
    return call.stack;
}

/* Prints what a call takes of the stack for a level, and at the most: less than 192 kB, to read and to explain. */
static void stack_of_kind(const char *what, void *(*start)(void *), const struct kind *kind, unsigned char *painted) {
    size_t ten = stack_of(start, kind, 10, painted), twenty = stack_of(start, kind, 20, painted);
    size_t most = twenty, deepest = 20;
    for (size_t levels = 21; levels < 200; levels++) {
        size_t stack = stack_of(start, kind, levels, painted);
        if (stack > most)
            most = stack, deepest = levels;
    }
    printf("  %s %s: %zu bytes of stack, %zu in all at %zu levels\n", what, kind->name, (twenty - ten) / 10, most,
           deepest);
    CHECK(most < 192 * 1024);
}

static void test_stack(void) {
    void *painted;
    if (getenv("WEEDLE_SMALL") || posix_memalign(&painted, 4096, STACK) != 0)
        return;
    for (size_t i = 0; i < sizeof KINDS / sizeof *KINDS; i++) {
        stack_of_kind("to read", read_it, &KINDS[i], painted);
        stack_of_kind("to explain", explain_it, &KINDS[i], painted);
    }
    free(painted);
}

static const struct test TESTS[] = {
    {"families", test_families},
    {"stack", test_stack},
    {"a million parentheses", test_a_million_parentheses},
    {"100 MB of blanks", test_blanks},
    {"types in one another", test_types_in_one_another},
    {"attributes in one another", test_attributes_in_one_another},
};

int main(int count, char **words) {
    if (count != 2)
        return EXIT_FAILURE;
    families = words[1];
    if (getenv("WEEDLE_EMULATED"))
        most_seconds = 20.0;
    return run_tests(TESTS, sizeof TESTS / sizeof *TESTS);
}
