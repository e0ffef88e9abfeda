/*
 * What the tests of the C library share: checks, texts, and how tests are run. Where WEEDLE_SMALL is set in the
 * environment, large texts are a hundredth as long, for runs in which each byte costs much.
 */
#ifndef CHECKS_H
#define CHECKS_H

#include <stdint.h>
#include <stdio.h>
#include <stdlib.h>
#include <string.h>

#include "weedle.h"

static int failures;

#define CHECK(holds)                                                            \
    do {                                                                        \
        if (!(holds)) {                                                         \
            fprintf(stderr, "%s:%d: %s does not hold\n", __FILE__, __LINE__, #holds); \
            failures++;                                                         \
        }                                                                       \
    } while (0)

struct test {
    const char *name;
    void (*run)(void);
};

/* Runs tests, and says how many failed. */
static inline int run_tests(const struct test *tests, size_t count) {
    size_t failed = 0;
    for (size_t i = 0; i < count; i++) {
        int before = failures;
        tests[i].run();
        failed += failures != before;
        printf("%s: %s\n", tests[i].name, failures == before ? "ok" : "FAILED");
    }
    printf("%zu passed, %zu failed\n", count - failed, failed);
    return failed ? EXIT_FAILURE : EXIT_SUCCESS;
}

/* How often a piece of a large text is to be there. */
static inline size_t large(size_t times) {
    size_t part = getenv("WEEDLE_SMALL") ? times / 100 : times;
    return part ? part : 1;
}

/* So many times a text, between two others. The caller frees it. */
static inline char *repeated(const char *front, const char *text, size_t times, const char *end, size_t *length) {
    size_t part = strlen(text);
    *length = strlen(front) + part * times + strlen(end);
    char *made = malloc(*length + 1);
    if (made == NULL)
        abort();
    char *at = made + strlen(strcpy(made, front));
    for (size_t i = 0; i < times; i++, at += part)
        memcpy(at, text, part);
    strcpy(at, end);
    return made;
}

/* The status of a reading with no room, and the answer. */
static inline uint32_t counted(const char *text, size_t length, struct weedle_answer *answer) {
    struct weedle_node none;
    return weedle_syntax(text, length, &none, 0, answer);
}

#endif
