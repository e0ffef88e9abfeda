/*
 * How many bytes a call of the C library asks for while it reads a file.
 *
 *     growth CALL FILE
 *
 * CALL is syntax, explain, recover or format. It is given no room, so all that it asks for is for itself, and prints how many
 * bytes malloc and realloc were asked for, together. tools/run growth runs it over texts of two lengths, and under
 * callgrind, which counts the instructions of the call. c/tests/growth.c is linked with --wrap=malloc,--wrap=realloc.
 */
#include <stdio.h>
#include <stdlib.h>
#include <string.h>

#include "weedle.h"

static size_t asked;
static int counts;

void *__real_malloc(size_t size);
void *__real_realloc(void *block, size_t size);
void *__wrap_malloc(size_t size);
void *__wrap_realloc(void *block, size_t size);

void *__wrap_malloc(size_t size) {
    asked += counts ? size : 0;
    return __real_malloc(size);
}

void *__wrap_realloc(void *block, size_t size) {
    asked += counts ? size : 0;
    return __real_realloc(block, size);
}

/* The whole of a file; its length goes to `length`. The caller frees it. */
static char *contents_of(const char *name, size_t *length) {
    FILE *file = fopen(name, "rb");
    char *text = NULL;
    if (file != NULL && fseek(file, 0, SEEK_END) == 0) {
        long size = ftell(file);
        text = size < 0 ? NULL : malloc((size_t)size + 1);
        rewind(file);
        *length = text == NULL ? 0 : fread(text, 1, (size_t)size, file);
    }
    if (file != NULL)
        fclose(file);
    return text;
}

static uint32_t called(const char *call, const char *text, size_t length) {
    struct weedle_answer answer;
    struct weedle_refusal refusal;
    struct weedle_recovered recovered;
    struct weedle_formatted formatted;
    struct weedle_node node;
    struct weedle_part part;
    char none;
    if (strcmp(call, "syntax") == 0)
        return weedle_syntax(text, length, &node, 0, &answer);
    if (strcmp(call, "explain") == 0)
        return weedle_explain(text, length, &none, 0, &refusal);
    if (strcmp(call, "recover") == 0)
        return weedle_recover(text, length, &part, 0, &node, 0, &recovered);
    return weedle_format(text, length, &none, 0, &formatted);
}

int main(int count, char **words) {
    size_t length = 0;
    char *text = count == 3 ? contents_of(words[2], &length) : NULL;
    if (text == NULL) {
        fprintf(stderr, "usage: growth syntax|explain|recover|format FILE\n");
        return 2;
    }
    counts = 1;
    uint32_t status = called(words[1], text, length);
    counts = 0;
    printf("%u %zu\n", (unsigned)status, asked);
    free(text);
    return 0;
}
