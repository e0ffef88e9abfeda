/*
 * Counts the interfaces of a file of WebIDL, and prints their names.
 *
 *     count_interfaces FILE
 *
 * Of a text that isn't read whole it prints where and why. The status is 0 where it is, 1 where it isn't, and 2 where
 * the file can't be read or memory runs out.
 */
#include <stdio.h>
#include <stdlib.h>

#include "weedle.h"

/* The bytes of a file, which the caller frees, or null. */
static char *bytes_of(const char *name, size_t *length) {
    FILE *file = fopen(name, "rb");
    char *bytes = NULL;
    long end;
    if (file != NULL && fseek(file, 0, SEEK_END) == 0 && (end = ftell(file)) >= 0) {
        rewind(file);
        *length = (size_t)end;
        bytes = malloc(*length + 1);
        if (bytes != NULL && fread(bytes, 1, *length, file) != *length) {
            free(bytes);
            bytes = NULL;
        }
    }
    if (file != NULL)
        fclose(file);
    return bytes;
}

/* Prints where and why a text is refused. */
static void print_refusal(const char *name, const char *text, size_t length) {
    char message[1024];
    struct weedle_refusal refusal;
    switch (weedle_explain(text, length, message, sizeof message, &refusal)) {
    case WEEDLE_STATUS_REFUSED:
        fprintf(stderr, "%s:%s", name, message);
        break;
    case WEEDLE_STATUS_NOT_UTF8:
        fprintf(stderr, "%s: not UTF-8 from byte %zu on\n", name, refusal.place);
        break;
    default:
        fprintf(stderr, "%s: out of memory\n", name);
    }
}

/* Prints the name of each interface, and how many there are. */
static void print_interfaces(const char *text, const struct weedle_node *nodes, size_t count) {
    size_t found = 0;
    for (size_t i = 0; i < count; i++) {
        if (nodes[i].rule != WEEDLE_INTERFACE_DEFINITION)
            continue;
        size_t at = i + 1;
        while (nodes[at].rule != WEEDLE_IDENTIFIER || nodes[at].depth != nodes[i].depth + 1)
            at++;
        while (nodes[at].rule != WEEDLE_IDENTIFIER_TEXT)
            at++;
        printf("%.*s\n", (int)(nodes[at].end - nodes[at].start), text + nodes[at].start);
        found++;
    }
    printf("%zu interfaces\n", found);
}

int main(int count, char **words) {
    size_t length = 0;
    char *text = count == 2 ? bytes_of(words[1], &length) : NULL;
    if (text == NULL) {
        fprintf(stderr, count == 2 ? "cannot read the file\n" : "usage: count_interfaces FILE\n");
        return 2;
    }
    struct weedle_node none, *nodes = NULL;
    struct weedle_answer answer;
    uint32_t status = weedle_syntax(text, length, &none, 0, &answer);
    if (status == WEEDLE_STATUS_NO_ROOM && (nodes = malloc(answer.count * sizeof *nodes)) != NULL)
        status = weedle_syntax(text, length, nodes, answer.count, &answer);
    if (status == WEEDLE_STATUS_READ)
        print_interfaces(text, nodes, answer.count);
    else
        print_refusal(words[1], text, length);
    free(nodes);
    free(text);
    return status == WEEDLE_STATUS_READ ? 0 : status == WEEDLE_STATUS_REFUSED ? 1 : 2;
}
