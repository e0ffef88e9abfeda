/*
 * Reads one rule at the front of a text, and prints its nodes, each indented by its depth.
 *
 *     read_rule RULE TEXT
 *
 * RULE is a name as weedle_rule_name gives it: `read_rule type 'long? x'` prints the nodes of `long? `, and behind them
 * `rest: x`. The status is 0 where the rule is read, 1 where it fails at the front of the text, and 2 where there is no
 * such rule, the text isn't UTF-8 or memory runs out.
 */
#include <stdio.h>
#include <stdlib.h>
#include <string.h>

#include "weedle.h"

/* The number of the rule with a name; WEEDLE_RULE_COUNT where there is none. */
static uint32_t rule_of(const char *name) {
    uint32_t rule = 0;
    while (rule < WEEDLE_RULE_COUNT && strcmp(weedle_rule_name(rule), name) != 0)
        rule++;
    return rule;
}

static void print_nodes(const char *text, const struct weedle_node *nodes, size_t count) {
    for (size_t i = 0; i < count; i++) {
        int taken = (int)(nodes[i].end - nodes[i].start);
        printf("%*s%s `%.*s`\n", (int)nodes[i].depth * 2, "", weedle_rule_name(nodes[i].rule), taken,
               text + nodes[i].start);
    }
}

int main(int count, char **words) {
    if (count != 3) {
        fprintf(stderr, "usage: read_rule RULE TEXT\n");
        return 2;
    }
    uint32_t rule = rule_of(words[1]);
    const char *text = words[2];
    size_t length = strlen(text);
    struct weedle_node none, *nodes = NULL;
    struct weedle_answer answer;
    uint32_t status = weedle_syntax_of(rule, text, length, &none, 0, &answer);
    if (status == WEEDLE_STATUS_NO_ROOM && (nodes = malloc(answer.count * sizeof *nodes)) != NULL)
        status = weedle_syntax_of(rule, text, length, nodes, answer.count, &answer);
    switch (status) {
    case WEEDLE_STATUS_READ:
        print_nodes(text, nodes, answer.count);
        printf("rest: %s\n", text + answer.rest);
        break;
    case WEEDLE_STATUS_REFUSED:
        printf("%s isn't read here\n", words[1]);
        break;
    case WEEDLE_STATUS_NO_RULE:
        fprintf(stderr, "no rule is called %s\n", words[1]);
        break;
    default:
        fprintf(stderr, "the text can't be read: status %u\n", (unsigned)status);
    }
    free(nodes);
    return status == WEEDLE_STATUS_READ ? 0 : status == WEEDLE_STATUS_REFUSED ? 1 : 2;
}
