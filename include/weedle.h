/*
 * WebIDL, read into its syntax tree. Written by tools/write/c_header.py, and not edited by hand.
 *
 *     struct weedle_answer answer;
 *     uint32_t status = weedle_syntax(text, length, nodes, room, &answer);
 *
 * What is said below of each status, of the fields of an answer and of what is written is proved of the library,
 * against the grammar: each such sentence is a clause of crates/weedle_c/src/lib.rt or of by_dialect.rt beside it, but
 * those with '(tested)' behind them. What a call costs is measured. All this holds for callers that keep the following:
 *
 * - A pointer and the length or room behind it belong together: so many bytes, or so many nodes, can be
 *   read there, or written. No length and no room is more than PTRDIFF_MAX bytes.
 * - No pointer is null, also where its length or room is 0. Any other serves then, as "".
 * - Nobody writes to the text while a call runs. Nobody else reads or writes what the call writes to, and none
 *   of it overlaps with the text or with each other.
 * - No call is made from a signal handler, nor from the forked child of a process with threads.
 *
 * Nothing is kept between calls, and calls in several threads don't touch each other. Memory is asked for by
 * malloc and realloc, and given back before a call returns. A thread with 256 kB of stack is enough for any text, which
 * is measured, and tested; no proof speaks of a stack.
 *
 * With the second number of the version `struct weedle_answer`, `struct weedle_refusal` and `struct weedle_formatted` may
 * get a field at their end, `enum weedle_status` a status, and rules other numbers; sources stay as they are, and are
 * compiled anew. The soname of the shared object has the first two numbers. Who loads it by name compares
 * `weedle_version() >> 8` with `WEEDLE_VERSION >> 8` first.
 *
 * Link it with prebuilt/x86_64-linux/libweedle.a, or with c/out/libweedle.a, which c/build.sh builds anew.
 */
#ifndef WEEDLE_H
#define WEEDLE_H

#include <stddef.h>
#include <stdint.h>

#ifdef __cplusplus
extern "C" {
#endif

/* The version that this header belongs to: a byte each for its three numbers. weedle_version() has the library's. */
#define WEEDLE_VERSION 0x000b00

/* How many rules the grammar of this header has. weedle_rules() says it of the library. */
#define WEEDLE_RULE_COUNT 520

/* What a call comes to. */
enum weedle_status {
    WEEDLE_STATUS_READ = 0, /* The grammar reads the whole text, or the rule that was asked for. */
    WEEDLE_STATUS_REFUSED = 1, /* It doesn't. */
    WEEDLE_STATUS_NOT_UTF8 = 2, /* The bytes aren't UTF-8. */
    WEEDLE_STATUS_NO_MEMORY = 3, /* Memory was refused. */
    WEEDLE_STATUS_NO_ROOM = 4, /* It does, and its nodes need more room. */
    WEEDLE_STATUS_TOO_LONG = 5, /* The text is longer, or nests deeper, than the numbers of a node hold. */
    WEEDLE_STATUS_NO_RULE = 6, /* No rule has the number. */
    WEEDLE_STATUS_NO_PLACE = 7, /* The text has no such place, or no such unread part. */
    WEEDLE_STATUS_NO_DIALECT = 8, /* No dialect has the number. */
    WEEDLE_STATUS_TOO_DEEP = 9 /* Descent doesn't read what is asked for, since it nests too deep or takes too many steps, and the dialect's rules have no table. */
};

/* Whose rules a text is read by. weedle_syntax and the other calls without a dialect read by weedle2's. */
enum weedle_dialect {
    WEEDLE_DIALECT_WEEDLE2 = 0, /* weedle2's rules. */
    WEEDLE_DIALECT_TODAY = 1 /* Today's, which read what weedle2's read, and more. */
};

/* A rule that was read, and the bytes that it took. */
struct weedle_node {
    uint32_t rule;  /* an enum weedle_rule */
    uint32_t depth; /* how many nodes it is in */
    uint32_t start; /* where it begins, in bytes from the front of the text */
    uint32_t end;   /* where it ends: the place behind its last byte */
};

/* What weedle_syntax, weedle_syntax_of and weedle_syntax_in say beside their status. */
struct weedle_answer {
    size_t count; /* WEEDLE_STATUS_READ, WEEDLE_STATUS_NO_ROOM: how many nodes there are; else 0 */
    size_t rest;  /* WEEDLE_STATUS_READ, WEEDLE_STATUS_NO_ROOM: where the remaining input begins, in bytes from the front
                     of the text: of weedle_syntax and weedle_syntax_in at its end;
                     WEEDLE_STATUS_REFUSED: the same of these two, and 0 of weedle_syntax_of;
                     WEEDLE_STATUS_NOT_UTF8: the byte up to which the text is UTF-8; else 0 */
};

/* Kinds of hints: what would fix a text, or what it lacks. */
enum weedle_hint {
    WEEDLE_HINT_NONE = 0, /* There is none. */
    WEEDLE_HINT_KEYWORD = 1, /* A keyword in place of the word there. */
    WEEDLE_HINT_MISSING = 2, /* A sign is missing there. */
    WEEDLE_HINT_EXTRA = 3, /* The sign there is too many. */
    WEEDLE_HINT_WRONG_SIGN = 4, /* Another sign in place of the one there. */
    WEEDLE_HINT_WORD_ORDER = 5, /* The two words there, in the other order. */
    WEEDLE_HINT_DOCSTRING = 6, /* The docstring there belongs elsewhere. */
    WEEDLE_HINT_OPEN_STRING = 7, /* The string that opens there isn't closed. */
    WEEDLE_HINT_SPLIT_STRING = 8, /* The string that opens there ends in another line. */
    WEEDLE_HINT_BYTE_ORDER_MARK = 9, /* A byte order mark is there. */
    WEEDLE_HINT_NO_DEFINITIONS = 10 /* The text has no definitions. */
};

/* What weedle_explain, weedle_explain_from and weedle_explain_part say beside their status, and the same calls with a
   dialect. Places are in bytes from the front of the text. With any status but WEEDLE_STATUS_REFUSED all of it is 0, but
   `place` with WEEDLE_STATUS_NOT_UTF8. */
struct weedle_refusal {
    size_t start;       /* where the remaining input begins, or the unread part */
    size_t place;       /* the furthest place to which the reading comes;
                           WEEDLE_STATUS_NOT_UTF8: the byte up to which the text is UTF-8 */
    size_t line;        /* the line of that place, from 1 on */
    size_t column;      /* its column, in characters, from 1 on */
    size_t length;      /* how many bytes the whole message has, without the zero behind it */
    size_t hint;        /* an enum weedle_hint */
    size_t hint_place;  /* where the hint is; 0 where there is none */
    size_t hint_length; /* how many bytes are there that it speaks of: the word, the sign, both words and what is
                           between them, the lines of the docstring, the quote or the mark; 0 where something is missing */
    size_t hint_offset; /* where the hint's line begins in the message, which is `length` where there is none */
};

/* What weedle_expected and weedle_expected_part say beside their status, and the same calls with a dialect. */
struct weedle_expected_words {
    size_t count;  /* WEEDLE_STATUS_READ, WEEDLE_STATUS_NO_ROOM: how many words there are; else 0 */
    size_t length; /* WEEDLE_STATUS_READ, WEEDLE_STATUS_NO_ROOM: how many bytes they have, with a zero behind each; else 0 */
    size_t place;  /* WEEDLE_STATUS_READ, WEEDLE_STATUS_NO_ROOM: the furthest place to which the reading comes, in bytes
                      from the front of the text; WEEDLE_STATUS_NOT_UTF8: the byte up to which the text is UTF-8; else 0 */
};

/* A part of a text: a rule is read there, or it is unread. */
struct weedle_part {
    uint32_t rule;       /* an enum weedle_rule: the one that is read, or of an unread part the one that fails there */
    uint32_t is_read;    /* 1 where it is read, and else 0 */
    uint32_t start;      /* where it begins, in bytes from the front of the text */
    uint32_t end;        /* where it ends: the place behind its last byte, or `start` where something is missing */
    uint32_t definition; /* where the definition begins that it belongs to */
};

/* What weedle_recover and weedle_recover_in say beside their status. */
struct weedle_recovered {
    size_t parts;  /* WEEDLE_STATUS_READ, WEEDLE_STATUS_NO_ROOM: how many parts there are; else 0 */
    size_t nodes;  /* WEEDLE_STATUS_READ, WEEDLE_STATUS_NO_ROOM: how many nodes those have that are read; else 0 */
    size_t unread; /* WEEDLE_STATUS_READ, WEEDLE_STATUS_NO_ROOM: how many parts are unread; else 0 */
    size_t rest;   /* WEEDLE_STATUS_NOT_UTF8: the byte up to which the text is UTF-8; else 0 */
};

/* What weedle_format and weedle_format_in say beside their status. */
struct weedle_formatted {
    size_t length;      /* WEEDLE_STATUS_READ, WEEDLE_STATUS_NO_ROOM: how many bytes there are; else 0 */
    size_t rest;        /* as weedle_answer has it of weedle_syntax */
    size_t is_laid_out; /* WEEDLE_STATUS_READ, WEEDLE_STATUS_NO_ROOM: 0 where the text is as it was, since the layout
                           would have changed what it says (tested), and else 1; with other statuses 0 */
};

/*
 * Reads a text as WebIDL definitions, and writes the nodes of its syntax tree.
 *
 * WEEDLE_STATUS_READ: the grammar reads the whole text, and the first `count` of `nodes` are its tree, in preorder:
 *     behind a node are those that it reads directly, each before its own. So what is below a node are the nodes
 *     behind it as long as they are deeper. The bytes of the nodes that have none below them, one after another, are
 *     the text. What follows them in `nodes` stays as it was.
 * WEEDLE_STATUS_REFUSED: it doesn't, and leaves the text from `rest` on.
 * WEEDLE_STATUS_NOT_UTF8: exactly where the bytes aren't UTF-8.
 * WEEDLE_STATUS_NO_MEMORY: memory was refused (tested).
 * WEEDLE_STATUS_NO_ROOM: the grammar reads the whole text, and there are `count` nodes, more than `room`. So with a
 *     room of 0 it counts them.
 * WEEDLE_STATUS_TOO_LONG: 32 bits don't hold the length of the text, or a place or a depth of its tree.
 * Only with WEEDLE_STATUS_READ is anything written to `nodes`.
 *
 * Most texts have 0.8 to 1.6 nodes a byte. While it is read, a list of them takes 8 bytes of memory for each byte of the
 * text, twice as much where that isn't enough, and so on; the nodes of a definition of 64 kB or more take 16 bytes each
 * beside it. Descent tries at most 16 rules for each byte and 4,096 more, 400 nodes deep; what people write takes two,
 * some 60 deep. Where that isn't enough it reads over a memo of what the reading tries, with no recursion: texts that nest
 * 100,000 deep took 130 to 300 bytes for each byte, and 0.4 to 1 microseconds.
 *
 * Dense texts, as those of names of a letter, have more: 9.3 nodes a byte are the most that was found. To read no text
 * twice, give a room of 12 nodes for each byte and 64 more, and map a large one without a reserve (on Linux mmap with
 * MAP_NORESERVE): the system then gives memory only where a node is written. What is kept can be cut to `count` nodes.
 */
uint32_t weedle_syntax(
    const char *text, size_t length,
    struct weedle_node *nodes, size_t room,
    struct weedle_answer *answer);

/*
 * Reads a rule at the front of a text, whatever follows it, and writes the nodes of its syntax tree: of
 * WEEDLE_TYPE and `long? x` those of `long? `. `rule` is an enum weedle_rule.
 *
 * WEEDLE_STATUS_READ: the rule is read from the front of the text up to `rest`, and the first `count` of `nodes` are
 *     its tree, as weedle_syntax writes them. What follows them in `nodes` stays as it was.
 * WEEDLE_STATUS_REFUSED: the rule fails at the front of the text.
 * WEEDLE_STATUS_NOT_UTF8: exactly where there is such a rule and the bytes aren't UTF-8, what follows included.
 * WEEDLE_STATUS_NO_MEMORY: memory was refused (tested).
 * WEEDLE_STATUS_NO_ROOM: the rule is read up to `rest`, and there are `count` nodes, more than `room`.
 * WEEDLE_STATUS_TOO_LONG: 32 bits don't hold the length of the text, or a place or a depth of the rule's tree.
 * WEEDLE_STATUS_NO_RULE: exactly where no rule has the number `rule`.
 * Only with WEEDLE_STATUS_READ is anything written to `nodes`.
 *
 * Of WEEDLE_DEFINITIONS these are the definitions at the front of a text that weedle_syntax refuses too. It costs what
 * weedle_syntax does for what is read, and a look at each byte of the text, whether it is UTF-8.
 */
uint32_t weedle_syntax_of(
    uint32_t rule,
    const char *text, size_t length,
    struct weedle_node *nodes, size_t room,
    struct weedle_answer *answer);

/*
 * Says of a text that is refused where and why, and writes a message.
 *
 * WEEDLE_STATUS_READ: the grammar reads the whole text; there is nothing to say.
 * WEEDLE_STATUS_REFUSED: it doesn't, and `refusal` says where. The message is written to `message`, as
 *     `weedle_check` prints it behind the name of a file: line, column and what would have been read there, the line
 *     of the text, a mark below the place, and, where it is known, what would fix the text, with a line and a column.
 *     It is cut behind the last character that there is room for, and ended by a zero; so it needs a room of
 *     `length` + 1. 1,024 bytes hold any (tested). With a room of 0 nothing is written.
 * WEEDLE_STATUS_NOT_UTF8: exactly where the bytes aren't UTF-8.
 * WEEDLE_STATUS_NO_MEMORY: memory was refused (tested).
 * Only with WEEDLE_STATUS_REFUSED is anything written to `message`.
 *
 * It reads the text as weedle_syntax does, and then goes by descent over the first definition that isn't read, in some 200
 * to 300 nanoseconds for each byte of it and with no more memory than for a list. Where that would take too long or too
 * much of the stack, since the remaining input nests deep, it takes a table of that: some 1,600 bytes for each byte.
 * Descent goes over the definition again with up to sixteen changes, for what would fix it, and once more with each where
 * none does. All of them together try at most 16 rules for each byte of the definition, up to 64 kB behind the furthest place,
 * and 100,000, and take no table; where that isn't enough, no more changes are told. For `[A, A, A` that isn't closed, or
 * many comments in front of a definition, tables of the text and of its remaining input are filled, in some 20,000 to
 * 35,000 instructions a byte.
 */
uint32_t weedle_explain(
    const char *text, size_t length,
    char *message, size_t room,
    struct weedle_refusal *refusal);

/*
 * The same of the text from `start` on: what precedes it isn't read. Places, line and column are those of the
 * whole text, and so is the line in the message. With the `rest` that weedle_syntax left, it says what weedle_explain
 * says (tested), and reads nothing again.
 *
 * WEEDLE_STATUS_READ: the grammar reads whole the text from `start` on.
 * WEEDLE_STATUS_REFUSED: it doesn't.
 * WEEDLE_STATUS_NOT_UTF8: exactly where the bytes aren't UTF-8, those before `start` included.
 * WEEDLE_STATUS_NO_MEMORY: memory was refused (tested).
 * WEEDLE_STATUS_NO_PLACE: exactly where the text is UTF-8 and `start` is behind its end or within a character.
 * Only with WEEDLE_STATUS_REFUSED is anything written to `message`.
 */
uint32_t weedle_explain_from(
    const char *text, size_t length, size_t start,
    char *message, size_t room,
    struct weedle_refusal *refusal);

/*
 * Writes all words for what would go on where the reading of definitions comes furthest, from `start` on: "`;`" or
 * "a name", as the message of weedle_explain has up to six of them, with a zero behind each. Of what is read whole too:
 * what could follow at its end.
 *
 * WEEDLE_STATUS_READ: the first `length` bytes of `words` are the `count` words. What follows them stays as it was.
 * WEEDLE_STATUS_NOT_UTF8: exactly where the bytes aren't UTF-8.
 * WEEDLE_STATUS_NO_MEMORY: memory was refused (tested).
 * WEEDLE_STATUS_NO_ROOM: they need `length` bytes, more than `room`. 2,048 bytes hold any (tested).
 * WEEDLE_STATUS_NO_PLACE: exactly where the text is UTF-8 and `start` is behind its end or within a character.
 * Only with WEEDLE_STATUS_READ is anything written to `words`.
 *
 * It costs what weedle_explain_from does without the search for a hint.
 */
uint32_t weedle_expected(
    const char *text, size_t length, size_t start,
    char *words, size_t room,
    struct weedle_expected_words *expected);

/*
 * Divides a text into parts, one behind another, each read or unread: error recovery. docs/RECOVERY.md says which.
 *
 * WEEDLE_STATUS_READ: the first `recovered.parts` of `parts` join to the text. The rule of a part that is read is read
 *     from its start to its end, and that of one that isn't fails at its start; that one has no byte, or ends at the first
 *     synchronisation point. The first `recovered.nodes` of `nodes` are the trees of the parts that are read, in their
 *     order, as weedle_syntax_of writes them: the first node of each has the depth 0. For a text that weedle_syntax
 *     reads each part is a definition that is read. What follows them in `parts` and `nodes` stays as it was.
 * WEEDLE_STATUS_NOT_UTF8: exactly where the bytes aren't UTF-8.
 * WEEDLE_STATUS_NO_MEMORY: memory was refused (tested).
 * WEEDLE_STATUS_NO_ROOM: the parts are more than `part_room`, or the nodes more than `room`. So with rooms of 0 it
 *     counts them.
 * WEEDLE_STATUS_TOO_LONG: 32 bits don't hold the length of the text, a place of a part, or a place or a depth of a node.
 * Only with WEEDLE_STATUS_READ is anything written to `parts` or to `nodes`.
 *
 * It reads by descent within the limits of weedle_syntax, whatever the number of errors, and where they are spent over a
 * table; it takes their memory, and 48 bytes for each part, up to 96 where the list grows.
 */
uint32_t weedle_recover(
    const char *text, size_t length,
    struct weedle_part *parts, size_t part_room,
    struct weedle_node *nodes, size_t room,
    struct weedle_recovered *recovered);

/*
 * Says why a part that weedle_recover left unread is so, and writes a message, as weedle_explain does. A member is read
 * as the only one of a definition, all else behind what is read of its definition, up to the end of the part. Where a
 * sign is missing, and the part has no byte, the sign alone is expected. What is elsewhere in the text isn't looked
 * at.
 *
 * WEEDLE_STATUS_REFUSED: `refusal` says where, and the message is written to `message`, cut and ended as that
 *     of weedle_explain.
 * WEEDLE_STATUS_NOT_UTF8: exactly where the bytes aren't UTF-8.
 * WEEDLE_STATUS_NO_MEMORY: memory was refused (tested).
 * WEEDLE_STATUS_NO_PLACE: `part` is no unread part of the text by its numbers: it is read, no rule has its number, its
 *     places aren't in order, or one is behind the end of the text or within a character. Nothing is said of such a part.
 * Only with WEEDLE_STATUS_REFUSED is anything written to `message`.
 */
uint32_t weedle_explain_part(
    const char *text, size_t length,
    const struct weedle_part *part,
    char *message, size_t room,
    struct weedle_refusal *refusal);

/* Writes all words for what would go on where weedle_explain_part says, as weedle_expected does, with its statuses;
   WEEDLE_STATUS_NO_PLACE as weedle_explain_part has it. */
uint32_t weedle_expected_part(
    const char *text, size_t length,
    const struct weedle_part *part,
    char *words, size_t room,
    struct weedle_expected_words *expected);

/*
 * Formats a text, as `weedle_format` does: whitespace is moved, and nothing else changes.
 *
 * WEEDLE_STATUS_READ: the grammar reads the whole text, and the first `length` of `out` are the formatted text. The
 *     grammar reads it whole too, by the same rules, each as deep, and all bytes except for those of whitespace and of
 *     the ends of line comments are the same, in the same order. What follows them in `out` stays as it was; no zero
 *     is written.
 * WEEDLE_STATUS_REFUSED: it doesn't, and leaves the text from `rest` on.
 * WEEDLE_STATUS_NOT_UTF8: exactly where the bytes aren't UTF-8.
 * WEEDLE_STATUS_NO_MEMORY: memory was refused (tested).
 * WEEDLE_STATUS_NO_ROOM: it needs `length` bytes, more than `room`. So with a room of 0 it tells how much is needed.
 * Only with WEEDLE_STATUS_READ is anything written to `out`, which `text` isn't a part of.
 *
 * It reads the text as weedle_syntax does, and what was made of it once more where that isn't the text itself: so it
 * takes a third more of its time where the text is formatted already, and else 2.4 times as much. Its nodes take 32
 * bytes: of what people write it asked for 2.1 to 2.4 times as many bytes as weedle_syntax, of the densest texts for 4.5 times as many.
 * Where the layout alone needs a table, or comments follow one another with nothing between, it was up to nine times.
 */
uint32_t weedle_format(
    const char *text, size_t length,
    char *out, size_t room,
    struct weedle_formatted *formatted);

/*
 * The calls that take a dialect read a text by its rules, as the call without `_in` does by weedle2's: `dialect` is an
 * enum weedle_dialect. Their statuses, what they write, and what the fields of an answer say is that of the call without
 * `_in`, where 'the grammar' is that of the dialect. Besides
 *
 * WEEDLE_STATUS_NO_DIALECT: exactly where no dialect has the number `dialect`. The text isn't looked at then, and
 *     WEEDLE_STATUS_NOT_UTF8 and WEEDLE_STATUS_NO_PLACE aren't answered. All of the answer is 0 (tested).
 * WEEDLE_STATUS_TOO_DEEP: the text nests deeper, or takes more steps, than descent reads, as hundreds of `sequence<` that
 *     are open (tested). By weedle2's rules it isn't answered: they take a table then, which today's don't have. It is
 *     answered by weedle_explain_in, weedle_expected_in, weedle_recover_in, weedle_explain_part_in and
 *     weedle_expected_part_in alone.
 *
 * By WEEDLE_DIALECT_WEEDLE2 each answers what the call without `_in` answers (tested).
 *
 * Today's rules read what weedle2's read, and more, as `[Exposed=*] interface A {};` and a text of comments alone:
 * docs/TODAY.md says what. A text that both read has one layout (tested).
 */

/* As weedle_syntax does; it costs the same. */
uint32_t weedle_syntax_in(
    uint32_t dialect,
    const char *text, size_t length,
    struct weedle_node *nodes, size_t room,
    struct weedle_answer *answer);

/* As weedle_explain_from does, and with a `start` of 0 as weedle_explain. A text that is read whole by today's rules and
   not by weedle2's says so in no message: compare both. */
uint32_t weedle_explain_in(
    uint32_t dialect,
    const char *text, size_t length, size_t start,
    char *message, size_t room,
    struct weedle_refusal *refusal);

/* As weedle_expected does. */
uint32_t weedle_expected_in(
    uint32_t dialect,
    const char *text, size_t length, size_t start,
    char *words, size_t room,
    struct weedle_expected_words *expected);

/* As weedle_recover does. The rules of parts are those of the dialect: a definition that today's rules read is a part of
   WEEDLE_TODAY_DEFINITION, and each docstring, comment and run of whitespace that none follows one of WEEDLE_TODAY_PIECE. By
   today's rules it reads by descent alone. */
uint32_t weedle_recover_in(
    uint32_t dialect,
    const char *text, size_t length,
    struct weedle_part *parts, size_t part_room,
    struct weedle_node *nodes, size_t room,
    struct weedle_recovered *recovered);

/* As weedle_explain_part does, of a part that weedle_recover_in left unread by the same dialect. */
uint32_t weedle_explain_part_in(
    uint32_t dialect,
    const char *text, size_t length,
    const struct weedle_part *part,
    char *message, size_t room,
    struct weedle_refusal *refusal);

/* As weedle_expected_part does, of such a part. */
uint32_t weedle_expected_part_in(
    uint32_t dialect,
    const char *text, size_t length,
    const struct weedle_part *part,
    char *words, size_t room,
    struct weedle_expected_words *expected);

/* As weedle_format does; it costs the same. */
uint32_t weedle_format_in(
    uint32_t dialect,
    const char *text, size_t length,
    char *out, size_t room,
    struct weedle_formatted *formatted);

/* The version of the library, as WEEDLE_VERSION has that of the header. */
uint32_t weedle_version(void);

/* How many rules the library's grammar has. Their numbers belong to a version: compare both before they are used. */
uint32_t weedle_rules(void);

/* The rules of the grammar. */
enum weedle_rule {
    /* Trivia: line comments, whitespace and block comments. */
    WEEDLE_BYTES_LF = 0,
    WEEDLE_NOT_NEXT_ANY = 1,
    WEEDLE_LINE_END = 2,
    WEEDLE_BYTES_SLASH_SLASH = 3,
    WEEDLE_NOT_NEXT_SLASH = 4,
    WEEDLE_RUN_NOT_LINE_FEED = 5,
    WEEDLE_LINE_COMMENT = 6,
    WEEDLE_ONE_OF_BLANK = 7,
    WEEDLE_RUN_BLANK = 8,
    WEEDLE_BLANKS = 9,
    WEEDLE_BYTES_SLASH_STAR = 10,
    WEEDLE_PAST_STAR_SLASH = 11,
    WEEDLE_BLOCK_COMMENT = 12,
    WEEDLE_PIECE = 13,
    WEEDLE_TRIVIA = 14,
    /* Symbols: trivia, the symbol's bytes, trivia. */
    WEEDLE_BYTES_OPEN_PAREN = 15,
    WEEDLE_OPEN_PAREN = 16,
    WEEDLE_BYTES_CLOSE_PAREN = 17,
    WEEDLE_CLOSE_PAREN = 18,
    WEEDLE_BYTES_OPEN_BRACKET = 19,
    WEEDLE_OPEN_BRACKET = 20,
    WEEDLE_BYTES_CLOSE_BRACKET = 21,
    WEEDLE_CLOSE_BRACKET = 22,
    WEEDLE_BYTES_OPEN_BRACE = 23,
    WEEDLE_OPEN_BRACE = 24,
    WEEDLE_BYTES_CLOSE_BRACE = 25,
    WEEDLE_CLOSE_BRACE = 26,
    WEEDLE_BYTES_COMMA = 27,
    WEEDLE_COMMA = 28,
    WEEDLE_BYTES_MINUS = 29,
    WEEDLE_MINUS = 30,
    WEEDLE_BYTES_DOT = 31,
    WEEDLE_DOT = 32,
    WEEDLE_BYTES_ELLIPSIS = 33,
    WEEDLE_ELLIPSIS = 34,
    WEEDLE_BYTES_COLON = 35,
    WEEDLE_COLON = 36,
    WEEDLE_BYTES_SEMI_COLON = 37,
    WEEDLE_SEMI_COLON = 38,
    WEEDLE_BYTES_LESS_THAN = 39,
    WEEDLE_LESS_THAN = 40,
    WEEDLE_BYTES_ASSIGN = 41,
    WEEDLE_ASSIGN = 42,
    WEEDLE_BYTES_GREATER_THAN = 43,
    WEEDLE_GREATER_THAN = 44,
    WEEDLE_BYTES_Q_MARK = 45,
    WEEDLE_Q_MARK = 46,
    /* Keywords in lower case: trivia, the keyword's bytes with no name character next, trivia. */
    WEEDLE_BYTES_OR = 47,
    WEEDLE_NOT_NEXT_NAME = 48,
    WEEDLE_OR = 49,
    WEEDLE_BYTES_OPTIONAL = 50,
    WEEDLE_OPTIONAL = 51,
    WEEDLE_BYTES_ASYNC = 52,
    WEEDLE_ASYNC = 53,
    WEEDLE_BYTES_ATTRIBUTE = 54,
    WEEDLE_ATTRIBUTE = 55,
    WEEDLE_BYTES_CALLBACK = 56,
    WEEDLE_CALLBACK = 57,
    WEEDLE_BYTES_CONST = 58,
    WEEDLE_CONST = 59,
    WEEDLE_BYTES_DELETER = 60,
    WEEDLE_DELETER = 61,
    WEEDLE_BYTES_DICTIONARY = 62,
    WEEDLE_DICTIONARY = 63,
    WEEDLE_BYTES_ENUM = 64,
    WEEDLE_ENUM = 65,
    WEEDLE_BYTES_GETTER = 66,
    WEEDLE_GETTER = 67,
    WEEDLE_BYTES_INCLUDES = 68,
    WEEDLE_INCLUDES = 69,
    WEEDLE_BYTES_INHERIT = 70,
    WEEDLE_INHERIT = 71,
    WEEDLE_BYTES_INTERFACE = 72,
    WEEDLE_INTERFACE = 73,
    WEEDLE_BYTES_ITERABLE = 74,
    WEEDLE_ITERABLE = 75,
    WEEDLE_BYTES_MAPLIKE = 76,
    WEEDLE_MAPLIKE = 77,
    WEEDLE_BYTES_NAMESPACE = 78,
    WEEDLE_NAMESPACE = 79,
    WEEDLE_BYTES_PARTIAL = 80,
    WEEDLE_PARTIAL = 81,
    WEEDLE_BYTES_REQUIRED = 82,
    WEEDLE_REQUIRED = 83,
    WEEDLE_BYTES_SETLIKE = 84,
    WEEDLE_SETLIKE = 85,
    WEEDLE_BYTES_SETTER = 86,
    WEEDLE_SETTER = 87,
    WEEDLE_BYTES_STATIC = 88,
    WEEDLE_STATIC = 89,
    WEEDLE_BYTES_STRINGIFIER = 90,
    WEEDLE_STRINGIFIER = 91,
    WEEDLE_BYTES_TYPEDEF = 92,
    WEEDLE_TYPEDEF = 93,
    WEEDLE_BYTES_UNRESTRICTED = 94,
    WEEDLE_UNRESTRICTED = 95,
    WEEDLE_BYTES_SYMBOL = 96,
    WEEDLE_SYMBOL = 97,
    WEEDLE_BYTES_ANY = 98,
    WEEDLE_ANY = 99,
    WEEDLE_BYTES_BOOLEAN = 100,
    WEEDLE_BOOLEAN = 101,
    WEEDLE_BYTES_BYTE = 102,
    WEEDLE_BYTE = 103,
    WEEDLE_BYTES_DOUBLE = 104,
    WEEDLE_DOUBLE = 105,
    WEEDLE_BYTES_FALSE = 106,
    WEEDLE_FALSE = 107,
    WEEDLE_BYTES_FLOAT = 108,
    WEEDLE_FLOAT = 109,
    WEEDLE_BYTES_LONG = 110,
    WEEDLE_LONG = 111,
    WEEDLE_BYTES_NULL = 112,
    WEEDLE_NULL = 113,
    WEEDLE_BYTES_OBJECT = 114,
    WEEDLE_OBJECT = 115,
    WEEDLE_BYTES_OCTET = 116,
    WEEDLE_OCTET = 117,
    WEEDLE_BYTES_SEQUENCE = 118,
    WEEDLE_SEQUENCE = 119,
    WEEDLE_BYTES_SHORT = 120,
    WEEDLE_SHORT = 121,
    WEEDLE_BYTES_TRUE = 122,
    WEEDLE_TRUE = 123,
    WEEDLE_BYTES_UNSIGNED = 124,
    WEEDLE_UNSIGNED = 125,
    WEEDLE_BYTES_UNDEFINED = 126,
    WEEDLE_UNDEFINED = 127,
    WEEDLE_BYTES_RECORD = 128,
    WEEDLE_RECORD = 129,
    WEEDLE_BYTES_READ_ONLY = 130,
    WEEDLE_READ_ONLY = 131,
    WEEDLE_BYTES_MIXIN = 132,
    WEEDLE_MIXIN = 133,
    WEEDLE_BYTES_IMPLEMENTS = 134,
    WEEDLE_IMPLEMENTS = 135,
    WEEDLE_BYTES_LEGACY_CALLER = 136,
    WEEDLE_LEGACY_CALLER = 137,
    WEEDLE_BYTES_CONSTRUCTOR = 138,
    WEEDLE_CONSTRUCTOR = 139,
    /* Keywords with capitals: trivia, the keyword's bytes with no name character next, trivia. */
    WEEDLE_BYTES_BYTE_STRING = 140,
    WEEDLE_BYTE_STRING = 141,
    WEEDLE_BYTES_DOM_STRING = 142,
    WEEDLE_DOM_STRING = 143,
    WEEDLE_BYTES_FROZEN_ARRAY = 144,
    WEEDLE_FROZEN_ARRAY = 145,
    WEEDLE_BYTES_INFINITY = 146,
    WEEDLE_INFINITY = 147,
    WEEDLE_BYTES_NAN = 148,
    WEEDLE_NAN = 149,
    WEEDLE_BYTES_USV_STRING = 150,
    WEEDLE_USV_STRING = 151,
    WEEDLE_BYTES_ARRAY_BUFFER = 152,
    WEEDLE_ARRAY_BUFFER = 153,
    WEEDLE_BYTES_DATA_VIEW = 154,
    WEEDLE_DATA_VIEW = 155,
    WEEDLE_BYTES_INT8_ARRAY = 156,
    WEEDLE_INT8_ARRAY = 157,
    WEEDLE_BYTES_INT16_ARRAY = 158,
    WEEDLE_INT16_ARRAY = 159,
    WEEDLE_BYTES_INT32_ARRAY = 160,
    WEEDLE_INT32_ARRAY = 161,
    WEEDLE_BYTES_UINT8_ARRAY = 162,
    WEEDLE_UINT8_ARRAY = 163,
    WEEDLE_BYTES_UINT16_ARRAY = 164,
    WEEDLE_UINT16_ARRAY = 165,
    WEEDLE_BYTES_UINT32_ARRAY = 166,
    WEEDLE_UINT32_ARRAY = 167,
    WEEDLE_BYTES_UINT8_CLAMPED_ARRAY = 168,
    WEEDLE_UINT8_CLAMPED_ARRAY = 169,
    WEEDLE_BYTES_FLOAT32_ARRAY = 170,
    WEEDLE_FLOAT32_ARRAY = 171,
    WEEDLE_BYTES_FLOAT64_ARRAY = 172,
    WEEDLE_FLOAT64_ARRAY = 173,
    WEEDLE_BYTES_ARRAY_BUFFER_VIEW = 174,
    WEEDLE_ARRAY_BUFFER_VIEW = 175,
    WEEDLE_BYTES_BUFFER_SOURCE = 176,
    WEEDLE_BUFFER_SOURCE = 177,
    WEEDLE_BYTES_PROMISE = 178,
    WEEDLE_PROMISE = 179,
    WEEDLE_BYTES_ERROR = 180,
    WEEDLE_ERROR = 181,
    WEEDLE_BYTES_NEG_INFINITY = 182,
    WEEDLE_NEG_INFINITY = 183,
    /* Leaves: names, numbers, strings and docstrings. */
    WEEDLE_BYTES_UNDERSCORE = 184,
    WEEDLE_OPT_BYTES_UNDERSCORE = 185,
    WEEDLE_ONE_OF_LETTER = 186,
    WEEDLE_RUN_NAME = 187,
    WEEDLE_IDENTIFIER_TEXT = 188,
    WEEDLE_IDENTIFIER = 189,
    WEEDLE_OPT_BYTES_MINUS = 190,
    WEEDLE_ONE_OF_ONE_TO_NINE = 191,
    WEEDLE_RUN_DIGIT = 192,
    WEEDLE_DEC_LIT_TEXT = 193,
    WEEDLE_DEC_LIT = 194,
    WEEDLE_BYTES_ZERO = 195,
    WEEDLE_ONE_OF_X_LETTER = 196,
    WEEDLE_ONE_OF_HEX = 197,
    WEEDLE_RUN_HEX = 198,
    WEEDLE_HEX_LIT_TEXT = 199,
    WEEDLE_HEX_LIT = 200,
    WEEDLE_RUN_OCTAL = 201,
    WEEDLE_OCT_LIT_TEXT = 202,
    WEEDLE_OCT_LIT = 203,
    WEEDLE_ONE_OF_DIGIT = 204,
    WEEDLE_DIGITS = 205,
    WEEDLE_ONE_OF_E_LETTER = 206,
    WEEDLE_ONE_OF_SIGN = 207,
    WEEDLE_OPT_ONE_OF_SIGN = 208,
    WEEDLE_EXPONENT = 209,
    WEEDLE_POINT_AFTER_DIGITS = 210,
    WEEDLE_POINT_BEFORE_DIGITS = 211,
    WEEDLE_POINT = 212,
    WEEDLE_OPT_EXPONENT = 213,
    WEEDLE_POINT_FORM = 214,
    WEEDLE_EXPONENT_FORM = 215,
    WEEDLE_FLOAT_FORM = 216,
    WEEDLE_FLOAT_VALUE_LIT_TEXT = 217,
    WEEDLE_FLOAT_VALUE_LIT = 218,
    WEEDLE_BYTES_QUOTE = 219,
    WEEDLE_RUN_NOT_QUOTE = 220,
    WEEDLE_STRING_LIT = 221,
    WEEDLE_BYTES_THREE_SLASHES = 222,
    WEEDLE_PAST_LF = 223,
    WEEDLE_DOC_LINE = 224,
    WEEDLE_MANY_DOC_LINE = 225,
    WEEDLE_DOCSTRING = 226,
    /* Literals and default values. */
    WEEDLE_BOOLEAN_LIT = 227,
    WEEDLE_INTEGER_LIT = 228,
    WEEDLE_FLOAT_LIT = 229,
    WEEDLE_EMPTY_ARRAY_LIT = 230,
    WEEDLE_EMPTY_DICTIONARY_LIT = 231,
    WEEDLE_DEFAULT_VALUE = 232,
    WEEDLE_CONST_VALUE = 233,
    WEEDLE_DEFAULT = 234,
    /* Types that hold no other type, and lists of names. */
    WEEDLE_OPT_UNSIGNED = 235,
    WEEDLE_LONG_LONG = 236,
    WEEDLE_LONG_LONG_TYPE = 237,
    WEEDLE_LONG_TYPE = 238,
    WEEDLE_SHORT_TYPE = 239,
    WEEDLE_INTEGER_TYPE = 240,
    WEEDLE_OPT_UNRESTRICTED = 241,
    WEEDLE_FLOAT_TYPE = 242,
    WEEDLE_DOUBLE_TYPE = 243,
    WEEDLE_FLOATING_POINT_TYPE = 244,
    WEEDLE_OPT_Q_MARK = 245,
    WEEDLE_MAY_BE_NULL_INTEGER_TYPE = 246,
    WEEDLE_MAY_BE_NULL_FLOATING_POINT_TYPE = 247,
    WEEDLE_MAY_BE_NULL_BOOLEAN = 248,
    WEEDLE_MAY_BE_NULL_BYTE = 249,
    WEEDLE_MAY_BE_NULL_OCTET = 250,
    WEEDLE_MAY_BE_NULL_IDENTIFIER = 251,
    WEEDLE_CONST_TYPE = 252,
    WEEDLE_TAIL_IDENTIFIER_COMMA = 253,
    WEEDLE_IDENTIFIER_LIST = 254,
    WEEDLE_PARENTHESIZED_IDENTIFIER_LIST = 255,
    /* Types that hold types, extended attributes and arguments, which read one another. */
    WEEDLE_GENERICS_TYPE = 256,
    WEEDLE_SEQUENCE_TYPE = 257,
    WEEDLE_FROZEN_ARRAY_TYPE = 258,
    WEEDLE_GENERICS_RETURN_TYPE = 259,
    WEEDLE_PROMISE_TYPE = 260,
    WEEDLE_GENERICS_RECORD_TYPES = 261,
    WEEDLE_RECORD_TYPE = 262,
    WEEDLE_UNION_TYPE = 263,
    WEEDLE_MAY_BE_NULL_UNION_TYPE = 264,
    WEEDLE_MAY_BE_NULL_BYTE_STRING = 265,
    WEEDLE_MAY_BE_NULL_DOM_STRING = 266,
    WEEDLE_MAY_BE_NULL_USV_STRING = 267,
    WEEDLE_MAY_BE_NULL_SEQUENCE_TYPE = 268,
    WEEDLE_MAY_BE_NULL_OBJECT = 269,
    WEEDLE_MAY_BE_NULL_SYMBOL = 270,
    WEEDLE_MAY_BE_NULL_ERROR = 271,
    WEEDLE_MAY_BE_NULL_ARRAY_BUFFER = 272,
    WEEDLE_MAY_BE_NULL_DATA_VIEW = 273,
    WEEDLE_MAY_BE_NULL_INT8_ARRAY = 274,
    WEEDLE_MAY_BE_NULL_INT16_ARRAY = 275,
    WEEDLE_MAY_BE_NULL_INT32_ARRAY = 276,
    WEEDLE_MAY_BE_NULL_UINT8_ARRAY = 277,
    WEEDLE_MAY_BE_NULL_UINT16_ARRAY = 278,
    WEEDLE_MAY_BE_NULL_UINT32_ARRAY = 279,
    WEEDLE_MAY_BE_NULL_UINT8_CLAMPED_ARRAY = 280,
    WEEDLE_MAY_BE_NULL_FLOAT32_ARRAY = 281,
    WEEDLE_MAY_BE_NULL_FLOAT64_ARRAY = 282,
    WEEDLE_MAY_BE_NULL_ARRAY_BUFFER_VIEW = 283,
    WEEDLE_MAY_BE_NULL_BUFFER_SOURCE = 284,
    WEEDLE_MAY_BE_NULL_FROZEN_ARRAY_TYPE = 285,
    WEEDLE_MAY_BE_NULL_RECORD_TYPE = 286,
    WEEDLE_NON_ANY_TYPE = 287,
    WEEDLE_RECORD_KEY_TYPE = 288,
    WEEDLE_RECORD_TYPES = 289,
    WEEDLE_SINGLE_TYPE = 290,
    WEEDLE_TYPE = 291,
    WEEDLE_RETURN_TYPE = 292,
    WEEDLE_EXTENDED_ATTRIBUTE_LIST = 293,
    WEEDLE_OPT_EXTENDED_ATTRIBUTE_LIST = 294,
    WEEDLE_ATTRIBUTED_TYPE = 295,
    WEEDLE_ATTRIBUTED_NON_ANY_TYPE = 296,
    WEEDLE_UNION_MEMBER_TYPE = 297,
    WEEDLE_TAIL_UNION_MEMBER_TYPE_OR = 298,
    WEEDLE_LIST_UNION_MEMBER_TYPE_OR = 299,
    WEEDLE_OPT_OPTIONAL = 300,
    WEEDLE_OPT_DEFAULT = 301,
    WEEDLE_SINGLE_ARGUMENT = 302,
    WEEDLE_VARIADIC_ARGUMENT = 303,
    WEEDLE_ARGUMENT = 304,
    WEEDLE_TAIL_ARGUMENT_COMMA = 305,
    WEEDLE_ARGUMENT_LIST = 306,
    WEEDLE_PARENTHESIZED_ARGUMENT_LIST = 307,
    WEEDLE_EXTENDED_ATTRIBUTE_ARG_LIST = 308,
    WEEDLE_EXTENDED_ATTRIBUTE_NAMED_ARG_LIST = 309,
    WEEDLE_EXTENDED_ATTRIBUTE_IDENT_LIST = 310,
    WEEDLE_IDENTIFIER_OR_STRING = 311,
    WEEDLE_EXTENDED_ATTRIBUTE_IDENT = 312,
    WEEDLE_EXTENDED_ATTRIBUTE_NO_ARGS = 313,
    WEEDLE_EXTENDED_ATTRIBUTE = 314,
    WEEDLE_TAIL_EXTENDED_ATTRIBUTE_COMMA = 315,
    WEEDLE_LIST_EXTENDED_ATTRIBUTE_COMMA = 316,
    /* Members of interfaces. */
    WEEDLE_OPT_DOCSTRING = 317,
    WEEDLE_OPT_IDENTIFIER = 318,
    WEEDLE_OPT_READ_ONLY = 319,
    WEEDLE_KEY_AND_VALUE_TYPES = 320,
    WEEDLE_GENERICS_ATTRIBUTED_TYPE = 321,
    WEEDLE_GENERICS_KEY_AND_VALUE_TYPES = 322,
    WEEDLE_INHERITANCE = 323,
    WEEDLE_OPT_INHERITANCE = 324,
    WEEDLE_SPECIAL = 325,
    WEEDLE_OPT_SPECIAL = 326,
    WEEDLE_STRINGIFIER_OR_INHERIT_OR_STATIC = 327,
    WEEDLE_OPT_STRINGIFIER_OR_INHERIT_OR_STATIC = 328,
    WEEDLE_STRINGIFIER_OR_STATIC = 329,
    WEEDLE_OPT_STRINGIFIER_OR_STATIC = 330,
    WEEDLE_CONST_MEMBER = 331,
    WEEDLE_ATTRIBUTE_INTERFACE_MEMBER = 332,
    WEEDLE_CONSTRUCTOR_INTERFACE_MEMBER = 333,
    WEEDLE_OPERATION_INTERFACE_MEMBER = 334,
    WEEDLE_SINGLE_TYPED_ITERABLE = 335,
    WEEDLE_DOUBLE_TYPED_ITERABLE = 336,
    WEEDLE_ITERABLE_INTERFACE_MEMBER = 337,
    WEEDLE_ASYNC_ITERABLE = 338,
    WEEDLE_OPT_PARENTHESIZED_ARGUMENT_LIST = 339,
    WEEDLE_SINGLE_TYPED_ASYNC_ITERABLE = 340,
    WEEDLE_DOUBLE_TYPED_ASYNC_ITERABLE = 341,
    WEEDLE_ASYNC_ITERABLE_INTERFACE_MEMBER = 342,
    WEEDLE_MAPLIKE_INTERFACE_MEMBER = 343,
    WEEDLE_SETLIKE_INTERFACE_MEMBER = 344,
    WEEDLE_STRINGIFIER_MEMBER = 345,
    WEEDLE_INTERFACE_MEMBER = 346,
    WEEDLE_INTERFACE_MEMBERS = 347,
    WEEDLE_BRACED_INTERFACE_MEMBERS = 348,
    /* Members of mixins, namespaces and dictionaries, and the values of an enum. */
    WEEDLE_OPT_STRINGIFIER = 349,
    WEEDLE_OPERATION_MIXIN_MEMBER = 350,
    WEEDLE_ATTRIBUTE_MIXIN_MEMBER = 351,
    WEEDLE_MIXIN_MEMBER = 352,
    WEEDLE_MIXIN_MEMBERS = 353,
    WEEDLE_BRACED_MIXIN_MEMBERS = 354,
    WEEDLE_OPERATION_NAMESPACE_MEMBER = 355,
    WEEDLE_ATTRIBUTE_NAMESPACE_MEMBER = 356,
    WEEDLE_NAMESPACE_MEMBER = 357,
    WEEDLE_NAMESPACE_MEMBERS = 358,
    WEEDLE_BRACED_NAMESPACE_MEMBERS = 359,
    WEEDLE_OPT_REQUIRED = 360,
    WEEDLE_DICTIONARY_MEMBER = 361,
    WEEDLE_DICTIONARY_MEMBERS = 362,
    WEEDLE_BRACED_DICTIONARY_MEMBERS = 363,
    WEEDLE_ENUM_VARIANT = 364,
    WEEDLE_TAIL_ENUM_VARIANT_COMMA = 365,
    WEEDLE_LIST1_ENUM_VARIANT_COMMA = 366,
    WEEDLE_OPT_COMMA = 367,
    WEEDLE_ENUM_VALUE_LIST = 368,
    WEEDLE_BRACED_ENUM_VALUE_LIST = 369,
    /* Definitions. */
    WEEDLE_CALLBACK_DEFINITION = 370,
    WEEDLE_CALLBACK_INTERFACE_DEFINITION = 371,
    WEEDLE_INTERFACE_DEFINITION = 372,
    WEEDLE_INTERFACE_MIXIN_DEFINITION = 373,
    WEEDLE_NAMESPACE_DEFINITION = 374,
    WEEDLE_DICTIONARY_DEFINITION = 375,
    WEEDLE_PARTIAL_INTERFACE_DEFINITION = 376,
    WEEDLE_PARTIAL_INTERFACE_MIXIN_DEFINITION = 377,
    WEEDLE_PARTIAL_DICTIONARY_DEFINITION = 378,
    WEEDLE_PARTIAL_NAMESPACE_DEFINITION = 379,
    WEEDLE_ENUM_DEFINITION = 380,
    WEEDLE_TYPEDEF_DEFINITION = 381,
    WEEDLE_INCLUDES_STATEMENT_DEFINITION = 382,
    WEEDLE_IMPLEMENTS_DEFINITION = 383,
    WEEDLE_DEFINITION = 384,
    WEEDLE_DEFINITIONS = 385,
    /* Words, a symbol, literals and docstrings of today's WebIDL. */
    WEEDLE_BYTES_ASTERISK = 386,
    WEEDLE_ASTERISK = 387,
    WEEDLE_BYTES_BIG_INT = 388,
    WEEDLE_BIG_INT = 389,
    WEEDLE_BYTES_ASYNC_ITERABLE_WORD = 390,
    WEEDLE_ASYNC_ITERABLE_WORD = 391,
    WEEDLE_BYTES_ASYNC_SEQUENCE = 392,
    WEEDLE_ASYNC_SEQUENCE = 393,
    WEEDLE_BYTES_OBSERVABLE_ARRAY = 394,
    WEEDLE_OBSERVABLE_ARRAY = 395,
    WEEDLE_BYTES_FLOAT16_ARRAY = 396,
    WEEDLE_FLOAT16_ARRAY = 397,
    WEEDLE_BYTES_BIG_INT64_ARRAY = 398,
    WEEDLE_BIG_INT64_ARRAY = 399,
    WEEDLE_BYTES_BIG_UINT64_ARRAY = 400,
    WEEDLE_BIG_UINT64_ARRAY = 401,
    WEEDLE_BYTES_SHARED_ARRAY_BUFFER = 402,
    WEEDLE_SHARED_ARRAY_BUFFER = 403,
    WEEDLE_TODAY_DOC = 404,
    WEEDLE_TODAY_DOCS = 405,
    WEEDLE_TODAY_LAST_DOC = 406,
    WEEDLE_TODAY_TRIVIA = 407,
    WEEDLE_TODAY_DEFAULT_VALUE = 408,
    WEEDLE_TODAY_DEFAULT = 409,
    WEEDLE_OPT_TODAY_DEFAULT = 410,
    WEEDLE_MAY_BE_NULL_BIG_INT = 411,
    WEEDLE_TODAY_CONST_TYPE = 412,
    WEEDLE_TAIL_STRING_LIT_COMMA = 413,
    WEEDLE_TODAY_STRING_LIST = 414,
    WEEDLE_PARENTHESIZED_TODAY_STRINGS = 415,
    WEEDLE_TODAY_NUMBER = 416,
    WEEDLE_TAIL_TODAY_NUMBER_COMMA = 417,
    WEEDLE_TODAY_NUMBER_LIST = 418,
    WEEDLE_PARENTHESIZED_TODAY_NUMBERS = 419,
    /* Today's types, extended attributes and arguments, which read one another. */
    WEEDLE_GENERICS_TODAY_ATTRIBUTED_TYPE = 420,
    WEEDLE_TODAY_SEQUENCE_TYPE = 421,
    WEEDLE_TODAY_ASYNC_SEQUENCE_TYPE = 422,
    WEEDLE_TODAY_FROZEN_ARRAY_TYPE = 423,
    WEEDLE_TODAY_OBSERVABLE_ARRAY_TYPE = 424,
    WEEDLE_GENERICS_TODAY_TYPE = 425,
    WEEDLE_TODAY_PROMISE_TYPE = 426,
    WEEDLE_GENERICS_TODAY_RECORD_TYPES = 427,
    WEEDLE_TODAY_RECORD_TYPE = 428,
    WEEDLE_TODAY_UNION_TYPE = 429,
    WEEDLE_MAY_BE_NULL_TODAY_UNION_TYPE = 430,
    WEEDLE_TODAY_WORD_TYPE = 431,
    WEEDLE_TODAY_GENERIC_TYPE = 432,
    WEEDLE_MAY_BE_NULL_TODAY_WORD_TYPE = 433,
    WEEDLE_MAY_BE_NULL_TODAY_GENERIC_TYPE = 434,
    WEEDLE_TODAY_NON_ANY_TYPE = 435,
    WEEDLE_TODAY_KEY_TYPE = 436,
    WEEDLE_TODAY_RECORD_TYPES = 437,
    WEEDLE_TODAY_TYPE = 438,
    WEEDLE_TODAY_ATTRIBUTES = 439,
    WEEDLE_TODAY_ATTRIBUTE_LISTS = 440,
    WEEDLE_TODAY_ATTRIBUTED_TYPE = 441,
    WEEDLE_TODAY_ATTRIBUTED_NON_ANY_TYPE = 442,
    WEEDLE_TODAY_UNION_MEMBER_TYPE = 443,
    WEEDLE_TAIL_TODAY_UNION_MEMBER_TYPE_OR = 444,
    WEEDLE_LIST1_TODAY_UNION_MEMBER_TYPE_OR = 445,
    WEEDLE_TODAY_OPTIONAL_ARGUMENT = 446,
    WEEDLE_OPT_ELLIPSIS = 447,
    WEEDLE_TODAY_REQUIRED_ARGUMENT = 448,
    WEEDLE_TODAY_ARGUMENT_KIND = 449,
    WEEDLE_TODAY_ARGUMENT = 450,
    WEEDLE_TAIL_TODAY_ARGUMENT_COMMA = 451,
    WEEDLE_TODAY_ARGUMENT_LIST = 452,
    WEEDLE_TODAY_ARGUMENTS = 453,
    WEEDLE_TODAY_ATTRIBUTE_ARG_LIST = 454,
    WEEDLE_TODAY_ATTRIBUTE_NAMED_ARG_LIST = 455,
    WEEDLE_TODAY_ATTRIBUTE_WILDCARD = 456,
    WEEDLE_TODAY_ATTRIBUTE_NUMBER = 457,
    WEEDLE_TODAY_ATTRIBUTE_STRINGS = 458,
    WEEDLE_TODAY_ATTRIBUTE_NUMBERS = 459,
    WEEDLE_TODAY_ATTRIBUTE = 460,
    WEEDLE_TAIL_TODAY_ATTRIBUTE_COMMA = 461,
    WEEDLE_LIST_TODAY_ATTRIBUTE_COMMA = 462,
    /* Today's members: docstrings and extended attributes, and then of which kind it is. */
    WEEDLE_TODAY_KEY_AND_VALUE_TYPES = 463,
    WEEDLE_GENERICS_TODAY_KEY_AND_VALUE_TYPES = 464,
    WEEDLE_TODAY_SECOND_TYPE = 465,
    WEEDLE_OPT_TODAY_SECOND_TYPE = 466,
    WEEDLE_TODAY_ITERATED = 467,
    WEEDLE_TODAY_CONST = 468,
    WEEDLE_TODAY_ATTRIBUTE_MEMBER = 469,
    WEEDLE_TODAY_CONSTRUCTOR = 470,
    WEEDLE_TODAY_OPERATION = 471,
    WEEDLE_TODAY_ITERABLE = 472,
    WEEDLE_TODAY_ASYNC_WORDS = 473,
    WEEDLE_OPT_TODAY_ARGUMENTS = 474,
    WEEDLE_TODAY_ASYNC_ITERABLE = 475,
    WEEDLE_TODAY_MAPLIKE = 476,
    WEEDLE_TODAY_SETLIKE = 477,
    WEEDLE_TODAY_STRINGIFIER = 478,
    WEEDLE_TODAY_INTERFACE_MEMBER_KIND = 479,
    WEEDLE_TODAY_INTERFACE_MEMBER = 480,
    WEEDLE_TODAY_MIXIN_OPERATION = 481,
    WEEDLE_TODAY_MIXIN_ATTRIBUTE = 482,
    WEEDLE_TODAY_MIXIN_MEMBER_KIND = 483,
    WEEDLE_TODAY_MIXIN_MEMBER = 484,
    WEEDLE_TODAY_NAMESPACE_OPERATION = 485,
    WEEDLE_TODAY_NAMESPACE_ATTRIBUTE = 486,
    WEEDLE_TODAY_NAMESPACE_MEMBER_KIND = 487,
    WEEDLE_TODAY_NAMESPACE_MEMBER = 488,
    WEEDLE_TODAY_DICTIONARY_MEMBER = 489,
    WEEDLE_TODAY_ENUM_VALUE = 490,
    WEEDLE_TAIL_TODAY_ENUM_VALUE_COMMA = 491,
    WEEDLE_LIST1_TODAY_ENUM_VALUE_COMMA = 492,
    WEEDLE_TODAY_INTERFACE_MEMBERS = 493,
    WEEDLE_BRACED_TODAY_INTERFACE_MEMBERS = 494,
    WEEDLE_TODAY_MIXIN_MEMBERS = 495,
    WEEDLE_BRACED_TODAY_MIXIN_MEMBERS = 496,
    WEEDLE_TODAY_NAMESPACE_MEMBERS = 497,
    WEEDLE_BRACED_TODAY_NAMESPACE_MEMBERS = 498,
    WEEDLE_TODAY_DICTIONARY_MEMBERS = 499,
    WEEDLE_BRACED_TODAY_DICTIONARY_MEMBERS = 500,
    WEEDLE_BRACED_TODAY_ENUM_VALUES = 501,
    /* Today's definitions. */
    WEEDLE_TODAY_CALLBACK = 502,
    WEEDLE_TODAY_CALLBACK_INTERFACE = 503,
    WEEDLE_TODAY_INTERFACE = 504,
    WEEDLE_TODAY_MIXIN = 505,
    WEEDLE_TODAY_NAMESPACE = 506,
    WEEDLE_TODAY_DICTIONARY = 507,
    WEEDLE_TODAY_PARTIAL_INTERFACE = 508,
    WEEDLE_TODAY_PARTIAL_MIXIN = 509,
    WEEDLE_TODAY_PARTIAL_DICTIONARY = 510,
    WEEDLE_TODAY_PARTIAL_NAMESPACE = 511,
    WEEDLE_TODAY_ENUM = 512,
    WEEDLE_TODAY_TYPEDEF = 513,
    WEEDLE_TODAY_INCLUDES = 514,
    WEEDLE_TODAY_IMPLEMENTS = 515,
    WEEDLE_TODAY_DEFINITION_KIND = 516,
    WEEDLE_TODAY_DEFINITION = 517,
    WEEDLE_TODAY_PIECE = 518,
    WEEDLE_TODAY_DEFINITIONS = 519
};

/* Their names, by number. */
static const char *const weedle_rule_names[WEEDLE_RULE_COUNT] = {
    "bytes_lf",
    "not_next_any",
    "line_end",
    "bytes_slash_slash",
    "not_next_slash",
    "run_not_line_feed",
    "line_comment",
    "one_of_blank",
    "run_blank",
    "blanks",
    "bytes_slash_star",
    "past_star_slash",
    "block_comment",
    "piece",
    "trivia",
    "bytes_open_paren",
    "open_paren",
    "bytes_close_paren",
    "close_paren",
    "bytes_open_bracket",
    "open_bracket",
    "bytes_close_bracket",
    "close_bracket",
    "bytes_open_brace",
    "open_brace",
    "bytes_close_brace",
    "close_brace",
    "bytes_comma",
    "comma",
    "bytes_minus",
    "minus",
    "bytes_dot",
    "dot",
    "bytes_ellipsis",
    "ellipsis",
    "bytes_colon",
    "colon",
    "bytes_semi_colon",
    "semi_colon",
    "bytes_less_than",
    "less_than",
    "bytes_assign",
    "assign",
    "bytes_greater_than",
    "greater_than",
    "bytes_q_mark",
    "q_mark",
    "bytes_or",
    "not_next_name",
    "or",
    "bytes_optional",
    "optional",
    "bytes_async",
    "async",
    "bytes_attribute",
    "attribute",
    "bytes_callback",
    "callback",
    "bytes_const",
    "const",
    "bytes_deleter",
    "deleter",
    "bytes_dictionary",
    "dictionary",
    "bytes_enum",
    "enum",
    "bytes_getter",
    "getter",
    "bytes_includes",
    "includes",
    "bytes_inherit",
    "inherit",
    "bytes_interface",
    "interface",
    "bytes_iterable",
    "iterable",
    "bytes_maplike",
    "maplike",
    "bytes_namespace",
    "namespace",
    "bytes_partial",
    "partial",
    "bytes_required",
    "required",
    "bytes_setlike",
    "setlike",
    "bytes_setter",
    "setter",
    "bytes_static",
    "static",
    "bytes_stringifier",
    "stringifier",
    "bytes_typedef",
    "typedef",
    "bytes_unrestricted",
    "unrestricted",
    "bytes_symbol",
    "symbol",
    "bytes_any",
    "any",
    "bytes_boolean",
    "boolean",
    "bytes_byte",
    "byte",
    "bytes_double",
    "double",
    "bytes_false",
    "false",
    "bytes_float",
    "float",
    "bytes_long",
    "long",
    "bytes_null",
    "null",
    "bytes_object",
    "object",
    "bytes_octet",
    "octet",
    "bytes_sequence",
    "sequence",
    "bytes_short",
    "short",
    "bytes_true",
    "true",
    "bytes_unsigned",
    "unsigned",
    "bytes_undefined",
    "undefined",
    "bytes_record",
    "record",
    "bytes_read_only",
    "read_only",
    "bytes_mixin",
    "mixin",
    "bytes_implements",
    "implements",
    "bytes_legacy_caller",
    "legacy_caller",
    "bytes_constructor",
    "constructor",
    "bytes_byte_string",
    "byte_string",
    "bytes_dom_string",
    "dom_string",
    "bytes_frozen_array",
    "frozen_array",
    "bytes_infinity",
    "infinity",
    "bytes_nan",
    "nan",
    "bytes_usv_string",
    "usv_string",
    "bytes_array_buffer",
    "array_buffer",
    "bytes_data_view",
    "data_view",
    "bytes_int8_array",
    "int8_array",
    "bytes_int16_array",
    "int16_array",
    "bytes_int32_array",
    "int32_array",
    "bytes_uint8_array",
    "uint8_array",
    "bytes_uint16_array",
    "uint16_array",
    "bytes_uint32_array",
    "uint32_array",
    "bytes_uint8_clamped_array",
    "uint8_clamped_array",
    "bytes_float32_array",
    "float32_array",
    "bytes_float64_array",
    "float64_array",
    "bytes_array_buffer_view",
    "array_buffer_view",
    "bytes_buffer_source",
    "buffer_source",
    "bytes_promise",
    "promise",
    "bytes_error",
    "error",
    "bytes_neg_infinity",
    "neg_infinity",
    "bytes_underscore",
    "opt_bytes_underscore",
    "one_of_letter",
    "run_name",
    "identifier_text",
    "identifier",
    "opt_bytes_minus",
    "one_of_one_to_nine",
    "run_digit",
    "dec_lit_text",
    "dec_lit",
    "bytes_zero",
    "one_of_x_letter",
    "one_of_hex",
    "run_hex",
    "hex_lit_text",
    "hex_lit",
    "run_octal",
    "oct_lit_text",
    "oct_lit",
    "one_of_digit",
    "digits",
    "one_of_e_letter",
    "one_of_sign",
    "opt_one_of_sign",
    "exponent",
    "point_after_digits",
    "point_before_digits",
    "point",
    "opt_exponent",
    "point_form",
    "exponent_form",
    "float_form",
    "float_value_lit_text",
    "float_value_lit",
    "bytes_quote",
    "run_not_quote",
    "string_lit",
    "bytes_three_slashes",
    "past_lf",
    "doc_line",
    "many_doc_line",
    "docstring",
    "boolean_lit",
    "integer_lit",
    "float_lit",
    "empty_array_lit",
    "empty_dictionary_lit",
    "default_value",
    "const_value",
    "default",
    "opt_unsigned",
    "long_long",
    "long_long_type",
    "long_type",
    "short_type",
    "integer_type",
    "opt_unrestricted",
    "float_type",
    "double_type",
    "floating_point_type",
    "opt_q_mark",
    "may_be_null_integer_type",
    "may_be_null_floating_point_type",
    "may_be_null_boolean",
    "may_be_null_byte",
    "may_be_null_octet",
    "may_be_null_identifier",
    "const_type",
    "tail_identifier_comma",
    "identifier_list",
    "parenthesized_identifier_list",
    "generics_type",
    "sequence_type",
    "frozen_array_type",
    "generics_return_type",
    "promise_type",
    "generics_record_types",
    "record_type",
    "union_type",
    "may_be_null_union_type",
    "may_be_null_byte_string",
    "may_be_null_dom_string",
    "may_be_null_usv_string",
    "may_be_null_sequence_type",
    "may_be_null_object",
    "may_be_null_symbol",
    "may_be_null_error",
    "may_be_null_array_buffer",
    "may_be_null_data_view",
    "may_be_null_int8_array",
    "may_be_null_int16_array",
    "may_be_null_int32_array",
    "may_be_null_uint8_array",
    "may_be_null_uint16_array",
    "may_be_null_uint32_array",
    "may_be_null_uint8_clamped_array",
    "may_be_null_float32_array",
    "may_be_null_float64_array",
    "may_be_null_array_buffer_view",
    "may_be_null_buffer_source",
    "may_be_null_frozen_array_type",
    "may_be_null_record_type",
    "non_any_type",
    "record_key_type",
    "record_types",
    "single_type",
    "type",
    "return_type",
    "extended_attribute_list",
    "opt_extended_attribute_list",
    "attributed_type",
    "attributed_non_any_type",
    "union_member_type",
    "tail_union_member_type_or",
    "list_union_member_type_or",
    "opt_optional",
    "opt_default",
    "single_argument",
    "variadic_argument",
    "argument",
    "tail_argument_comma",
    "argument_list",
    "parenthesized_argument_list",
    "extended_attribute_arg_list",
    "extended_attribute_named_arg_list",
    "extended_attribute_ident_list",
    "identifier_or_string",
    "extended_attribute_ident",
    "extended_attribute_no_args",
    "extended_attribute",
    "tail_extended_attribute_comma",
    "list_extended_attribute_comma",
    "opt_docstring",
    "opt_identifier",
    "opt_read_only",
    "key_and_value_types",
    "generics_attributed_type",
    "generics_key_and_value_types",
    "inheritance",
    "opt_inheritance",
    "special",
    "opt_special",
    "stringifier_or_inherit_or_static",
    "opt_stringifier_or_inherit_or_static",
    "stringifier_or_static",
    "opt_stringifier_or_static",
    "const_member",
    "attribute_interface_member",
    "constructor_interface_member",
    "operation_interface_member",
    "single_typed_iterable",
    "double_typed_iterable",
    "iterable_interface_member",
    "async_iterable",
    "opt_parenthesized_argument_list",
    "single_typed_async_iterable",
    "double_typed_async_iterable",
    "async_iterable_interface_member",
    "maplike_interface_member",
    "setlike_interface_member",
    "stringifier_member",
    "interface_member",
    "interface_members",
    "braced_interface_members",
    "opt_stringifier",
    "operation_mixin_member",
    "attribute_mixin_member",
    "mixin_member",
    "mixin_members",
    "braced_mixin_members",
    "operation_namespace_member",
    "attribute_namespace_member",
    "namespace_member",
    "namespace_members",
    "braced_namespace_members",
    "opt_required",
    "dictionary_member",
    "dictionary_members",
    "braced_dictionary_members",
    "enum_variant",
    "tail_enum_variant_comma",
    "list1_enum_variant_comma",
    "opt_comma",
    "enum_value_list",
    "braced_enum_value_list",
    "callback_definition",
    "callback_interface_definition",
    "interface_definition",
    "interface_mixin_definition",
    "namespace_definition",
    "dictionary_definition",
    "partial_interface_definition",
    "partial_interface_mixin_definition",
    "partial_dictionary_definition",
    "partial_namespace_definition",
    "enum_definition",
    "typedef_definition",
    "includes_statement_definition",
    "implements_definition",
    "definition",
    "definitions",
    "bytes_asterisk",
    "asterisk",
    "bytes_big_int",
    "big_int",
    "bytes_async_iterable_word",
    "async_iterable_word",
    "bytes_async_sequence",
    "async_sequence",
    "bytes_observable_array",
    "observable_array",
    "bytes_float16_array",
    "float16_array",
    "bytes_big_int64_array",
    "big_int64_array",
    "bytes_big_uint64_array",
    "big_uint64_array",
    "bytes_shared_array_buffer",
    "shared_array_buffer",
    "today_doc",
    "today_docs",
    "today_last_doc",
    "today_trivia",
    "today_default_value",
    "today_default",
    "opt_today_default",
    "may_be_null_big_int",
    "today_const_type",
    "tail_string_lit_comma",
    "today_string_list",
    "parenthesized_today_strings",
    "today_number",
    "tail_today_number_comma",
    "today_number_list",
    "parenthesized_today_numbers",
    "generics_today_attributed_type",
    "today_sequence_type",
    "today_async_sequence_type",
    "today_frozen_array_type",
    "today_observable_array_type",
    "generics_today_type",
    "today_promise_type",
    "generics_today_record_types",
    "today_record_type",
    "today_union_type",
    "may_be_null_today_union_type",
    "today_word_type",
    "today_generic_type",
    "may_be_null_today_word_type",
    "may_be_null_today_generic_type",
    "today_non_any_type",
    "today_key_type",
    "today_record_types",
    "today_type",
    "today_attributes",
    "today_attribute_lists",
    "today_attributed_type",
    "today_attributed_non_any_type",
    "today_union_member_type",
    "tail_today_union_member_type_or",
    "list1_today_union_member_type_or",
    "today_optional_argument",
    "opt_ellipsis",
    "today_required_argument",
    "today_argument_kind",
    "today_argument",
    "tail_today_argument_comma",
    "today_argument_list",
    "today_arguments",
    "today_attribute_arg_list",
    "today_attribute_named_arg_list",
    "today_attribute_wildcard",
    "today_attribute_number",
    "today_attribute_strings",
    "today_attribute_numbers",
    "today_attribute",
    "tail_today_attribute_comma",
    "list_today_attribute_comma",
    "today_key_and_value_types",
    "generics_today_key_and_value_types",
    "today_second_type",
    "opt_today_second_type",
    "today_iterated",
    "today_const",
    "today_attribute_member",
    "today_constructor",
    "today_operation",
    "today_iterable",
    "today_async_words",
    "opt_today_arguments",
    "today_async_iterable",
    "today_maplike",
    "today_setlike",
    "today_stringifier",
    "today_interface_member_kind",
    "today_interface_member",
    "today_mixin_operation",
    "today_mixin_attribute",
    "today_mixin_member_kind",
    "today_mixin_member",
    "today_namespace_operation",
    "today_namespace_attribute",
    "today_namespace_member_kind",
    "today_namespace_member",
    "today_dictionary_member",
    "today_enum_value",
    "tail_today_enum_value_comma",
    "list1_today_enum_value_comma",
    "today_interface_members",
    "braced_today_interface_members",
    "today_mixin_members",
    "braced_today_mixin_members",
    "today_namespace_members",
    "braced_today_namespace_members",
    "today_dictionary_members",
    "braced_today_dictionary_members",
    "braced_today_enum_values",
    "today_callback",
    "today_callback_interface",
    "today_interface",
    "today_mixin",
    "today_namespace",
    "today_dictionary",
    "today_partial_interface",
    "today_partial_mixin",
    "today_partial_dictionary",
    "today_partial_namespace",
    "today_enum",
    "today_typedef",
    "today_includes",
    "today_implements",
    "today_definition_kind",
    "today_definition",
    "today_piece",
    "today_definitions"
};

/* The name of a rule, or null of a number that no rule has. */
static inline const char *weedle_rule_name(uint32_t rule) {
    return rule < WEEDLE_RULE_COUNT ? weedle_rule_names[rule] : NULL;
}

#ifdef __cplusplus
}
#endif

#endif
