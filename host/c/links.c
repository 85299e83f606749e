/*
 * Calls every entry of libfulgwerz.a through include/fulgwerz.h, most of them on document 01's example. What is
 * expected was worked out by hand from the documents: each answer, and each word of each buffer, which holds other
 * words before every call.
 */
#include "fulgwerz.h"

#include <stdio.h>
#include <string.h>

static unsigned checks, failed;

static void check(bool holds, const char *claim, int line) {
    checks++;
    if (!holds) {
        failed++;
        fprintf(stderr, "links.c:%d: not so: %s\n", line, claim);
    }
}

#define CHECK(claim) check((claim), #claim, __LINE__)
#define COUNT(array) (sizeof(array) / sizeof((array)[0]))

/* The example. */

static const char BOOK[] =
    "H     1     1     2     1     4\n"
    "Q     1     1                  \n"
    "L     0    10                  \n"
    "N     1     1     0     2     3\n"
    "L     2    20                  \n"
    "L     3    21                  \n"
    "R     1     1     0            \n"
    "R     2     1     1            \n";

static const char NETWORK[] =
    "W     1     4    11            \n"
    "A     0     2    10     1      \n"
    "A     2     1     0     0      \n"
    "A     2     2    10     1      \n"
    "A     2     3    20     2      \n"
    "A     3     4    10     1      \n"
    "A     3     5    21     2      \n"
    "A     4     1     0     0      \n"
    "A     4     2    10     1      \n"
    "A     4     3    20     2      \n"
    "A     5     4    10     1      \n"
    "A     5     5    21     2      \n";

enum { BOOK_BYTES = 8 * FULGWERZ_LINE, NETWORK_BYTES = 12 * FULGWERZ_LINE };

static const fulgwerz_header HEADER = {1, 1, 2, 1, 4};
static const fulgwerz_counts COUNTS = {1, 4, 11};

static const uint32_t NODES[] = {
    2, 10, 0, 0, 0, /* a leaf with model 10 */
    1, 1, 0, 2, 3,  /* is the phone at position 0 in class 1? yes: node 2, no: node 3 */
    2, 20, 0, 0, 0,
    2, 21, 0, 0, 0,
};
static const uint64_t CLASSES[] = {1};  /* phone 1 is the bit worth 1 */
static const uint32_t ROOTS[] = {0, 1};
static const uint32_t PLAINS[] = {0, 0}; /* no boundary phones */

/*
 * Another book and its plain form. Two of its four classes have the same members, the others are not asked about.
 * Node 1 asks whether phone 2 stands to the left, node 2 whether it stands to the right. Its roots are the example's.
 */
static const fulgwerz_header SPELLED_HEADER = {1, 1, 2, 4, 6};
static const uint32_t SPELLED_NODES[] = {
    2, 10, 0, 0, 0,
    1, 4, 0, 3, 2,
    1, 2, 2, 5, 4,
    2, 20, 0, 0, 0,
    2, 21, 0, 0, 0,
    2, 22, 0, 0, 0,
};
static const uint64_t SPELLED_CLASSES[] = {1, 2, 0, 2};

static const char PLAIN[] =
    "H     1     1     2     1     6\n"
    "Q     1     2                  \n"
    "L     0    10                  \n"
    "N     1     1     0     2     3\n"
    "L     2    20                  \n"
    "N     3     1     2     4     5\n"
    "L     4    22                  \n"
    "L     5    21                  \n"
    "R     1     1     0            \n"
    "R     2     1     1            \n";

enum { PLAIN_BYTES = 10 * FULGWERZ_LINE };

/* Phone, three leaves, seven columns. Both phones are 3, phone 1 alone is 1, phone 2 alone is 2. */
static const uint64_t COMBINATIONS[] = {
    1, 0, 0, 0, 3, 1, 3, 0, 0, 0, 0,
    2, 2, 0, 0, 1, 2, 3, 0, 0, 0, 0,
    2, 3, 0, 0, 2, 2, 3, 0, 0, 0, 0,
};

/* Combination, seven columns. */
static const uint64_t METASTATES[] = {
    0, 1, 1, 3, 0, 0, 0, 0, /* silence after silence */
    1, 1, 2, 3, 0, 0, 0, 0, /* phone 2 after silence */
    0, 2, 1, 3, 0, 0, 0, 0, /* silence after phone 2 */
    2, 2, 2, 3, 0, 0, 0, 0, /* phone 2 after phone 2 */
};

static const uint32_t ARCS[] = {
    0, 2, 10, 1,
    2, 1, 0, 0,  2, 2, 10, 1,  2, 3, 20, 2,
    3, 4, 10, 1,  3, 5, 21, 2,
    4, 1, 0, 0,  4, 2, 10, 1,  4, 3, 20, 2,
    5, 4, 10, 1,  5, 5, 21, 2,
};

/*
 * A third book, which is its own plain form. Phone 3 is a boundary phone and takes the tree of phone 2, which asks
 * whether the phone itself is 2. Its nodes are the example's.
 */
static const char DIALECT[] =
    "H     0     1     3     1     4\n"
    "Q     1     2                  \n"
    "L     0    10                  \n"
    "N     1     1     0     2     3\n"
    "L     2    20                  \n"
    "L     3    21                  \n"
    "B     3     2                  \n"
    "R     1     1     0            \n"
    "R     2     1     1            \n";

enum { DIALECT_BYTES = 9 * FULGWERZ_LINE };

static const fulgwerz_header DIALECT_HEADER = {0, 1, 3, 1, 4};
static const uint64_t DIALECT_CLASSES[] = {2};
static const uint32_t DIALECT_ROOTS[] = {0, 1, FULGWERZ_NO_ROOT};
static const uint32_t DIALECT_PLAINS[] = {0, 0, 2};
static const fulgwerz_counts DIALECT_COUNTS = {1, 3, 11};

static const uint64_t DIALECT_COMBINATIONS[] = {
    1, 0, 0, 0, 1, 0, 0, 0, 0, 0, 0,
    2, 2, 0, 0, 2, 0, 0, 0, 0, 0, 0,
    3, 3, 0, 0, 4, 0, 0, 0, 0, 0, 0,
};

static const uint64_t DIALECT_METASTATES[] = {
    0, 1, 0, 0, 0, 0, 0, 0,
    1, 2, 0, 0, 0, 0, 0, 0,
    2, 4, 0, 0, 0, 0, 0, 0,
};

static const uint32_t DIALECT_ARCS[] = {
    0, 2, 10, 1,
    2, 1, 0, 0,  2, 2, 10, 1,  2, 3, 20, 2,  2, 4, 21, 3,
    3, 2, 10, 1,  3, 3, 20, 2,  3, 4, 21, 3,
    4, 2, 10, 1,  4, 3, 20, 2,  4, 4, 21, 3,
};

/*
 * A word book: word 1 is phone 2, word 2 is phone 2 twice. And the example's network joined with it: states are network
 * state, word, mark; arcs are from, to, model, word.
 */
static const char WORD_BOOK[] =
    "V     1     1     2            \n"
    "V     2     1     2            \n"
    "V     2     2     2            \n";

enum { WORD_BOOK_BYTES = 3 * FULGWERZ_LINE };

static const uint32_t WORDS[2 * FULGWERZ_WORD] = {[0] = 1, [1] = 2, [FULGWERZ_WORD] = 2, 2, 2};

static const uint32_t JOINED_STATES[] = {
    0, 0, 0,
    1, 0, 2,
    2, 0, 1, /* after the first silence */
    2, 0, 2, /* after the last */
    3, 0, 1, /* word 1 is said */
    3, 2, 1, /* one phone of word 2 */
    4, 0, 2,
    5, 0, 1,
    5, 2, 1,
};

static const uint32_t JOINED_ARCS[] = {
    0, 2, 10, 0,
    2, 3, 10, 0,  2, 4, 20, 1,  2, 5, 20, 2,
    3, 1, 0, 0,
    4, 6, 10, 0,  4, 7, 21, 1,  4, 8, 21, 2,
    5, 7, 21, 0,
    6, 1, 0, 0,
    7, 6, 10, 0,  7, 7, 21, 1,  7, 8, 21, 2,
    8, 7, 21, 0,
};

enum { JOINED_STATE_COUNT = 9, JOINED_ARC_COUNT = 14 };

/* Lent buffers, each longer than the examples need, and not by whole records. */

static uint32_t nodes[COUNT(NODES) + 7];
static uint64_t classes[COUNT(CLASSES) + 2];
static uint32_t roots[COUNT(ROOTS) + 3];
static uint32_t plains[COUNT(PLAINS) + 4];
static uint64_t combinations[COUNT(COMBINATIONS) + 13];
static uint64_t metastates[COUNT(METASTATES) + 9];
static uint32_t arcs[COUNT(ARCS) + 5];
static uint32_t models[9];
static uint32_t words[COUNT(WORDS) + 66];
static uint32_t states[COUNT(JOINED_STATES) + 4];
static uint32_t joined[COUNT(JOINED_ARCS) + 6];
static uint8_t text[NETWORK_BYTES + 40];

/* Fills every buffer with other words. */
static void spoil(void) {
    memset(nodes, 0xa5, sizeof nodes);
    memset(classes, 0xa5, sizeof classes);
    memset(roots, 0xa5, sizeof roots);
    memset(plains, 0xa5, sizeof plains);
    memset(combinations, 0xa5, sizeof combinations);
    memset(metastates, 0xa5, sizeof metastates);
    memset(arcs, 0xa5, sizeof arcs);
    memset(models, 0xa5, sizeof models);
    memset(words, 0xa5, sizeof words);
    memset(states, 0xa5, sizeof states);
    memset(joined, 0xa5, sizeof joined);
    memset(text, 0xa5, sizeof text);
}

/* Whether a buffer begins with these bytes and has only 0 after them. */
static bool holds(const void *buffer, size_t bytes, const void *expected, size_t used) {
    const unsigned char *rest = buffer;
    if (used > bytes || memcmp(buffer, expected, used) != 0) {
        return false;
    }
    for (size_t i = used; i < bytes; i++) {
        if (rest[i] != 0) {
            return false;
        }
    }
    return true;
}

#define HOLDS(buffer, expected) holds((buffer), sizeof(buffer), (expected), sizeof(expected))
#define CLEARED(buffer) holds((buffer), sizeof(buffer), "", 0)

static const uint8_t *bytes(const char *characters) {
    return (const uint8_t *)characters;
}

static bool same_header(fulgwerz_header a, fulgwerz_header b) {
    return a.half == b.half && a.states == b.states && a.phones == b.phones && a.classes == b.classes &&
           a.nodes == b.nodes;
}

static bool same_counts(fulgwerz_counts a, fulgwerz_counts b) {
    return a.states == b.states && a.metastates == b.metastates && a.arcs == b.arcs;
}

static const fulgwerz_header NO_HEADER = {0, 0, 0, 0, 0};
static const fulgwerz_counts NO_COUNTS = {0, 0, 0};

/* The calls, with the example's tables and the buffers above. */

static fulgwerz_read_answer read_book(const char *book, size_t length, size_t nodes_length) {
    spoil();
    return fulgwerz_read(
        bytes(book), length, nodes, nodes_length, classes, COUNT(classes), roots, COUNT(roots), plains, COUNT(plains));
}

static fulgwerz_count_answer write_book(fulgwerz_header header, size_t text_length) {
    spoil();
    return fulgwerz_write_book(
        header, SPELLED_NODES, COUNT(SPELLED_NODES), SPELLED_CLASSES, COUNT(SPELLED_CLASSES), ROOTS, COUNT(ROOTS),
        PLAINS, COUNT(PLAINS), text, text_length);
}

static fulgwerz_leaf_answer find_leaf(uint32_t root, const uint32_t *context, size_t context_length) {
    return fulgwerz_leaf(
        HEADER, NODES, COUNT(NODES), CLASSES, COUNT(CLASSES), root, context, context_length);
}

static fulgwerz_transcript_answer transcribe(const uint32_t *phones, size_t phones_length, size_t models_length) {
    spoil();
    return fulgwerz_transcribe(
        HEADER, NODES, COUNT(NODES), CLASSES, COUNT(CLASSES), ROOTS, COUNT(ROOTS), PLAINS, COUNT(PLAINS),
        phones, phones_length, models, models_length);
}

static fulgwerz_count_answer combine(fulgwerz_header header, size_t combinations_length) {
    spoil();
    return fulgwerz_combine(
        header, NODES, COUNT(NODES), CLASSES, COUNT(CLASSES), ROOTS, COUNT(ROOTS), PLAINS, COUNT(PLAINS),
        combinations, combinations_length);
}

static fulgwerz_build_answer build(
    fulgwerz_header header, size_t combination_room, size_t metastate_room, size_t arc_room, uint32_t turn_limit) {
    spoil();
    return fulgwerz_build(
        header, NODES, COUNT(NODES), CLASSES, COUNT(CLASSES), ROOTS, COUNT(ROOTS), PLAINS, COUNT(PLAINS),
        combinations, combination_room * FULGWERZ_COMBINATION,
        metastates, metastate_room * FULGWERZ_METASTATE,
        arcs, arc_room * FULGWERZ_ARC,
        turn_limit);
}

static fulgwerz_build_answer build_book(
    const char *book, size_t length, size_t metastate_room, uint32_t turn_limit) {
    spoil();
    return fulgwerz_build_book(
        bytes(book), length,
        nodes, COUNT(nodes), classes, COUNT(classes), roots, COUNT(roots), plains, COUNT(plains),
        combinations, COUNT(combinations),
        metastates, metastate_room * FULGWERZ_METASTATE,
        arcs, COUNT(arcs),
        turn_limit);
}

static fulgwerz_count_answer read_words(const char *book, size_t length, size_t words_length) {
    spoil();
    return fulgwerz_read_words(bytes(book), length, words, words_length);
}

static fulgwerz_join_answer join(
    fulgwerz_counts counts, size_t word_count, const uint32_t *own_words, size_t words_length,
    size_t state_room, size_t arc_room) {
    spoil();
    return fulgwerz_join(
        counts, ARCS, COUNT(ARCS), word_count, own_words, words_length,
        states, state_room * FULGWERZ_JOINED, joined, arc_room * FULGWERZ_ARC);
}

/* Sizes and places of all fields, as the archive has them. */

static void check_small_layouts(void) {
    CHECK(sizeof(size_t) == 8 && sizeof(bool) == 1);

    CHECK(sizeof(fulgwerz_header) == 20);
    CHECK(offsetof(fulgwerz_header, half) == 0);
    CHECK(offsetof(fulgwerz_header, states) == 4);
    CHECK(offsetof(fulgwerz_header, phones) == 8);
    CHECK(offsetof(fulgwerz_header, classes) == 12);
    CHECK(offsetof(fulgwerz_header, nodes) == 16);

    CHECK(sizeof(fulgwerz_node) == 20);
    CHECK(offsetof(fulgwerz_node, kind) == 0);
    CHECK(offsetof(fulgwerz_node, value) == 4);
    CHECK(offsetof(fulgwerz_node, position) == 8);
    CHECK(offsetof(fulgwerz_node, yes) == 12);
    CHECK(offsetof(fulgwerz_node, no) == 16);

    CHECK(sizeof(fulgwerz_counts) == 12);
    CHECK(offsetof(fulgwerz_counts, states) == 0);
    CHECK(offsetof(fulgwerz_counts, metastates) == 4);
    CHECK(offsetof(fulgwerz_counts, arcs) == 8);
}

static void check_answer_layouts(void) {
    CHECK(sizeof(fulgwerz_read_answer) == 40);
    CHECK(offsetof(fulgwerz_read_answer, fault) == 0);
    CHECK(offsetof(fulgwerz_read_answer, line) == 8);
    CHECK(offsetof(fulgwerz_read_answer, header) == 16);

    CHECK(sizeof(fulgwerz_leaf_answer) == 24);
    CHECK(offsetof(fulgwerz_leaf_answer, fault) == 0);
    CHECK(offsetof(fulgwerz_leaf_answer, line) == 8);
    CHECK(offsetof(fulgwerz_leaf_answer, leaf) == 16);
    CHECK(offsetof(fulgwerz_leaf_answer, questions) == 20);

    CHECK(sizeof(fulgwerz_transcript_answer) == 32);
    CHECK(offsetof(fulgwerz_transcript_answer, fault) == 0);
    CHECK(offsetof(fulgwerz_transcript_answer, line) == 8);
    CHECK(offsetof(fulgwerz_transcript_answer, count) == 16);
    CHECK(offsetof(fulgwerz_transcript_answer, questions) == 24);

    CHECK(sizeof(fulgwerz_count_answer) == 24);
    CHECK(offsetof(fulgwerz_count_answer, fault) == 0);
    CHECK(offsetof(fulgwerz_count_answer, line) == 8);
    CHECK(offsetof(fulgwerz_count_answer, count) == 16);

    CHECK(sizeof(fulgwerz_build_answer) == 40);
    CHECK(offsetof(fulgwerz_build_answer, fault) == 0);
    CHECK(offsetof(fulgwerz_build_answer, line) == 8);
    CHECK(offsetof(fulgwerz_build_answer, finished) == 16);
    CHECK(offsetof(fulgwerz_build_answer, turns) == 20);
    CHECK(offsetof(fulgwerz_build_answer, counts) == 24);

    CHECK(sizeof(fulgwerz_network_answer) == 32);
    CHECK(offsetof(fulgwerz_network_answer, fault) == 0);
    CHECK(offsetof(fulgwerz_network_answer, line) == 8);
    CHECK(offsetof(fulgwerz_network_answer, counts) == 16);

    CHECK(sizeof(fulgwerz_part_answer) == 32);
    CHECK(offsetof(fulgwerz_part_answer, fault) == 0);
    CHECK(offsetof(fulgwerz_part_answer, line) == 8);
    CHECK(offsetof(fulgwerz_part_answer, start) == 16);
    CHECK(offsetof(fulgwerz_part_answer, length) == 24);

    CHECK(sizeof(fulgwerz_join_answer) == 32);
    CHECK(offsetof(fulgwerz_join_answer, fault) == 0);
    CHECK(offsetof(fulgwerz_join_answer, line) == 8);
    CHECK(offsetof(fulgwerz_join_answer, states) == 16);
    CHECK(offsetof(fulgwerz_join_answer, arcs) == 24);
}

static void check_read(void) {
    fulgwerz_read_answer read = read_book(BOOK, BOOK_BYTES, COUNT(nodes));
    CHECK(read.fault == 0 && read.line == 0);
    CHECK(same_header(read.header, HEADER));
    CHECK(HOLDS(nodes, NODES));
    CHECK(HOLDS(classes, CLASSES));
    CHECK(HOLDS(roots, ROOTS));
    CHECK(HOLDS(plains, PLAINS));

    read = read_book(BOOK, BOOK_BYTES, COUNT(NODES));
    CHECK(read.fault == 0 && read.line == 0 && same_header(read.header, HEADER));

    read = read_book(BOOK, BOOK_BYTES, COUNT(NODES) - 1);
    CHECK(read.fault == FULGWERZ_NARROW && read.line == 1);
    CHECK(same_header(read.header, NO_HEADER));
    CHECK(holds(nodes, (COUNT(NODES) - 1) * sizeof nodes[0], "", 0));
    CHECK(nodes[COUNT(NODES) - 1] == 0xa5a5a5a5); /* not lent, so not touched */
    CHECK(CLEARED(classes) && CLEARED(roots) && CLEARED(plains));
}

/* The example with one line changed; lines count from 1. */
static const char *with_line(size_t number, const char *line) {
    static char book[sizeof BOOK];
    memcpy(book, BOOK, sizeof BOOK);
    memcpy(book + (number - 1) * FULGWERZ_LINE, line, FULGWERZ_LINE);
    return book;
}

/* Five different numbers, so that none can stand in another's place. */
static void check_read_header(void) {
    static const fulgwerz_header different = {.half = 0, .states = 1, .phones = 2, .classes = 3, .nodes = 4};
    fulgwerz_read_answer read =
        read_book(with_line(1, "H     0     1     2     3     4\n"), BOOK_BYTES, COUNT(nodes));
    CHECK(read.fault == 0 && read.line == 0);
    CHECK(same_header(read.header, different));
}

static void check_read_refused(const char *book, size_t length, uint32_t fault, size_t line) {
    fulgwerz_read_answer read = read_book(book, length, COUNT(nodes));
    CHECK(read.fault == fault);
    CHECK(read.line == line);
    CHECK(same_header(read.header, NO_HEADER));
    CHECK(CLEARED(nodes) && CLEARED(classes) && CLEARED(roots) && CLEARED(plains));
}

static void check_read_refusals(void) {
    check_read_refused(BOOK, 0, FULGWERZ_RAGGED, 0);
    check_read_refused(BOOK, 255, FULGWERZ_RAGGED, 0);
    check_read_refused(with_line(2, "q     1     1                  \n"), BOOK_BYTES, FULGWERZ_MISPRINT, 2);
    check_read_refused(with_line(1, "H     4     1     2     1     4\n"), BOOK_BYTES, FULGWERZ_RANGE, 1);
    check_read_refused(with_line(4, "N     2     1     0     3     3\n"), BOOK_BYTES, FULGWERZ_ORDER, 4);
    check_read_refused(with_line(4, "N     1     1     0     1     3\n"), BOOK_BYTES, FULGWERZ_BACKWARD, 4);
    check_read_refused(with_line(4, "N     1     1     0     2     2\n"), BOOK_BYTES, FULGWERZ_ORPHAN, 5);
    check_read_refused(BOOK, 7 * FULGWERZ_LINE, FULGWERZ_COUNT, 8);
}

static void check_write_book(void) {
    fulgwerz_count_answer written = write_book(SPELLED_HEADER, sizeof text);
    CHECK(written.fault == 0 && written.line == 0 && written.count == PLAIN_BYTES);
    CHECK(holds(text, sizeof text, PLAIN, PLAIN_BYTES));
    written = write_book(SPELLED_HEADER, PLAIN_BYTES);
    CHECK(written.fault == 0 && written.line == 0 && written.count == PLAIN_BYTES);
    CHECK(memcmp(text, PLAIN, PLAIN_BYTES) == 0 && text[PLAIN_BYTES] == 0xa5);

    written = write_book(SPELLED_HEADER, PLAIN_BYTES - 1);
    CHECK(written.fault == FULGWERZ_SHORT && written.line == 0 && written.count == 0);
    CHECK(holds(text, PLAIN_BYTES - 1, "", 0));
    written = write_book(HEADER, PLAIN_BYTES - 1);
    CHECK(written.fault == FULGWERZ_FOREIGN && written.line == 0 && written.count == 0);
    CHECK(holds(text, PLAIN_BYTES - 1, "", 0));

    /* The example is its own plain form. */
    spoil();
    written = fulgwerz_write_book(
        HEADER, NODES, COUNT(NODES), CLASSES, COUNT(CLASSES), ROOTS, COUNT(ROOTS), PLAINS, COUNT(PLAINS),
        text, sizeof text);
    CHECK(written.fault == 0 && written.line == 0 && written.count == BOOK_BYTES);
    CHECK(holds(text, sizeof text, BOOK, BOOK_BYTES));
}

static void check_leaf(void) {
    static const uint32_t after_silence[] = {1, 2, 1}, after_two[] = {2, 2, 1}, beyond[] = {3, 2, 1};

    fulgwerz_leaf_answer leaf = find_leaf(1, after_silence, 3);
    CHECK(leaf.fault == 0 && leaf.line == 0 && leaf.leaf == 2 && leaf.questions == 1);
    leaf = find_leaf(1, after_two, 3);
    CHECK(leaf.fault == 0 && leaf.line == 0 && leaf.leaf == 3 && leaf.questions == 1);
    leaf = find_leaf(3, after_silence, 3);
    CHECK(leaf.fault == 0 && leaf.line == 0 && leaf.leaf == 3 && leaf.questions == 0);

    leaf = find_leaf(1, after_silence, 2);
    CHECK(leaf.fault == FULGWERZ_RANGE && leaf.line == 0 && leaf.leaf == 0 && leaf.questions == 0);
    leaf = find_leaf(1, beyond, 3);
    CHECK(leaf.fault == FULGWERZ_RANGE && leaf.line == 0 && leaf.leaf == 0 && leaf.questions == 0);
    leaf = find_leaf(4, after_silence, 3);
    CHECK(leaf.fault == FULGWERZ_FOREIGN && leaf.line == 0 && leaf.leaf == 0 && leaf.questions == 0);

    /* Tables may be lent as reading left them, with 0 beyond the book's words. */
    read_book(BOOK, BOOK_BYTES, COUNT(nodes));
    leaf = fulgwerz_leaf(HEADER, nodes, COUNT(nodes), classes, COUNT(classes), 1, after_two, 3);
    CHECK(leaf.fault == 0 && leaf.line == 0 && leaf.leaf == 3 && leaf.questions == 1);
    nodes[COUNT(NODES)] = 1;
    leaf = fulgwerz_leaf(HEADER, nodes, COUNT(nodes), classes, COUNT(classes), 1, after_two, 3);
    CHECK(leaf.fault == FULGWERZ_FOREIGN && leaf.line == 0 && leaf.leaf == 0 && leaf.questions == 0);
}

static void check_leaf_in_list(void) {
    static const fulgwerz_node list[] = {{2, 10, 0, 0, 0}, {1, 1, 0, 2, 3}, {2, 20, 0, 0, 0}, {2, 21, 0, 0, 0}};
    static const uint32_t after_silence[] = {1, 2, 1}, after_two[] = {2, 2, 1};

    fulgwerz_leaf_answer leaf = fulgwerz_leaf_in_list(HEADER, list, 4, CLASSES, COUNT(CLASSES), 1, after_silence, 3);
    CHECK(leaf.fault == 0 && leaf.line == 0 && leaf.leaf == 2 && leaf.questions == 1);
    leaf = fulgwerz_leaf_in_list(HEADER, list, 4, CLASSES, COUNT(CLASSES), 1, after_two, 3);
    CHECK(leaf.fault == 0 && leaf.line == 0 && leaf.leaf == 3 && leaf.questions == 1);
    leaf = fulgwerz_leaf_in_list(HEADER, list, 4, CLASSES, COUNT(CLASSES), 1, after_two, 2);
    CHECK(leaf.fault == FULGWERZ_RANGE && leaf.line == 0 && leaf.leaf == 0 && leaf.questions == 0);
    leaf = fulgwerz_leaf_in_list(HEADER, list, 3, CLASSES, COUNT(CLASSES), 1, after_two, 3);
    CHECK(leaf.fault == FULGWERZ_FOREIGN && leaf.line == 0 && leaf.leaf == 0 && leaf.questions == 0);
}

static void check_transcribe(void) {
    static const uint32_t phones[] = {1, 2, 2, 1};
    static const uint32_t one[] = {10}, four[] = {10, 20, 21, 10};

    fulgwerz_transcript_answer given = transcribe(phones, 1, COUNT(models));
    CHECK(given.fault == 0 && given.line == 0 && given.count == 1 && given.questions == 0);
    CHECK(HOLDS(models, one));
    given = transcribe(phones, 4, COUNT(models));
    CHECK(given.fault == 0 && given.line == 0 && given.count == 4 && given.questions == 2);
    CHECK(HOLDS(models, four));
    given = transcribe(phones, 4, 4);
    CHECK(given.fault == 0 && given.line == 0 && given.count == 4 && given.questions == 2);
    CHECK(memcmp(models, four, sizeof four) == 0 && models[4] == 0xa5a5a5a5);

    given = transcribe(phones, 4, 3);
    CHECK(given.fault == FULGWERZ_SHORT && given.line == 0 && given.count == 0 && given.questions == 0);
    CHECK(holds(models, 3 * sizeof models[0], "", 0));
    given = transcribe(phones, 0, COUNT(models));
    CHECK(given.fault == FULGWERZ_UTTERANCE && given.line == 0 && given.count == 0 && given.questions == 0);
    CHECK(CLEARED(models));
    given = transcribe(phones + 2, 2, COUNT(models));
    CHECK(given.fault == FULGWERZ_UTTERANCE && given.line == 0 && given.count == 0 && given.questions == 0);
    CHECK(CLEARED(models));
}

/* Silence, as many phones 2 as there may be, and silence; and one phone 2 more, which is 41 before 33. */
static void check_long(void) {
    static uint32_t phones[FULGWERZ_MAX_SOUNDS + 1], given_models[FULGWERZ_MAX_SOUNDS];
    for (size_t i = 0; i < COUNT(phones); i++) {
        phones[i] = 2;
    }
    phones[0] = phones[FULGWERZ_MAX_SOUNDS - 1] = 1;
    fulgwerz_transcript_answer given = fulgwerz_transcribe(
        HEADER, NODES, COUNT(NODES), CLASSES, COUNT(CLASSES), ROOTS, COUNT(ROOTS), PLAINS, COUNT(PLAINS),
        phones, FULGWERZ_MAX_SOUNDS, given_models, COUNT(given_models));
    CHECK(given.fault == 0 && given.count == FULGWERZ_MAX_SOUNDS && given.questions == FULGWERZ_MAX_SOUNDS - 2);
    CHECK(given_models[0] == 10 && given_models[1] == 20 && given_models[2] == 21);
    CHECK(given_models[FULGWERZ_MAX_SOUNDS - 2] == 21 && given_models[FULGWERZ_MAX_SOUNDS - 1] == 10);

    phones[FULGWERZ_MAX_SOUNDS - 1] = 2;
    phones[FULGWERZ_MAX_SOUNDS] = 1;
    given = fulgwerz_transcribe(
        HEADER, NODES, COUNT(NODES), CLASSES, COUNT(CLASSES), ROOTS, COUNT(ROOTS), PLAINS, COUNT(PLAINS),
        phones, FULGWERZ_MAX_SOUNDS + 1, given_models, COUNT(given_models));
    CHECK(given.fault == FULGWERZ_UTTERANCE && given.line == 0 && given.count == 0 && given.questions == 0);
    CHECK(CLEARED(given_models));
}

static void check_combine(void) {
    fulgwerz_count_answer combined = combine(HEADER, COUNT(combinations));
    CHECK(combined.fault == 0 && combined.line == 0 && combined.count == 3);
    CHECK(HOLDS(combinations, COMBINATIONS));

    combined = combine(HEADER, COUNT(COMBINATIONS) - 1); /* two records, and ten words of a third */
    CHECK(combined.fault == FULGWERZ_CHOICES && combined.line == 0 && combined.count == 0);
    CHECK(holds(combinations, (COUNT(COMBINATIONS) - 1) * sizeof combinations[0], "", 0));

    fulgwerz_header wrong = HEADER;
    wrong.phones = 3;
    combined = combine(wrong, COUNT(combinations));
    CHECK(combined.fault == FULGWERZ_FOREIGN && combined.line == 0 && combined.count == 0);
    CHECK(CLEARED(combinations));
}

static void check_built(fulgwerz_build_answer built) {
    CHECK(built.fault == 0 && built.line == 0);
    CHECK(built.finished);
    CHECK(built.turns == 4);
    CHECK(same_counts(built.counts, COUNTS));
}

static void check_build(void) {
    check_built(build(HEADER, 3, 4, 11, 4));
    CHECK(memcmp(combinations, COMBINATIONS, sizeof COMBINATIONS) == 0);
    CHECK(memcmp(metastates, METASTATES, sizeof METASTATES) == 0);
    CHECK(memcmp(arcs, ARCS, sizeof ARCS) == 0);

    check_built(build(HEADER, 4, 5, 12, UINT32_MAX));
    CHECK(holds(combinations, 4 * FULGWERZ_COMBINATION * sizeof combinations[0], COMBINATIONS, sizeof COMBINATIONS));
    CHECK(holds(metastates, 5 * FULGWERZ_METASTATE * sizeof metastates[0], METASTATES, sizeof METASTATES));
    CHECK(holds(arcs, 12 * FULGWERZ_ARC * sizeof arcs[0], ARCS, sizeof ARCS));

    /* Three turns stop with nine arcs; the fourth metastate is there, but not expanded. */
    static const fulgwerz_counts nine = {1, 4, 9};
    fulgwerz_build_answer built = build(HEADER, 3, 4, 11, 3);
    CHECK(built.fault == 0 && built.line == 0 && !built.finished && built.turns == 3);
    CHECK(same_counts(built.counts, nine));
    CHECK(memcmp(metastates, METASTATES, sizeof METASTATES) == 0);
    CHECK(holds(arcs, sizeof ARCS, ARCS, 9 * FULGWERZ_ARC * sizeof arcs[0]));
}

static void check_build_refused(fulgwerz_build_answer built, uint32_t fault, size_t line) {
    CHECK(built.fault == fault);
    CHECK(built.line == line);
    CHECK(!built.finished && built.turns == 0);
    CHECK(same_counts(built.counts, NO_COUNTS));
}

static void check_build_refusals(void) {
    check_build_refused(build(HEADER, 2, 4, 11, 4), FULGWERZ_CHOICES, 0);
    check_build_refused(build(HEADER, 3, 3, 11, 4), FULGWERZ_CROWD, 0);
    check_build_refused(build(HEADER, 3, 3, 5, 4), FULGWERZ_CROWD, 0);
    check_build_refused(build(HEADER, 3, 4, 10, 4), FULGWERZ_TANGLE, 0);
    CHECK(holds(combinations, sizeof COMBINATIONS, "", 0));
    CHECK(holds(metastates, sizeof METASTATES, "", 0));
    CHECK(holds(arcs, 10 * FULGWERZ_ARC * sizeof arcs[0], "", 0));

    fulgwerz_header wrong = HEADER;
    wrong.nodes = 5;
    check_build_refused(build(wrong, 3, 4, 11, 4), FULGWERZ_FOREIGN, 0);
    CHECK(holds(combinations, sizeof COMBINATIONS, "", 0));
    CHECK(holds(metastates, sizeof METASTATES, "", 0));
    CHECK(holds(arcs, sizeof ARCS, "", 0));
}

static void check_build_book(void) {
    check_built(build_book(BOOK, BOOK_BYTES, 4, FULGWERZ_MAX_METASTATES));
    CHECK(HOLDS(nodes, NODES));
    CHECK(HOLDS(classes, CLASSES));
    CHECK(HOLDS(roots, ROOTS));
    CHECK(HOLDS(plains, PLAINS));
    CHECK(HOLDS(combinations, COMBINATIONS));
    CHECK(memcmp(metastates, METASTATES, sizeof METASTATES) == 0);
    CHECK(HOLDS(arcs, ARCS));

    /* A refusal of the build clears the tables too. */
    check_build_refused(build_book(BOOK, BOOK_BYTES, 3, FULGWERZ_MAX_METASTATES), FULGWERZ_CROWD, 0);
    CHECK(CLEARED(nodes) && CLEARED(classes) && CLEARED(roots) && CLEARED(plains));
    CHECK(CLEARED(combinations) && CLEARED(arcs));
    CHECK(holds(metastates, 3 * FULGWERZ_METASTATE * sizeof metastates[0], "", 0));

    const char *orphans = with_line(4, "N     1     1     0     2     2\n");
    check_build_refused(build_book(orphans, BOOK_BYTES, 4, FULGWERZ_MAX_METASTATES), FULGWERZ_ORPHAN, 5);
    CHECK(CLEARED(nodes) && CLEARED(classes) && CLEARED(roots) && CLEARED(plains));
    CHECK(CLEARED(combinations) && CLEARED(arcs));
    CHECK(holds(metastates, 4 * FULGWERZ_METASTATE * sizeof metastates[0], "", 0));
}

/* The third book, by every entry that takes a text or all four tables. */

static fulgwerz_count_answer write_dialect(const uint32_t *own_plains, size_t plains_length) {
    spoil();
    return fulgwerz_write_book(
        DIALECT_HEADER, NODES, COUNT(NODES), DIALECT_CLASSES, COUNT(DIALECT_CLASSES),
        DIALECT_ROOTS, COUNT(DIALECT_ROOTS), own_plains, plains_length, text, sizeof text);
}

static void check_dialect_read(void) {
    fulgwerz_read_answer read = read_book(DIALECT, DIALECT_BYTES, COUNT(nodes));
    CHECK(read.fault == 0 && read.line == 0);
    CHECK(same_header(read.header, DIALECT_HEADER));
    CHECK(HOLDS(nodes, NODES) && HOLDS(classes, DIALECT_CLASSES));
    CHECK(HOLDS(roots, DIALECT_ROOTS) && HOLDS(plains, DIALECT_PLAINS));

    spoil();
    read = fulgwerz_read(
        bytes(DIALECT), DIALECT_BYTES, nodes, COUNT(nodes), classes, COUNT(classes), roots, COUNT(roots), plains, 2);
    CHECK(read.fault == FULGWERZ_NARROW && read.line == 1);
    CHECK(CLEARED(nodes) && CLEARED(classes) && CLEARED(roots));
    CHECK(plains[0] == 0 && plains[1] == 0 && plains[2] == 0xa5a5a5a5);

    char chained[sizeof DIALECT];
    memcpy(chained, DIALECT, sizeof DIALECT);
    memcpy(chained + 6 * FULGWERZ_LINE, "B     3     3", 13);
    check_read_refused(chained, DIALECT_BYTES, FULGWERZ_CHAINED, 7);
}

static void check_dialect_tables(void) {
    static const uint32_t phones[] = {1, 2, 3, 1}, four[] = {10, 20, 21, 10};
    spoil();
    fulgwerz_transcript_answer given = fulgwerz_transcribe(
        DIALECT_HEADER, NODES, COUNT(NODES), DIALECT_CLASSES, COUNT(DIALECT_CLASSES),
        DIALECT_ROOTS, COUNT(DIALECT_ROOTS), DIALECT_PLAINS, COUNT(DIALECT_PLAINS),
        phones, COUNT(phones), models, COUNT(models));
    CHECK(given.fault == 0 && given.line == 0 && given.count == 4 && given.questions == 2);
    CHECK(HOLDS(models, four));

    fulgwerz_count_answer combined = fulgwerz_combine(
        DIALECT_HEADER, NODES, COUNT(NODES), DIALECT_CLASSES, COUNT(DIALECT_CLASSES),
        DIALECT_ROOTS, COUNT(DIALECT_ROOTS), DIALECT_PLAINS, COUNT(DIALECT_PLAINS),
        combinations, COUNT(combinations));
    CHECK(combined.fault == 0 && combined.line == 0 && combined.count == 3);
    CHECK(HOLDS(combinations, DIALECT_COMBINATIONS));

    fulgwerz_count_answer written = write_dialect(DIALECT_PLAINS, COUNT(DIALECT_PLAINS));
    CHECK(written.fault == 0 && written.line == 0 && written.count == DIALECT_BYTES);
    CHECK(holds(text, sizeof text, DIALECT, DIALECT_BYTES));
}

static void check_dialect_foreign(const uint32_t *own_plains, size_t plains_length) {
    fulgwerz_count_answer written = write_dialect(own_plains, plains_length);
    CHECK(written.fault == FULGWERZ_FOREIGN && written.line == 0 && written.count == 0);
    CHECK(CLEARED(text));
}

static void check_dialect_plains(void) {
    static const uint32_t none[] = {0, 0, 0}, itself[] = {0, 0, 3}, beyond[] = {0, 0, 4}, silence[] = {2, 0, 2},
                          more[] = {0, 0, 2, 1};
    check_dialect_foreign(none, 3); /* a root is left out, and the phone is no boundary phone */
    check_dialect_foreign(itself, 3);
    check_dialect_foreign(beyond, 3);
    check_dialect_foreign(silence, 3);
    check_dialect_foreign(more, 4);
    check_dialect_foreign(DIALECT_PLAINS, 2);
}

static void check_dialect_network(fulgwerz_build_answer built) {
    CHECK(built.fault == 0 && built.line == 0 && built.finished && built.turns == 3);
    CHECK(same_counts(built.counts, DIALECT_COUNTS));
    CHECK(HOLDS(combinations, DIALECT_COMBINATIONS));
    CHECK(holds(
        metastates, 4 * FULGWERZ_METASTATE * sizeof metastates[0], DIALECT_METASTATES, sizeof DIALECT_METASTATES));
    CHECK(HOLDS(arcs, DIALECT_ARCS));
}

static void check_dialect_build(void) {
    spoil();
    check_dialect_network(fulgwerz_build(
        DIALECT_HEADER, NODES, COUNT(NODES), DIALECT_CLASSES, COUNT(DIALECT_CLASSES),
        DIALECT_ROOTS, COUNT(DIALECT_ROOTS), DIALECT_PLAINS, COUNT(DIALECT_PLAINS),
        combinations, COUNT(combinations), metastates, 4 * FULGWERZ_METASTATE, arcs, COUNT(arcs), 3));

    check_dialect_network(build_book(DIALECT, DIALECT_BYTES, 4, FULGWERZ_MAX_METASTATES));
    CHECK(HOLDS(nodes, NODES) && HOLDS(classes, DIALECT_CLASSES));
    CHECK(HOLDS(roots, DIALECT_ROOTS) && HOLDS(plains, DIALECT_PLAINS));
    check_build_refused(build_book(DIALECT, DIALECT_BYTES, 2, FULGWERZ_MAX_METASTATES), FULGWERZ_CROWD, 0);
    CHECK(CLEARED(nodes) && CLEARED(classes) && CLEARED(roots) && CLEARED(plains));
}

static void check_part(uint32_t state, uint32_t fault, size_t start, size_t length) {
    fulgwerz_part_answer part = fulgwerz_leaving(COUNTS, ARCS, COUNT(ARCS), state);
    CHECK(part.fault == fault);
    CHECK(part.line == 0);
    CHECK(part.start == start);
    CHECK(part.length == length);
}

static void check_leaving(void) {
    check_part(0, 0, 0 * FULGWERZ_ARC, 1 * FULGWERZ_ARC);
    check_part(1, 0, 1 * FULGWERZ_ARC, 0); /* none leaves FINAL; they would stand after INITIAL's */
    check_part(2, 0, 1 * FULGWERZ_ARC, 3 * FULGWERZ_ARC);
    check_part(3, 0, 4 * FULGWERZ_ARC, 2 * FULGWERZ_ARC);
    check_part(4, 0, 6 * FULGWERZ_ARC, 3 * FULGWERZ_ARC);
    check_part(5, 0, 9 * FULGWERZ_ARC, 2 * FULGWERZ_ARC);
    check_part(6, FULGWERZ_STATE, 0, 0);

    static const fulgwerz_counts ten = {1, 4, 10};
    fulgwerz_part_answer part = fulgwerz_leaving(ten, ARCS, COUNT(ARCS), 2);
    CHECK(part.fault == FULGWERZ_FOREIGN && part.line == 0 && part.start == 0 && part.length == 0);
}

static void check_write(void) {
    spoil();
    fulgwerz_count_answer written = fulgwerz_write(COUNTS, ARCS, COUNT(ARCS), text, sizeof text);
    CHECK(written.fault == 0 && written.line == 0 && written.count == NETWORK_BYTES);
    CHECK(holds(text, sizeof text, NETWORK, NETWORK_BYTES));
    spoil();
    written = fulgwerz_write(COUNTS, ARCS, COUNT(ARCS), text, NETWORK_BYTES);
    CHECK(written.fault == 0 && written.line == 0 && written.count == NETWORK_BYTES);
    CHECK(memcmp(text, NETWORK, NETWORK_BYTES) == 0 && text[NETWORK_BYTES] == 0xa5);

    spoil();
    written = fulgwerz_write(COUNTS, ARCS, COUNT(ARCS), text, NETWORK_BYTES - 1);
    CHECK(written.fault == FULGWERZ_SHORT && written.line == 0 && written.count == 0);
    CHECK(holds(text, NETWORK_BYTES - 1, "", 0));
    static const fulgwerz_counts ten = {1, 4, 10};
    spoil();
    written = fulgwerz_write(ten, ARCS, COUNT(ARCS), text, sizeof text);
    CHECK(written.fault == FULGWERZ_FOREIGN && written.line == 0 && written.count == 0);
    CHECK(CLEARED(text));
}

static void check_network_refused(size_t length, size_t arcs_length, uint32_t fault, size_t line) {
    spoil();
    fulgwerz_network_answer network = fulgwerz_read_network(bytes(NETWORK), length, arcs, arcs_length);
    CHECK(network.fault == fault);
    CHECK(network.line == line);
    CHECK(same_counts(network.counts, NO_COUNTS));
    CHECK(holds(arcs, arcs_length * sizeof arcs[0], "", 0));
}

static void check_read_network(void) {
    spoil();
    fulgwerz_network_answer network = fulgwerz_read_network(bytes(NETWORK), NETWORK_BYTES, arcs, COUNT(arcs));
    CHECK(network.fault == 0 && network.line == 0);
    CHECK(same_counts(network.counts, COUNTS));
    CHECK(HOLDS(arcs, ARCS));

    check_network_refused(NETWORK_BYTES - 1, COUNT(arcs), FULGWERZ_RAGGED, 0);
    check_network_refused(NETWORK_BYTES - FULGWERZ_LINE, COUNT(arcs), FULGWERZ_COUNT, 12);
    check_network_refused(NETWORK_BYTES, COUNT(ARCS) - 1, FULGWERZ_NARROW, 1);
    check_network_refused(NETWORK_BYTES, 0, FULGWERZ_NARROW, 1);
}

static void check_words_refused(const char *book, size_t length, size_t words_length, uint32_t fault, size_t line) {
    fulgwerz_count_answer read = read_words(book, length, words_length);
    CHECK(read.fault == fault);
    CHECK(read.line == line);
    CHECK(read.count == 0);
    CHECK(holds(words, words_length * sizeof words[0], "", 0));
    CHECK(words_length == COUNT(words) || words[words_length] == 0xa5a5a5a5);
}

/* The word book with one line changed; lines count from 1. */
static const char *with_word_line(size_t number, const char *line) {
    static char book[sizeof WORD_BOOK];
    memcpy(book, WORD_BOOK, sizeof WORD_BOOK);
    memcpy(book + (number - 1) * FULGWERZ_LINE, line, FULGWERZ_LINE);
    return book;
}

static void check_read_words(void) {
    fulgwerz_count_answer read = read_words(WORD_BOOK, WORD_BOOK_BYTES, COUNT(words));
    CHECK(read.fault == 0 && read.line == 0 && read.count == 2);
    CHECK(HOLDS(words, WORDS));
    read = read_words(WORD_BOOK, WORD_BOOK_BYTES, COUNT(WORDS));
    CHECK(read.fault == 0 && read.line == 0 && read.count == 2);
    CHECK(memcmp(words, WORDS, sizeof WORDS) == 0 && words[COUNT(WORDS)] == 0xa5a5a5a5);

    check_words_refused(WORD_BOOK, 0, COUNT(words), FULGWERZ_RAGGED, 0);
    check_words_refused(WORD_BOOK, WORD_BOOK_BYTES - 1, COUNT(words), FULGWERZ_RAGGED, 0);
    const char *misprint = with_word_line(2, "W     2     1     2            \n");
    check_words_refused(misprint, WORD_BOOK_BYTES, COUNT(words), FULGWERZ_MISPRINT, 2);
    const char *range = with_word_line(2, "V     2     1    65            \n");
    check_words_refused(range, WORD_BOOK_BYTES, COUNT(words), FULGWERZ_RANGE, 2);
    const char *order = with_word_line(3, "V     2     3     2            \n");
    check_words_refused(order, WORD_BOOK_BYTES, COUNT(words), FULGWERZ_ORDER, 3);
    check_words_refused(order, WORD_BOOK_BYTES, FULGWERZ_WORD, FULGWERZ_ORDER, 3);
    check_words_refused(WORD_BOOK, WORD_BOOK_BYTES, COUNT(WORDS) - 1, FULGWERZ_VOCABULARY, 0);
    check_words_refused(WORD_BOOK, WORD_BOOK_BYTES, 0, FULGWERZ_VOCABULARY, 0);
}

static void check_joined(fulgwerz_join_answer answer, size_t state_room, size_t arc_room) {
    CHECK(answer.fault == 0 && answer.line == 0);
    CHECK(answer.states == JOINED_STATE_COUNT && answer.arcs == JOINED_ARC_COUNT);
    CHECK(holds(states, state_room * FULGWERZ_JOINED * sizeof states[0], JOINED_STATES, sizeof JOINED_STATES));
    CHECK(holds(joined, arc_room * FULGWERZ_ARC * sizeof joined[0], JOINED_ARCS, sizeof JOINED_ARCS));
}

static void check_join_refused(
    fulgwerz_join_answer answer, size_t state_room, size_t arc_room, uint32_t fault) {
    CHECK(answer.fault == fault);
    CHECK(answer.line == 0 && answer.states == 0 && answer.arcs == 0);
    CHECK(holds(states, state_room * FULGWERZ_JOINED * sizeof states[0], "", 0));
    CHECK(holds(joined, arc_room * FULGWERZ_ARC * sizeof joined[0], "", 0));
}

static void check_join(void) {
    check_joined(join(COUNTS, 2, WORDS, COUNT(WORDS), 9, 14), 9, 14);
    CHECK(states[COUNT(JOINED_STATES)] == 0xa5a5a5a5 && joined[COUNT(JOINED_ARCS)] == 0xa5a5a5a5);
    check_joined(join(COUNTS, 2, WORDS, COUNT(WORDS), 10, 15), 10, 15);

    /* Lengths that are no whole records, and words as reading left them. */
    read_words(WORD_BOOK, WORD_BOOK_BYTES, COUNT(words));
    memset(states, 0xa5, sizeof states);
    memset(joined, 0xa5, sizeof joined);
    fulgwerz_join_answer answer = fulgwerz_join(
        COUNTS, ARCS, COUNT(ARCS), 2, words, COUNT(words), states, COUNT(states), joined, COUNT(joined));
    CHECK(answer.fault == 0 && answer.states == JOINED_STATE_COUNT && answer.arcs == JOINED_ARC_COUNT);
    CHECK(HOLDS(states, JOINED_STATES) && HOLDS(joined, JOINED_ARCS));

    check_join_refused(join(COUNTS, 2, WORDS, COUNT(WORDS), 8, 14), 8, 14, FULGWERZ_CROWD);
    check_join_refused(join(COUNTS, 2, WORDS, COUNT(WORDS), 1, 14), 1, 14, FULGWERZ_CROWD);
    check_join_refused(join(COUNTS, 2, WORDS, COUNT(WORDS), 0, 0), 0, 0, FULGWERZ_CROWD);
    check_join_refused(join(COUNTS, 2, WORDS, COUNT(WORDS), 9, 13), 9, 13, FULGWERZ_TANGLE);
    check_join_refused(join(COUNTS, 2, WORDS, COUNT(WORDS), 9, 0), 9, 0, FULGWERZ_TANGLE);

    static const fulgwerz_counts ten = {1, 4, 10};
    static const uint32_t empty[FULGWERZ_WORD] = {0}, gap[FULGWERZ_WORD] = {1, 2, 2}, beyond[FULGWERZ_WORD] = {1, 65};
    check_join_refused(join(ten, 2, WORDS, COUNT(WORDS), 9, 14), 9, 14, FULGWERZ_FOREIGN);
    check_join_refused(join(COUNTS, 0, WORDS, 0, 9, 14), 9, 14, FULGWERZ_FOREIGN);
    check_join_refused(join(COUNTS, 1, WORDS, COUNT(WORDS), 9, 14), 9, 14, FULGWERZ_FOREIGN);
    check_join_refused(join(COUNTS, 2, WORDS, COUNT(WORDS) - 1, 9, 14), 9, 14, FULGWERZ_FOREIGN);
    check_join_refused(join(COUNTS, SIZE_MAX, WORDS, COUNT(WORDS), 9, 14), 9, 14, FULGWERZ_FOREIGN);
    check_join_refused(join(COUNTS, 1, empty, COUNT(empty), 9, 14), 9, 14, FULGWERZ_FOREIGN);
    check_join_refused(join(COUNTS, 1, gap, COUNT(gap), 9, 14), 9, 14, FULGWERZ_FOREIGN);
    check_join_refused(join(COUNTS, 1, beyond, COUNT(beyond), 0, 0), 0, 0, FULGWERZ_FOREIGN);
}

/* An arc that leaves FINAL, which is there though nothing reaches it. */
static void check_join_from_final(void) {
    static const fulgwerz_counts one = {1, 1, 1};
    static const uint32_t from_final[] = {1, 2, 5, 0};
    static const uint32_t three[] = {0, 0, 0, 1, 0, 2, 2, 0, 2};
    spoil();
    fulgwerz_join_answer answer = fulgwerz_join(
        one, from_final, COUNT(from_final), 2, WORDS, COUNT(WORDS), states, COUNT(states), joined, COUNT(joined));
    CHECK(answer.fault == 0 && answer.line == 0 && answer.states == 3 && answer.arcs == 1);
    CHECK(HOLDS(states, three) && HOLDS(joined, from_final));
}

int main(void) {
    CHECK(sizeof BOOK == BOOK_BYTES + 1 && sizeof NETWORK == NETWORK_BYTES + 1);
    CHECK(sizeof PLAIN == PLAIN_BYTES + 1 && sizeof DIALECT == DIALECT_BYTES + 1);
    CHECK(sizeof WORD_BOOK == WORD_BOOK_BYTES + 1);
    check_small_layouts();
    check_answer_layouts();
    check_read();
    check_read_header();
    check_read_refusals();
    check_write_book();
    check_leaf();
    check_leaf_in_list();
    check_transcribe();
    check_long();
    check_combine();
    check_build();
    check_build_refusals();
    check_build_book();
    check_dialect_read();
    check_dialect_tables();
    check_dialect_plains();
    check_dialect_build();
    check_leaving();
    check_write();
    check_read_network();
    check_read_words();
    check_join();
    check_join_from_final();
    printf("%u checks, %u failed\n", checks, failed);
    return failed == 0 ? 0 : 1;
}
