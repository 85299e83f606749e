/*
 * Fulgwerz: reads tree books, builds speech recognition networks, joins them with words, and puts all to work.
 *
 * These are the entries of libfulgwerz.a, which `rt lib` in crates/fulgwerz proves and writes. Each calls one proved
 * function and is proved to answer what that function answers. What a book, a network and their numbers mean is
 * said in docs/document-01.md, what a book's plain form, its boundary phones, a word book, a joined network and the
 * number of questions are in docs/document-02.md (P1, P2, P4, P5).
 * The archive is for Linux on x86-64; it needs memcpy and its like (memset, memmove, memcmp), which every C library
 * has, and nothing else.
 *
 * Lent buffers
 *   Every buffer is a pointer and a length. The length counts elements of the pointer's type, never bytes and
 *   never records: a table of 100 nodes is 500 words of 32 bits, so its length is 500. Only whole records count as
 *   space; elements that are too few for one more are cleared.
 *   A pointer must not be null and must be aligned for its type: 4 bytes for uint32_t and fulgwerz_node, 8 for
 *   uint64_t. That holds for a length of 0 too, where nothing is read or written: pass the address of some object
 *   of the type, not NULL.
 *   A buffer that is a pointer to const is only read. Any other is filled: the call writes every element of it.
 *   What it held before does not matter; it may be uninitialised.
 *   A buffer that is filled must not overlap any other buffer of the call. Those that are only read may overlap.
 *   Text is bytes and a length; it needs no 0 at its end.
 *
 * Answers
 *   fault  0 where nothing is wrong, else the number of the fault (below);
 *   line   the line of the text that is at fault, counted from 1; 0 where no line is meant.
 *   Where fault is not 0, the call is refused: all else in the answer is 0 or false, and so is every element of
 *   every buffer that was to be filled.
 *   Where fault is 0, line is 0 too, and in a buffer that was filled every element after the answer is 0.
 *
 * What may be lent
 *   Anything: no entry asks more of its caller than pointers and lengths that are true. Headers, counts, tables,
 *   arcs and words that no reading leaves are refused (18). Tables, arcs and words that a call filled may be lent
 *   again whole, or cut to what their header or counts say; elements beyond that must be 0.
 *
 * Threads and stack
 *   No entry keeps a pointer, allocates, prints or has a state of its own: any number of threads may call at once,
 *   as long as none fills a buffer that another uses.
 *   fulgwerz_combine, fulgwerz_build and fulgwerz_build_book keep their working space on the stack of the calling
 *   thread, about 3.6 million bytes at most; fulgwerz_join takes about 1.4 million there and fulgwerz_write_book about
 *   500,000, the others take less than 100,000. (Measured with an older kit, not proved.) A main thread with the usual
 *   8 MiB has enough; other threads may have less unless they are given more.
 */
#ifndef FULGWERZ_H
#define FULGWERZ_H

#include <stdbool.h>
#include <stddef.h>
#include <stdint.h>

#ifdef __cplusplus
extern "C" {
#endif

/* The faults, by the words of document 01; 21 and 51 are document 02's. (22 is given by the build program alone.) */
enum {
    FULGWERZ_RAGGED = 11,      /* length 0 or not a multiple of 32, or a 32nd byte that is no line feed */
    FULGWERZ_MISPRINT = 12,    /* a letter that this kind of text never has, or a malformed field */
    FULGWERZ_RANGE = 13,       /* a number outside its stated range or the header's counts */
    FULGWERZ_ORDER = 14,       /* a letter in the wrong place, or numbers out of order */
    FULGWERZ_BACKWARD = 15,    /* a child not greater than its node */
    FULGWERZ_ORPHAN = 16,      /* a node named twice or never */
    FULGWERZ_COUNT = 17,       /* the lines end too early, or go on */
    FULGWERZ_FOREIGN = 18,     /* lent tables, arcs or words, with header or counts, that the readers never leave */
    FULGWERZ_NARROW = 20,      /* a table too short for the header */
    FULGWERZ_CHAINED = 21,     /* a plain phone that is itself a boundary phone in the book */
    FULGWERZ_CHOICES = 30,     /* more combinations than the lent space or 65535 */
    FULGWERZ_CROWD = 31,       /* a new metastate, or a new joined state, beyond the lent space or 65535 */
    FULGWERZ_TANGLE = 32,      /* an arc beyond the lent space or 999999 */
    FULGWERZ_SHORT = 33,       /* an output text or model buffer too short */
    FULGWERZ_UTTERANCE = 41,   /* a sequence empty, of more than 1000000 phones, with a phone out of range, or not
                                  silence at both ends */
    FULGWERZ_STATE = 42,       /* a state number not in the network */
    FULGWERZ_VOCABULARY = 51   /* more words than the lent table holds */
};

/* How many elements a record takes. */
enum {
    FULGWERZ_NODE = 5,         /* 32-bit words: 1 question or 2 leaf; class or model; position; yes; no */
    FULGWERZ_COMBINATION = 11, /* 64-bit words: phone, three leaf nodes, seven columns */
    FULGWERZ_METASTATE = 8,    /* 64-bit words: combination number, seven columns */
    FULGWERZ_ARC = 4,          /* 32-bit words: from, to, model, phone; of a joined arc: from, to, model, word */
    FULGWERZ_WORD = 65,        /* 32-bit words: length, phones, then 0 */
    FULGWERZ_JOINED = 3,       /* 32-bit words: network state, word, mark */
    FULGWERZ_LINE = 32         /* bytes of a line of text */
};

/*
 * The most that there can be. Tables of 4096 nodes, 255 classes, 192 roots and 64 plain phones are never too short for
 * a book, a table of 9999 words never for a word book.
 */
enum {
    FULGWERZ_MAX_NODES = 4096,
    FULGWERZ_MAX_CLASSES = 255,
    FULGWERZ_MAX_ROOTS = 192, /* 64 phones of 3 states */
    FULGWERZ_MAX_PLAINS = 64, /* one for each phone */
    FULGWERZ_MAX_SOUNDS = 1000000, /* phones of a sequence that is transcribed */
    FULGWERZ_MAX_COMBINATIONS = 65535,
    FULGWERZ_MAX_METASTATES = 65535, /* so there are never more turns than this */
    FULGWERZ_MAX_ARCS = 999999, /* of a network, and of a joined one */
    FULGWERZ_MAX_WORDS = 9999,
    FULGWERZ_MAX_JOINED = 65535
};

/* What the table of roots holds where no R line gives a root; no node has this number. */
enum { FULGWERZ_NO_ROOT = 4096 };

/* The numbers of a book's H line. */
typedef struct {
    uint32_t half;    /* the half-width n: a context has 2n+1 phones */
    uint32_t states;  /* states per phone, k */
    uint32_t phones;
    uint32_t classes;
    uint32_t nodes;
} fulgwerz_header;

/* A node as a struct: the five words that it has in the table. */
typedef struct {
    uint32_t kind;   /* 1 question or 2 leaf */
    uint32_t value;  /* a question's class, a leaf's model */
    uint32_t position;
    uint32_t yes;
    uint32_t no;
} fulgwerz_node;

/* The numbers of a network's W line. */
typedef struct {
    uint32_t states;  /* states per metastate, k */
    uint32_t metastates;
    uint32_t arcs;
} fulgwerz_counts;

typedef struct {
    uint32_t fault;
    size_t line;
    fulgwerz_header header;
} fulgwerz_read_answer;

typedef struct {
    uint32_t fault;
    size_t line;
    uint32_t leaf;       /* the node number of the leaf */
    uint32_t questions;  /* how many questions were met on the way to it */
} fulgwerz_leaf_answer;

typedef struct {
    uint32_t fault;
    size_t line;
    size_t count;        /* of models */
    uint64_t questions;  /* how many questions were put, over all phones and states */
} fulgwerz_transcript_answer;

typedef struct {
    uint32_t fault;
    size_t line;
    size_t count;  /* of combinations, bytes or words, as the entry says */
} fulgwerz_count_answer;

typedef struct {
    uint32_t fault;
    size_t line;
    bool finished;   /* false without a fault: stopped, the turn limit is used up and a metastate is still unexpanded */
    uint32_t turns;  /* the turns done */
    fulgwerz_counts counts;
} fulgwerz_build_answer;

typedef struct {
    uint32_t fault;
    size_t line;
    fulgwerz_counts counts;
} fulgwerz_network_answer;

typedef struct {
    uint32_t fault;
    size_t line;
    size_t start;   /* where the part begins in the lent arcs, in words */
    size_t length;  /* how many words it has */
} fulgwerz_part_answer;

typedef struct {
    uint32_t fault;
    size_t line;
    size_t states;  /* joined states, 0 and 1 included */
    size_t arcs;    /* joined arcs */
} fulgwerz_join_answer;

/*
 * Reads a tree book. Fills nodes (5 words each), classes (a word each, phone p being the bit worth 2^(p-1)), roots
 * (a word each, by phone, then by state; 4096 where no R line gives the root) and plains (a word for each phone: the
 * plain phone that its B line names, or 0). A phone with a plain phone is a boundary phone; wherever trees are used,
 * it takes those of its plain phone, also where the roots have trees of its own.
 * Faults: 11 to 17, 20, 21.
 */
fulgwerz_read_answer fulgwerz_read(
    const uint8_t *text, size_t text_length,
    uint32_t *nodes, size_t nodes_length,
    uint64_t *classes, size_t classes_length,
    uint32_t *roots, size_t roots_length,
    uint32_t *plains, size_t plains_length);

/*
 * Writes the plain form of the book in the tables: its trees in the order of the roots, each numbered depth first, yes
 * before no; classes with the same members made one, unused ones left out, numbered by first use in that order. B
 * lines stay as they are, R lines that are left out stay left out. Two books have the same bytes exactly when their
 * half-width, states, phones, plain phones and, tree by tree, shape, positions, members and models are the same. Fills
 * text; count is how many bytes it has, 32 for each line. A buffer as long as the text that the tables were read from
 * is long enough.
 * Faults: 18, 33.
 */
fulgwerz_count_answer fulgwerz_write_book(
    fulgwerz_header header,
    const uint32_t *nodes, size_t nodes_length,
    const uint64_t *classes, size_t classes_length,
    const uint32_t *roots, size_t roots_length,
    const uint32_t *plains, size_t plains_length,
    uint8_t *text, size_t text_length);

/*
 * The leaf that a context reaches from a root, and the number of questions met on the way: 0 where the root is a leaf.
 * Any node may be the root; the context is 2n+1 phones. (For a boundary phone that is a root of its plain phone, with
 * the boundary phone itself in the middle of the context.)
 * Faults: 18, also for a root that is no node; 13 for another context.
 */
fulgwerz_leaf_answer fulgwerz_leaf(
    fulgwerz_header header,
    const uint32_t *nodes, size_t nodes_length,
    const uint64_t *classes, size_t classes_length,
    uint32_t root,
    const uint32_t *context, size_t context_length);

/*
 * The same over a list of node structs, which holds the header's nodes and no others; nodes_length counts structs.
 * Faults: 18, 13.
 */
fulgwerz_leaf_answer fulgwerz_leaf_in_list(
    fulgwerz_header header,
    const fulgwerz_node *nodes, size_t nodes_length,
    const uint64_t *classes, size_t classes_length,
    uint32_t root,
    const uint32_t *context, size_t context_length);

/*
 * The models that the trees give to a phone sequence: for each phone, one for each of its states. Fills models;
 * count is how many there are, phones_length times header.states. And how many questions were put for them, the sum of
 * what the walks met, one for each phone and state. A sequence has at most 1000000 phones.
 * Faults: 18, 41, 33.
 */
fulgwerz_transcript_answer fulgwerz_transcribe(
    fulgwerz_header header,
    const uint32_t *nodes, size_t nodes_length,
    const uint64_t *classes, size_t classes_length,
    const uint32_t *roots, size_t roots_length,
    const uint32_t *plains, size_t plains_length,
    const uint32_t *phones, size_t phones_length,
    uint32_t *models, size_t models_length);

/*
 * The valid combinations of leaves. Fills combinations (11 words each); count is how many there are.
 * Faults: 18, 30.
 */
fulgwerz_count_answer fulgwerz_combine(
    fulgwerz_header header,
    const uint32_t *nodes, size_t nodes_length,
    const uint64_t *classes, size_t classes_length,
    const uint32_t *roots, size_t roots_length,
    const uint32_t *plains, size_t plains_length,
    uint64_t *combinations, size_t combinations_length);

/*
 * Builds the network from the tables that reading left. Fills combinations (11 words each), metastates (8 words
 * each) and arcs (4 words each). A stopped build is no fault: arcs and counts are those after so many turns. With a
 * turn limit of FULGWERZ_MAX_METASTATES or more no build is stopped.
 * Faults: 18, 30, 31, 32.
 */
fulgwerz_build_answer fulgwerz_build(
    fulgwerz_header header,
    const uint32_t *nodes, size_t nodes_length,
    const uint64_t *classes, size_t classes_length,
    const uint32_t *roots, size_t roots_length,
    const uint32_t *plains, size_t plains_length,
    uint64_t *combinations, size_t combinations_length,
    uint64_t *metastates, size_t metastates_length,
    uint32_t *arcs, size_t arcs_length,
    uint32_t turn_limit);

/*
 * Reads a tree book and builds its network, as fulgwerz_read and fulgwerz_build do. Fills all seven buffers; a refusal
 * of the build clears the tables too.
 * Faults: 11 to 17, 20, 21, 30, 31, 32.
 */
fulgwerz_build_answer fulgwerz_build_book(
    const uint8_t *text, size_t text_length,
    uint32_t *nodes, size_t nodes_length,
    uint64_t *classes, size_t classes_length,
    uint32_t *roots, size_t roots_length,
    uint32_t *plains, size_t plains_length,
    uint64_t *combinations, size_t combinations_length,
    uint64_t *metastates, size_t metastates_length,
    uint32_t *arcs, size_t arcs_length,
    uint32_t turn_limit);

/*
 * The arcs that leave a state, as a part of the lent arcs: it begins at arcs + start and has length words, 4 for
 * each arc. A state without arcs has the empty part where they would stand; a refusal the empty part at the start.
 * Faults: 18, 42.
 */
fulgwerz_part_answer fulgwerz_leaving(
    fulgwerz_counts counts,
    const uint32_t *arcs, size_t arcs_length,
    uint32_t state);

/*
 * Writes the text of a network. Fills text; count is how many bytes it has, 32 for each arc and 32 more.
 * Faults: 18, 33.
 */
fulgwerz_count_answer fulgwerz_write(
    fulgwerz_counts counts,
    const uint32_t *arcs, size_t arcs_length,
    uint8_t *text, size_t text_length);

/*
 * Reads network text. Fills arcs (4 words each).
 * Faults: 11 to 14, 17, 20.
 */
fulgwerz_network_answer fulgwerz_read_network(
    const uint8_t *text, size_t text_length,
    uint32_t *arcs, size_t arcs_length);

/*
 * Reads a word book. Fills words (65 elements for each word: how many phones it has, its phones, then 0); count is how
 * many words there are.
 * Faults: 11 to 14, 51.
 */
fulgwerz_count_answer fulgwerz_read_words(
    const uint8_t *text, size_t text_length,
    uint32_t *words, size_t words_length);

/*
 * Joins a network with the words of a word book; word_count is how many there are. Fills states (3 elements each: a
 * state of the network, a word, a mark) and joined (4 elements each: from, to, model, word); from and to are joined
 * states, by their numbers.
 * State 0 is INITIAL with 0, 0, state 1 is FINAL with 0, 2. The mark is how many phones of the word were met; where
 * the word is 0, it is 0 before the first silence, 1 between words and 2 after the last silence. An arc has a word
 * where the word's first phone is met, else 0. Of a finished network a model sequence and a word sequence have a path
 * from 0 to 1 exactly when the network carries the models with silence, the phones of the words in order, and silence.
 * There may be states from which no path goes on to 1. Any arcs that are not foreign are joined.
 * Faults: 18 (arcs, then words), 31, 32.
 */
fulgwerz_join_answer fulgwerz_join(
    fulgwerz_counts counts,
    const uint32_t *arcs, size_t arcs_length,
    size_t word_count,
    const uint32_t *words, size_t words_length,
    uint32_t *states, size_t states_length,
    uint32_t *joined, size_t joined_length);

#ifdef __cplusplus
}
#endif

#endif
