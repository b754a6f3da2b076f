/*
 * Jubrelti: a verified model store and atom search for protein structures.
 *
 * This header is C99 and C++11. `bindings/dist` makes the library: target/dist/lib has libjubrelti.a and libjubrelti.so, and
 * pkgconfig/jubrelti.pc in it is for pkg-config.
 *
 * A store is an array of words that the caller owns: 12 for each record (model, chain, residue, conformer or atom) and one more,
 * at most 1,200,001. Each call takes the store and its length in words first, but for jubrelti_read_pdb, which takes it behind the
 * text. Positions are indexes from 0, from the model down. A text is a pointer and a length in bytes, without a zero byte at the
 * end; an optional one has a flag before it, 0 absent or 1 present. Floats and signed numbers are given by their bits.
 * docs/FORMATS.md has the words of stores, trees and hits.
 *
 * A call that refuses gives a number above 0 as its result and 0 in every other field, and has changed nothing.
 *
 * What a caller in C owes:
 *   - each pointer is aligned for its type and valid for the length given with it; with length 0 it may be NULL, as for an absent
 *     text;
 *   - no slice that a call writes (its pointer isn't const) overlaps another slice of that call, which JUBRELTI_RESTRICT tells the
 *     compiler; slices that are only read may overlap;
 *   - while a call runs, no other thread writes one of its slices, or reads one that it writes.
 * Nothing checks this. That every call returns, whatever the words hold, and that a refusal changes nothing, is proved of the
 * Rattle functions, whose slices are always so. A find whose output lies in its own store overwrites records that it has yet to
 * read: it may lose atoms, or write where it shouldn't.
 */
#ifndef JUBRELTI_H
#define JUBRELTI_H

#include <stddef.h>
#include <stdint.h>
#include <string.h>

/* The version of this header, as one number too: major * 1,000,000 + minor * 1,000 + patch. */
#define JUBRELTI_VERSION_MAJOR 0
#define JUBRELTI_VERSION_MINOR 10
#define JUBRELTI_VERSION_PATCH 0
#define JUBRELTI_VERSION (JUBRELTI_VERSION_MAJOR * 1000000 + JUBRELTI_VERSION_MINOR * 1000 + JUBRELTI_VERSION_PATCH)

/* C++ has no `restrict`; its compilers on Linux have this. */
#ifdef __cplusplus
#define JUBRELTI_RESTRICT __restrict
#else
#define JUBRELTI_RESTRICT restrict
#endif

#ifdef __cplusplus
extern "C" {
#endif

/* Results. They are checked in the order 1, 2, 5, 9, then 3 (length), 4, 3 (shape), 6, 14, 15, 16, 7, 17, 8, 12, 13, 10. The program
   `find` alone gives 11, and jubrelti_apply alone 22 and 23, after 1 and 2. */
enum {
    /* bindings/tables: results */
    JUBRELTI_DONE = 0,
    JUBRELTI_BAD_LENGTH = 1,          /* the store's length isn't 1 to 1,200,001 words */
    JUBRELTI_BROKEN_LAYOUT = 2,       /* the words aren't a store: they weren't opened, or were written by others */
    JUBRELTI_TREE_SHAPE = 3,          /* the tree's length isn't 3 to 381 words in threes, or its postfix order doesn't leave
                                         exactly one operand */
    JUBRELTI_TREE_NODE = 4,           /* a node has an unknown code or a bad parameter */
    JUBRELTI_NO_POSITION = 5,         /* nothing stands at the position */
    JUBRELTI_BAD_IDENTIFIER = 6,      /* a bad chain id */
    JUBRELTI_BAD_VALUE = 7,           /* a float that isn't finite, an element above 118, hetero above 1; where an element is
                                         set, 0 too */
    JUBRELTI_NO_CAPACITY = 8,         /* the records needed exceed the store's capacity */
    JUBRELTI_JOIN_WITH_ITSELF = 9,    /* both positions of a join are the same */
    JUBRELTI_SHORT_OUTPUT = 10,       /* the output is shorter than five words for each hit */
    JUBRELTI_BAD_FILE = 11,           /* the input isn't a whole number of words, is empty or over 65,536 bytes, or the tree's
                                         start lies past its last word */
    JUBRELTI_TOO_WIDE = 12,           /* a field of a line that is written is too wide for its columns */
    JUBRELTI_SHORT_TEXT = 13,         /* the output is shorter than the text */
    JUBRELTI_BAD_INSERTION_CODE = 14, /* a bad insertion code, or a flag of one above 1 */
    JUBRELTI_BAD_CONFORMER = 15,      /* a bad conformer name, an alternative location of over 8 bytes, or a location's flag
                                         above 1 */
    JUBRELTI_BAD_ATOM_NAME = 16,      /* a bad atom name */
    JUBRELTI_BAD_TEXT = 17,           /* a text that the writer could not have made */
    JUBRELTI_BAD_LIST = 22,           /* the words are not a well-formed list of edits */
    JUBRELTI_SHORT_ANSWERS = 23       /* the output is shorter than three words for each edit */
    /* bindings/tables: end of results */
};

/* Codes of a tree's nodes. A node is three words: code, p, q; those not named here are 0. On a hetero atom backbone and side chain are
   false, whatever its conformer is called. */
enum {
    /* bindings/tables: codes */
    JUBRELTI_MODEL_SERIAL_NUMBER = 1,             /* number */
    JUBRELTI_MODEL_SERIAL_NUMBER_RANGE = 2,       /* first, last: number */
    JUBRELTI_CHAIN_ID = 3,                        /* text */
    JUBRELTI_CHAIN_ID_RANGE = 4,                  /* first, last: text */
    JUBRELTI_RESIDUE_SERIAL_NUMBER = 5,           /* signed number */
    JUBRELTI_RESIDUE_SERIAL_NUMBER_RANGE = 6,     /* first, last: signed number */
    JUBRELTI_RESIDUE_INSERTION_CODE = 7,          /* text, or 0 for absent */
    JUBRELTI_RESIDUE_ID = 8,                      /* signed number; text, or 0 for absent */
    JUBRELTI_CONFORMER_NAME = 9,                  /* text */
    JUBRELTI_CONFORMER_ALTERNATIVE_LOCATION = 10, /* text, or 0 for absent */
    JUBRELTI_CONFORMER_ID = 11,                   /* text; text, or 0 for absent */
    JUBRELTI_ATOM_SERIAL_NUMBER = 12,             /* number */
    JUBRELTI_ATOM_SERIAL_NUMBER_RANGE = 13,       /* first, last: number */
    JUBRELTI_ATOM_NAME = 14,                      /* text */
    JUBRELTI_ELEMENT = 15,                        /* 1 to 118 */
    JUBRELTI_B_FACTOR = 16,                       /* float bits */
    JUBRELTI_B_FACTOR_RANGE = 17,                 /* first, last: float bits */
    JUBRELTI_OCCUPANCY = 18,                      /* float bits */
    JUBRELTI_OCCUPANCY_RANGE = 19,                /* first, last: float bits */
    JUBRELTI_BACKBONE = 20,
    JUBRELTI_SIDE_CHAIN = 21,
    JUBRELTI_HETERO = 22,
    JUBRELTI_AND = 23,                            /* of the two operands before it */
    JUBRELTI_OR = 24,                             /* of the two operands before it */
    JUBRELTI_XOR = 25,                            /* of the two operands before it */
    JUBRELTI_NOT = 26,                            /* of the operand before it */
    JUBRELTI_KNOWN_FALSE = 27,
    JUBRELTI_KNOWN_TRUE = 28
    /* bindings/tables: end of codes */
};

/* found: 1, but 0 where a removal by id finds none, and where jubrelti_set_element finds an element. removed: how many atoms went. */
typedef struct {
    uint64_t result;
    uint64_t found;
    uint64_t removed;
} JubreltiEdit;

typedef struct {
    uint64_t result;
    uint64_t hits;
} JubreltiFind;

/* found: 1 with five record numbers, or 0 with zeros. */
typedef struct {
    uint64_t result;
    uint64_t found;
    uint64_t model;
    uint64_t chain;
    uint64_t residue;
    uint64_t conformer;
    uint64_t atom;
} JubreltiLookup;

/* length: the text's, in bytes. */
typedef struct {
    uint64_t result;
    uint64_t length;
} JubreltiWrite;

/* element: 1 to 118, or 0 for missing. hetero: 0 or 1. */
typedef struct {
    uint64_t serial;
    uint64_t x;
    uint64_t y;
    uint64_t z;
    uint64_t occupancy;
    uint64_t b_factor;
    uint64_t element;
    uint64_t charge;
    uint64_t hetero;
} JubreltiNewAtom;

/* The library's version, as JUBRELTI_VERSION is the header's. */
uint64_t jubrelti_version(void);

/* ---- the store */

/* 0 for a good store, else 1 or 2. */
uint64_t jubrelti_check(const uint64_t *store, size_t length);

/* Sets every word to 0, an empty structure. Gives 0 or 1. */
uint64_t jubrelti_open(uint64_t *store, size_t length);

/* Copies the structure of a store into other words, whatever they hold: so it gets room for more records.
   Gives 1 or 2 by the store that is copied, then 1 by the length of the other or 8 where its room is too small. */
uint64_t jubrelti_copy(const uint64_t *JUBRELTI_RESTRICT from, size_t from_length, uint64_t *JUBRELTI_RESTRICT to,
                       size_t to_length);

/* ---- searches */

/* Writes five record numbers for each atom where the tree isn't false, in hierarchy order: model, chain, residue, conformer, atom.
   Record r stands at store + 12 * r. Words of the output past the hits stay. */
JubreltiFind jubrelti_find(const uint64_t *JUBRELTI_RESTRICT store, size_t length, const uint64_t *JUBRELTI_RESTRICT tree,
                           size_t tree_length, uint64_t *JUBRELTI_RESTRICT out, size_t out_length);

/* The same among the atoms that stand under a position; under one that is empty there are no hits. Terms of the position's own level
   and above are undecided, so that a chain's id asked of a chain excludes nothing; from a conformer, backbone and side chain go by
   the atom alone. A hit has all five record numbers here too. */
JubreltiFind jubrelti_model_find(const uint64_t *JUBRELTI_RESTRICT store, size_t length, uint64_t model,
                                 const uint64_t *JUBRELTI_RESTRICT tree, size_t tree_length, uint64_t *JUBRELTI_RESTRICT out,
                                 size_t out_length);
JubreltiFind jubrelti_chain_find(const uint64_t *JUBRELTI_RESTRICT store, size_t length, uint64_t model, uint64_t chain,
                                 const uint64_t *JUBRELTI_RESTRICT tree, size_t tree_length, uint64_t *JUBRELTI_RESTRICT out,
                                 size_t out_length);
JubreltiFind jubrelti_residue_find(const uint64_t *JUBRELTI_RESTRICT store, size_t length, uint64_t model, uint64_t chain,
                                   uint64_t residue, const uint64_t *JUBRELTI_RESTRICT tree, size_t tree_length,
                                   uint64_t *JUBRELTI_RESTRICT out, size_t out_length);
JubreltiFind jubrelti_conformer_find(const uint64_t *JUBRELTI_RESTRICT store, size_t length, uint64_t model, uint64_t chain,
                                     uint64_t residue, uint64_t conformer, const uint64_t *JUBRELTI_RESTRICT tree,
                                     size_t tree_length, uint64_t *JUBRELTI_RESTRICT out, size_t out_length);

/* The atom of a serial number and alternative location in the first model. */
JubreltiLookup jubrelti_binary_find_atom(const uint64_t *store, size_t length, uint64_t serial, uint64_t location_flag,
                                         const uint8_t *location, size_t location_length);

/* ---- PDB lines */

/* Writes the structure as PDB lines (docs/FORMATS.md, "PDB lines"): MODEL and ENDMDL around the atoms of each model, 80 columns and a
   newline each. Values are rounded to nearest, exact halves to the even digit. Bytes of the output past the text stay. */
JubreltiWrite jubrelti_write_pdb(const uint64_t *JUBRELTI_RESTRICT store, size_t length, uint8_t *JUBRELTI_RESTRICT out,
                                 size_t out_length);

/* Opens the store, whatever its words hold, and adds the models and atoms of a text in its order, as jubrelti_add_model and
   jubrelti_add_atom do: so equal ids share a chain, a residue and a conformer. It takes exactly the texts that jubrelti_write_pdb
   could write from a store of any length, the empty one too. A decimal is the f64 nearest to it. Gives 0; or 1, 17 or 8, checked in
   this order, and then the store is as it was. A record for each model and four for each atom are always enough. */
uint64_t jubrelti_read_pdb(const uint8_t *JUBRELTI_RESTRICT text, size_t text_length, uint64_t *JUBRELTI_RESTRICT store,
                           size_t length);

/* ---- edits */

/* Adds a model after the others. */
JubreltiEdit jubrelti_add_model(uint64_t *store, size_t length, uint64_t serial);

/* Adds an atom to the first chain, the last residue in it and the first conformer in that with these ids; what is missing is made. Names
   are trimmed, and all but the chain id raised to capitals, before they are looked for; a bad or blank location is an absent one. */
JubreltiEdit jubrelti_add_atom(uint64_t *JUBRELTI_RESTRICT store, size_t length, uint64_t model,
                               const uint8_t *JUBRELTI_RESTRICT chain, size_t chain_length, uint64_t residue_serial,
                               uint64_t code_flag, const uint8_t *JUBRELTI_RESTRICT code, size_t code_length,
                               const uint8_t *JUBRELTI_RESTRICT conformer, size_t conformer_length, uint64_t location_flag,
                               const uint8_t *JUBRELTI_RESTRICT location, size_t location_length,
                               const uint8_t *JUBRELTI_RESTRICT name, size_t name_length, JubreltiNewAtom values);

/* Removals by position. */
JubreltiEdit jubrelti_remove_chain(uint64_t *store, size_t length, uint64_t model, uint64_t chain);
JubreltiEdit jubrelti_remove_residue(uint64_t *store, size_t length, uint64_t model, uint64_t chain, uint64_t residue);
JubreltiEdit jubrelti_remove_conformer(uint64_t *store, size_t length, uint64_t model, uint64_t chain, uint64_t residue,
                                       uint64_t conformer);
JubreltiEdit jubrelti_remove_atom(uint64_t *store, size_t length, uint64_t model, uint64_t chain, uint64_t residue,
                                  uint64_t conformer, uint64_t atom);

/* Removals of the first in its parent with this id; texts are compared as given. */
JubreltiEdit jubrelti_remove_chain_by_id(uint64_t *JUBRELTI_RESTRICT store, size_t length, uint64_t model,
                                         const uint8_t *JUBRELTI_RESTRICT id, size_t id_length);
JubreltiEdit jubrelti_remove_residue_by_id(uint64_t *JUBRELTI_RESTRICT store, size_t length, uint64_t model, uint64_t chain,
                                           uint64_t serial, uint64_t code_flag, const uint8_t *JUBRELTI_RESTRICT code,
                                           size_t code_length);
JubreltiEdit jubrelti_remove_conformer_by_id(uint64_t *JUBRELTI_RESTRICT store, size_t length, uint64_t model, uint64_t chain,
                                             uint64_t residue, const uint8_t *JUBRELTI_RESTRICT name, size_t name_length,
                                             uint64_t location_flag, const uint8_t *JUBRELTI_RESTRICT location,
                                             size_t location_length);
JubreltiEdit jubrelti_remove_atom_by_serial_number(uint64_t *store, size_t length, uint64_t model, uint64_t chain, uint64_t residue,
                                                   uint64_t conformer, uint64_t serial);

/* Removes the atoms of a model where the tree is true by what the atom alone tells; undecided ones stay. */
JubreltiEdit jubrelti_remove_atoms_by(uint64_t *JUBRELTI_RESTRICT store, size_t length, uint64_t model,
                                      const uint64_t *JUBRELTI_RESTRICT tree, size_t tree_length);

/* Removes the conformers, residues and chains of a model that hold no atoms. */
JubreltiEdit jubrelti_remove_empty(uint64_t *store, size_t length, uint64_t model);

/* Joins: the second's children go after the first's, and the second goes. Nothing is merged. */
JubreltiEdit jubrelti_join_models(uint64_t *store, size_t length, uint64_t first, uint64_t second);
JubreltiEdit jubrelti_join_chains(uint64_t *store, size_t length, uint64_t model, uint64_t chain, uint64_t second_model,
                                  uint64_t second_chain);
JubreltiEdit jubrelti_join_residues(uint64_t *store, size_t length, uint64_t model, uint64_t chain, uint64_t residue,
                                    uint64_t second_model, uint64_t second_chain, uint64_t second_residue);
JubreltiEdit jubrelti_join_conformers(uint64_t *store, size_t length, uint64_t model, uint64_t chain, uint64_t residue,
                                      uint64_t conformer, uint64_t second_model, uint64_t second_chain, uint64_t second_residue,
                                      uint64_t second_conformer);

/* Sets an atom's missing element, 1 to 118. Where the atom has one nothing changes, and found is 0. The hits of a tree stay what they
   were, or lose this atom alone. */
JubreltiEdit jubrelti_set_element(uint64_t *store, size_t length, uint64_t model, uint64_t chain, uint64_t residue,
                                  uint64_t conformer, uint64_t atom, uint64_t element);

/* ---- a list of edits */

/* Codes of the edits in a list; docs/FORMATS.md has the words of each. */
enum {
    JUBRELTI_ADD_MODEL = 1,
    JUBRELTI_ADD_ATOM = 2,
    JUBRELTI_REMOVE_CHAIN = 3,
    JUBRELTI_REMOVE_RESIDUE = 4,
    JUBRELTI_REMOVE_CONFORMER = 5,
    JUBRELTI_REMOVE_ATOM = 6,
    JUBRELTI_REMOVE_CHAIN_BY_ID = 7,
    JUBRELTI_REMOVE_RESIDUE_BY_ID = 8,
    JUBRELTI_REMOVE_CONFORMER_BY_ID = 9,
    JUBRELTI_REMOVE_ATOM_BY_SERIAL_NUMBER = 10,
    JUBRELTI_REMOVE_ATOMS_BY = 11,
    JUBRELTI_REMOVE_EMPTY = 12,
    JUBRELTI_JOIN_MODELS = 13,
    JUBRELTI_JOIN_CHAINS = 14,
    JUBRELTI_JOIN_RESIDUES = 15,
    JUBRELTI_JOIN_CONFORMERS = 16,
    JUBRELTI_SET_ELEMENT = 17
};

typedef struct {
    uint64_t result;
    uint64_t calls;
} JubreltiApply;

/* Makes the edits of a list in their order; a refused one changes nothing, and the next follows. Writes three words for each:
   result, found, removed. Where the call itself is refused, none of the edits was made. */
JubreltiApply jubrelti_apply(uint64_t *JUBRELTI_RESTRICT store, size_t length, const uint64_t *JUBRELTI_RESTRICT list,
                             size_t list_length, uint64_t *JUBRELTI_RESTRICT out, size_t out_length);

/* ---- helpers: values as words, and back */

/* The words of a store for so many records. Over JUBRELTI_MAX_RECORDS it is 0, a length that every call refuses. The macro is a
   constant expression, as the length of an array must be. */
#define JUBRELTI_MAX_RECORDS 100000
#define JUBRELTI_WORDS(records) ((records) <= JUBRELTI_MAX_RECORDS ? 12 * (size_t)(records) + 1 : 0)

static inline size_t jubrelti_words(size_t records) {
    return JUBRELTI_WORDS(records);
}

/* How many elements an array has, such as a tree that is written with the macros below. A pointer won't do. */
#define JUBRELTI_LENGTH(array) (sizeof(array) / sizeof *(array))

/* No packed text: a call refuses a tree with this word as a text (4, JUBRELTI_TREE_NODE). */
#define JUBRELTI_NO_TEXT (~(uint64_t)0)

/* A text as the word of a tree: its bytes from the highest byte down. A text of over 8 bytes or with a byte outside 32 to 126, and
   NULL, are JUBRELTI_NO_TEXT, so that none is cut or changed silently. */
static inline uint64_t jubrelti_text(const char *text) {
    uint64_t word = 0;
    size_t i;
    if (text == NULL) {
        return JUBRELTI_NO_TEXT;
    }
    for (i = 0; text[i] != 0; i++) {
        if (i == 8 || text[i] < 32 || text[i] > 126) {
            return JUBRELTI_NO_TEXT;
        }
        word |= (uint64_t)text[i] << (56 - 8 * i);
    }
    return word;
}

/* An insertion code or alternative location, where NULL is an absent one. An empty one is JUBRELTI_NO_TEXT: a store has none. */
static inline uint64_t jubrelti_optional(const char *text) {
    if (text == NULL) {
        return 0;
    }
    return text[0] == 0 ? JUBRELTI_NO_TEXT : jubrelti_text(text);
}

/* A text by its characters, as in JUBRELTI_CHARS('A', 'L', 'A'): a constant expression, for trees that are static. Over 8 of them
   are JUBRELTI_NO_TEXT; a byte outside 32 to 126 makes a word that is refused as well. */
#define JUBRELTI_CHARS(...) JUBRELTI_NINE_CHARS(__VA_ARGS__, 0, 0, 0, 0, 0, 0, 0, 0, 0)
#define JUBRELTI_NINE_CHARS(a, b, c, d, e, f, g, h, i, ...)                                                                       \
    ((i) != 0 ? JUBRELTI_NO_TEXT                                                                                                  \
              : JUBRELTI_BYTE(a, 56) | JUBRELTI_BYTE(b, 48) | JUBRELTI_BYTE(c, 40) | JUBRELTI_BYTE(d, 32) | JUBRELTI_BYTE(e, 24) | \
                    JUBRELTI_BYTE(f, 16) | JUBRELTI_BYTE(g, 8) | JUBRELTI_BYTE(h, 0))
#define JUBRELTI_BYTE(character, shift) ((uint64_t)(uint8_t)(character) << (shift))

/* Writes the text of a packed word, with a zero byte behind it, and gives out. An absent one is the empty text. */
static inline const char *jubrelti_unpack(uint64_t word, char out[9]) {
    size_t i;
    for (i = 0; i < 8; i++) {
        out[i] = (char)(uint8_t)(word >> (56 - 8 * i));
    }
    out[8] = 0;
    return out;
}

static inline uint64_t jubrelti_bits(double value) {
    uint64_t word;
    memcpy(&word, &value, sizeof word);
    return word;
}

static inline double jubrelti_float(uint64_t word) {
    double value;
    memcpy(&value, &word, sizeof value);
    return value;
}

static inline uint64_t jubrelti_signed(int64_t value) {
    return (uint64_t)value;
}

/* By memcpy, since C leaves it to the compiler what a cast of a large word to a signed type gives. */
static inline int64_t jubrelti_integer(uint64_t word) {
    int64_t value;
    memcpy(&value, &word, sizeof value);
    return value;
}

static const struct {
    uint64_t result;
    const char *sentence;
} jubrelti_messages[] = {
    {JUBRELTI_DONE, "the call was made"},
    /* bindings/tables: messages */
    {JUBRELTI_BAD_LENGTH, "a store has 1 to 1,200,001 words; give it 12 for each record and one more, for at most 100,000 records"},
    {JUBRELTI_BROKEN_LAYOUT, "the words aren't a store; open them first, or give back the words of a store as they were"},
    {JUBRELTI_TREE_SHAPE,
     "the search isn't one tree of 1 to 127 terms and operators; split a larger one, and put each operator behind its operands"},
    {JUBRELTI_TREE_NODE,
     "a node of the search has an unknown code or a bad parameter; build it from the terms there are, with texts of at most 8 "
     "printable ASCII characters"},
    {JUBRELTI_NO_POSITION, "nothing stands at this position; count from 0, from the model down, in the structure as it is now"},
    {JUBRELTI_BAD_IDENTIFIER, "the chain id is bad; give it 1 to 8 printable ASCII characters, not counting spaces at its ends"},
    {JUBRELTI_BAD_VALUE,
     "a coordinate, the occupancy or the B-factor is infinite or not a number, the element is over 118, or 0 where one is set, or "
     "hetero is over 1; give finite numbers, and 0 for the missing element of a new atom alone"},
    {JUBRELTI_NO_CAPACITY,
     "the store has no room for the records needed; copy it into more words, or use a store that grows, up to 100,000 records"},
    {JUBRELTI_JOIN_WITH_ITSELF, "both positions of the join are the same; give two different ones"},
    {JUBRELTI_SHORT_OUTPUT, "the output has no room for all hits; lend five words for each"},
    {JUBRELTI_BAD_FILE, "the file isn't a store, a tree and the tree's start, or is over 65,536 bytes; write it so"},
    {JUBRELTI_TOO_WIDE,
     "a field is too wide for its columns of a PDB line; give a chain id, code and location 1 byte, a conformer name 3, an atom "
     "name 4, and numbers within the limits of docs/FORMATS.md"},
    {JUBRELTI_SHORT_TEXT, "the output has no room for the text; lend 81 bytes for each atom and twice 81 for each model"},
    {JUBRELTI_BAD_INSERTION_CODE,
     "the insertion code is bad, or its flag is over 1; give it 1 to 8 printable ASCII characters, not counting spaces at its "
     "ends, or leave it out"},
    {JUBRELTI_BAD_CONFORMER,
     "the conformer's name is bad, its alternative location is too long, or the location's flag is over 1; give the name 1 to 8 "
     "printable ASCII characters and the location at most 8, not counting spaces at the ends"},
    {JUBRELTI_BAD_ATOM_NAME,
     "the atom's name is bad; give it at most 8 printable ASCII characters, not counting spaces at its ends"},
    {JUBRELTI_BAD_TEXT,
     "the text isn't PDB lines as write_pdb writes them; give each line 80 columns and a newline, MODEL and ENDMDL around the "
     "atoms of each model and no other lines, and each field its columns of docs/FORMATS.md"},
    {JUBRELTI_BAD_LIST,
     "the list isn't well-formed, or an edit in it has over 1,024 words; give each edit the words of its code, and shorten its "
     "texts or its search"},
    {JUBRELTI_SHORT_ANSWERS, "the output has no room for all answers; lend three words for each edit"},
    /* bindings/tables: end of messages */
};

/* A sentence for users: what was wrong, and what to do. */
static inline const char *jubrelti_message(uint64_t result) {
    size_t i;
    for (i = 0; i < JUBRELTI_LENGTH(jubrelti_messages); i++) {
        if (jubrelti_messages[i].result == result) {
            return jubrelti_messages[i].sentence;
        }
    }
    return "the refusal is unknown; use a header and a library of the same version";
}

/* Whether library and header have the same interface: the same major and minor number. A patch changes neither calls nor words. */
static inline int jubrelti_version_agrees(void) {
    return jubrelti_version() / 1000 == JUBRELTI_VERSION / 1000;
}

/* ---- helpers: what a store's records say
 *
 * A record's number r is what finds and lookups give. The store must be good, and r the number of a record in it that has the kind
 * which the helper's name begins with; nothing checks this. The next edit may give a record another number.
 */

enum { JUBRELTI_KIND_MODEL = 1, JUBRELTI_KIND_CHAIN, JUBRELTI_KIND_RESIDUE, JUBRELTI_KIND_CONFORMER, JUBRELTI_KIND_ATOM };

/* How many records a good store holds; they have the numbers from 0. */
static inline uint64_t jubrelti_records(const uint64_t *store, size_t length) {
    return length == 0 ? 0 : store[length - 1] / 12;
}

/* Word k of a record; docs/FORMATS.md has the words of each kind. */
static inline uint64_t jubrelti_record_word(const uint64_t *store, uint64_t r, uint64_t k) {
    return store[12 * r + k];
}

static inline uint64_t jubrelti_record_kind(const uint64_t *store, uint64_t r) {
    return jubrelti_record_word(store, r, 0);
}

static inline uint64_t jubrelti_model_serial_number(const uint64_t *store, uint64_t r) {
    return jubrelti_record_word(store, r, 1);
}

static inline const char *jubrelti_chain_id(const uint64_t *store, uint64_t r, char out[9]) {
    return jubrelti_unpack(jubrelti_record_word(store, r, 1), out);
}

static inline int64_t jubrelti_residue_serial_number(const uint64_t *store, uint64_t r) {
    return jubrelti_integer(jubrelti_record_word(store, r, 1));
}

static inline const char *jubrelti_residue_insertion_code(const uint64_t *store, uint64_t r, char out[9]) {
    return jubrelti_unpack(jubrelti_record_word(store, r, 2), out);
}

static inline const char *jubrelti_conformer_name(const uint64_t *store, uint64_t r, char out[9]) {
    return jubrelti_unpack(jubrelti_record_word(store, r, 1), out);
}

static inline const char *jubrelti_conformer_alternative_location(const uint64_t *store, uint64_t r, char out[9]) {
    return jubrelti_unpack(jubrelti_record_word(store, r, 2), out);
}

static inline uint64_t jubrelti_atom_serial_number(const uint64_t *store, uint64_t r) {
    return jubrelti_record_word(store, r, 1);
}

static inline const char *jubrelti_atom_name(const uint64_t *store, uint64_t r, char out[9]) {
    return jubrelti_unpack(jubrelti_record_word(store, r, 2), out);
}

static inline double jubrelti_atom_x(const uint64_t *store, uint64_t r) {
    return jubrelti_float(jubrelti_record_word(store, r, 3));
}

static inline double jubrelti_atom_y(const uint64_t *store, uint64_t r) {
    return jubrelti_float(jubrelti_record_word(store, r, 4));
}

static inline double jubrelti_atom_z(const uint64_t *store, uint64_t r) {
    return jubrelti_float(jubrelti_record_word(store, r, 5));
}

static inline double jubrelti_atom_occupancy(const uint64_t *store, uint64_t r) {
    return jubrelti_float(jubrelti_record_word(store, r, 6));
}

static inline double jubrelti_atom_b_factor(const uint64_t *store, uint64_t r) {
    return jubrelti_float(jubrelti_record_word(store, r, 7));
}

/* 1 to 118, or 0 for missing. */
static inline uint64_t jubrelti_atom_element(const uint64_t *store, uint64_t r) {
    return jubrelti_record_word(store, r, 8);
}

static inline int64_t jubrelti_atom_charge(const uint64_t *store, uint64_t r) {
    return jubrelti_integer(jubrelti_record_word(store, r, 9));
}

/* 0 or 1. */
static inline uint64_t jubrelti_atom_hetero(const uint64_t *store, uint64_t r) {
    return jubrelti_record_word(store, r, 10);
}

/* ---- helpers: nodes of a tree
 *
 * The node of code JUBRELTI_X is JUBRELTI_NODE_X, three words in the initialiser of an array, with C's own values for p and q:
 *
 *     const uint64_t tree[] = {JUBRELTI_NODE_CHAIN_ID("A"), JUBRELTI_NODE_HETERO, JUBRELTI_NODE_NOT, JUBRELTI_NODE_AND};
 *     found = jubrelti_find(store, length, tree, JUBRELTI_LENGTH(tree), out, out_length);
 *
 * A node with a text or a float calls a function, which C allows in a function's own arrays but not in static ones; there a text is
 * JUBRELTI_CHAIN_ID, JUBRELTI_CHARS('A'), 0. An absent code or location is NULL.
 */

/* bindings/tables: nodes */
#define JUBRELTI_NODE_MODEL_SERIAL_NUMBER(p) JUBRELTI_MODEL_SERIAL_NUMBER, (uint64_t)(p), 0
#define JUBRELTI_NODE_MODEL_SERIAL_NUMBER_RANGE(p, q) JUBRELTI_MODEL_SERIAL_NUMBER_RANGE, (uint64_t)(p), (uint64_t)(q)
#define JUBRELTI_NODE_CHAIN_ID(p) JUBRELTI_CHAIN_ID, jubrelti_text(p), 0
#define JUBRELTI_NODE_CHAIN_ID_RANGE(p, q) JUBRELTI_CHAIN_ID_RANGE, jubrelti_text(p), jubrelti_text(q)
#define JUBRELTI_NODE_RESIDUE_SERIAL_NUMBER(p) JUBRELTI_RESIDUE_SERIAL_NUMBER, (uint64_t)(int64_t)(p), 0
#define JUBRELTI_NODE_RESIDUE_SERIAL_NUMBER_RANGE(p, q) \
    JUBRELTI_RESIDUE_SERIAL_NUMBER_RANGE, (uint64_t)(int64_t)(p), (uint64_t)(int64_t)(q)
#define JUBRELTI_NODE_RESIDUE_INSERTION_CODE(p) JUBRELTI_RESIDUE_INSERTION_CODE, jubrelti_optional(p), 0
#define JUBRELTI_NODE_RESIDUE_ID(p, q) JUBRELTI_RESIDUE_ID, (uint64_t)(int64_t)(p), jubrelti_optional(q)
#define JUBRELTI_NODE_CONFORMER_NAME(p) JUBRELTI_CONFORMER_NAME, jubrelti_text(p), 0
#define JUBRELTI_NODE_CONFORMER_ALTERNATIVE_LOCATION(p) JUBRELTI_CONFORMER_ALTERNATIVE_LOCATION, jubrelti_optional(p), 0
#define JUBRELTI_NODE_CONFORMER_ID(p, q) JUBRELTI_CONFORMER_ID, jubrelti_text(p), jubrelti_optional(q)
#define JUBRELTI_NODE_ATOM_SERIAL_NUMBER(p) JUBRELTI_ATOM_SERIAL_NUMBER, (uint64_t)(p), 0
#define JUBRELTI_NODE_ATOM_SERIAL_NUMBER_RANGE(p, q) JUBRELTI_ATOM_SERIAL_NUMBER_RANGE, (uint64_t)(p), (uint64_t)(q)
#define JUBRELTI_NODE_ATOM_NAME(p) JUBRELTI_ATOM_NAME, jubrelti_text(p), 0
#define JUBRELTI_NODE_ELEMENT(p) JUBRELTI_ELEMENT, (uint64_t)(p), 0
#define JUBRELTI_NODE_B_FACTOR(p) JUBRELTI_B_FACTOR, jubrelti_bits(p), 0
#define JUBRELTI_NODE_B_FACTOR_RANGE(p, q) JUBRELTI_B_FACTOR_RANGE, jubrelti_bits(p), jubrelti_bits(q)
#define JUBRELTI_NODE_OCCUPANCY(p) JUBRELTI_OCCUPANCY, jubrelti_bits(p), 0
#define JUBRELTI_NODE_OCCUPANCY_RANGE(p, q) JUBRELTI_OCCUPANCY_RANGE, jubrelti_bits(p), jubrelti_bits(q)
#define JUBRELTI_NODE_BACKBONE JUBRELTI_BACKBONE, 0, 0
#define JUBRELTI_NODE_SIDE_CHAIN JUBRELTI_SIDE_CHAIN, 0, 0
#define JUBRELTI_NODE_HETERO JUBRELTI_HETERO, 0, 0
#define JUBRELTI_NODE_AND JUBRELTI_AND, 0, 0
#define JUBRELTI_NODE_OR JUBRELTI_OR, 0, 0
#define JUBRELTI_NODE_XOR JUBRELTI_XOR, 0, 0
#define JUBRELTI_NODE_NOT JUBRELTI_NOT, 0, 0
#define JUBRELTI_NODE_KNOWN_FALSE JUBRELTI_KNOWN_FALSE, 0, 0
#define JUBRELTI_NODE_KNOWN_TRUE JUBRELTI_KNOWN_TRUE, 0, 0
/* bindings/tables: end of nodes */

#ifdef __cplusplus
}
#endif

#endif
