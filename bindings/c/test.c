/* Builds document 01's store S, searches it and edits it, passes NULL for each slice that can be empty, and tries each helper of the
   header; exits with 1 at the first wrong answer. It is C99 and C++11. */
#include "jubrelti.h"

#include <float.h>
#include <stdio.h>
#include <stdlib.h>

enum { LENGTH = JUBRELTI_WORDS(6), LONGER = JUBRELTI_WORDS(12), OUT = 6 * 5 };

/* Each is a block of its own length, so that valgrind sees an access outside it. */
static uint64_t *store;
static uint64_t *longer;
static uint64_t *out;

static void expect(const char *what, uint64_t is, uint64_t should) {
    printf("%-44s %llu\n", what, (unsigned long long)is);
    if (is != should) {
        printf("should be %llu\n", (unsigned long long)should);
        exit(1);
    }
}

static void expect_text(const char *what, const char *is, const char *should) {
    printf("%-44s \"%s\"\n", what, is);
    if (strcmp(is, should) != 0) {
        printf("should be \"%s\"\n", should);
        exit(1);
    }
}

static const uint8_t *bytes(const char *text) {
    return (const uint8_t *)text;
}

/* Words that are no store. */
static uint64_t *junk(size_t length) {
    uint64_t *words = (uint64_t *)malloc(length * sizeof *words);
    if (words == NULL) {
        puts("there is no memory");
        exit(1);
    }
    memset(words, 0xff, length * sizeof *words);
    return words;
}

static JubreltiNewAtom no_values(void) {
    JubreltiNewAtom values;
    memset(&values, 0, sizeof values);
    return values;
}

/* An atom of residue 7, conformer ALA, in chain A of the first model. */
static JubreltiEdit add(uint64_t serial, const char *name, uint64_t element, double x) {
    JubreltiNewAtom values = no_values();
    values.serial = serial;
    values.x = jubrelti_bits(x);
    values.occupancy = jubrelti_bits(1.0);
    values.element = element;
    return jubrelti_add_atom(store, LENGTH, 0, bytes("A"), 1, 7, 0, bytes(""), 0, bytes("ALA"), 3, 0, bytes(""), 0, bytes(name),
                             strlen(name), values);
}

static uint64_t find(const uint64_t *tree, size_t tree_length) {
    return jubrelti_find(store, LENGTH, tree, tree_length, out, OUT).result;
}

static uint64_t hits(const uint64_t *tree, size_t tree_length) {
    return jubrelti_find(store, LENGTH, tree, tree_length, out, OUT).hits;
}

static void build(void) {
    expect("words that were never opened are refused", jubrelti_check(store, LENGTH), JUBRELTI_BROKEN_LAYOUT);
    expect("a store of no words is refused", jubrelti_open(store, 0), JUBRELTI_BAD_LENGTH);
    expect("open", jubrelti_open(store, LENGTH), JUBRELTI_DONE);
    expect("an atom needs a model", add(1, "N", 7, 0.0).result, JUBRELTI_NO_POSITION);
    expect("add model 1", jubrelti_add_model(store, LENGTH, 1).result, JUBRELTI_DONE);
    expect("add N", add(1, "N", 7, 1.5).result, JUBRELTI_DONE);
    expect("add XX without an element", add(2, "XX", 0, 2.0625).result, JUBRELTI_DONE);
    expect("the store is full", add(3, "C", 6, 3.5).result, JUBRELTI_NO_CAPACITY);
    expect("check", jubrelti_check(store, LENGTH), JUBRELTI_DONE);
    expect("x of record 4", store[4 * 12 + 3], jubrelti_bits(1.5));
}

static void search(void) {
    const uint64_t nitrogen[] = {JUBRELTI_NODE_ELEMENT(7)};
    const uint64_t not_nitrogen[] = {JUBRELTI_NODE_ELEMENT(7), JUBRELTI_NODE_NOT};
    const uint64_t named_n[] = {JUBRELTI_NODE_ATOM_NAME("N"), JUBRELTI_NODE_ELEMENT(7), JUBRELTI_NODE_AND};
    const uint64_t two_operands[] = {JUBRELTI_NODE_HETERO, JUBRELTI_NODE_HETERO};
    expect("hits of nitrogen, the undecided atom among them", hits(nitrogen, 3), 2);
    expect("atom of the second hit", out[9], 5);
    expect("hits of not nitrogen", hits(not_nitrogen, 6), 1);
    for (uint64_t level = 0; level < 5; level++) {
        expect("record", out[level], level == 4 ? 5 : level);
    }
    expect("hits of N and nitrogen", hits(named_n, 9), 1);
    expect("two operands are no tree", find(two_operands, 6), JUBRELTI_TREE_SHAPE);
    expect("no room for two hits", jubrelti_find(store, LENGTH, nitrogen, 3, out, 9).result, JUBRELTI_SHORT_OUTPUT);
    JubreltiLookup at = jubrelti_binary_find_atom(store, LENGTH, 2, 0, bytes(""), 0);
    expect("look up serial 2", at.found, 1);
    expect("its record", at.atom, 5);
    expect("serial 9 isn't there", jubrelti_binary_find_atom(store, LENGTH, 9, 0, bytes(""), 0).found, 0);
}

/* The store of build as lines, in a block of exactly their length. */
static void lines(void) {
    enum { TEXT = 4 * 81 };
    uint8_t *text = (uint8_t *)junk(TEXT / 8 + 1);
    const char *n = "ATOM      1  N   ALA A   7       1.500   0.000   0.000  1.00  0.00           N  \n";
    const char *end = "ENDMDL                                                                          \n";
    expect("no room for the last byte", jubrelti_write_pdb(store, LENGTH, text, TEXT - 1).result, JUBRELTI_SHORT_TEXT);
    expect("the output is as it was", text[0], 0xff);
    JubreltiWrite written = jubrelti_write_pdb(store, LENGTH, text, TEXT);
    expect("write lines", written.result, JUBRELTI_DONE);
    expect("their bytes", written.length, TEXT);
    expect("the line of N", memcmp(text + 81, n, 81) == 0, 1);
    expect("x of XX, a half, has the even digit", memcmp(text + 2 * 81 + 30, "   2.062", 8) == 0, 1);
    expect("the last line", memcmp(text + 3 * 81, end, 81) == 0, 1);
    expect("the byte behind it stays", text[TEXT], 0xff);
    free(text);
}

/* The lines of two atoms read: into words that were never opened, and of exactly their records. */
static void read_lines(void) {
    const char *text = "MODEL        1                                                                  \n"
                       "ATOM      1  N   ALA A   7       1.500  -0.001   0.000  1.00  0.00           N  \n"
                       "HETATM    2 CA    CA A   7       2.062   0.000   0.000  1.00  0.00          CA2+\n"
                       "ENDMDL                                                                          \n";
    enum { TEXT = 4 * 81, RECORDS = 7, WORDS = JUBRELTI_WORDS(RECORDS) };
    /* The text stands at the end of its block, so that valgrind sees an access behind it. */
    uint64_t *block = junk(2 * TEXT / 8);
    uint8_t *lent = (uint8_t *)block + TEXT;
    uint64_t *read = junk(WORDS);
    uint64_t *as_it_was = junk(WORDS);
    memcpy(lent, text, TEXT);
    expect("a record short", jubrelti_read_pdb(lent, TEXT, read, WORDS - 1), JUBRELTI_NO_CAPACITY);
    expect("a line short", jubrelti_read_pdb(lent, TEXT - 81, read, WORDS), JUBRELTI_BAD_TEXT);
    expect("a bad text comes before a lack of room", jubrelti_read_pdb(lent, TEXT - 1, read, 1), JUBRELTI_BAD_TEXT);
    expect("no words come first", jubrelti_read_pdb(lent, TEXT - 1, read, 0), JUBRELTI_BAD_LENGTH);
    expect("the store is as it was", memcmp(read, as_it_was, WORDS * sizeof *read) == 0, 1);
    expect("read lines", jubrelti_read_pdb(lent, TEXT, read, WORDS), JUBRELTI_DONE);
    expect("a good store", jubrelti_check(read, WORDS), JUBRELTI_DONE);
    expect("its records", jubrelti_records(read, WORDS), RECORDS);
    expect("y of record 4, the nearest float", read[4 * 12 + 4], jubrelti_bits(-0.001));
    expect("calcium's charge", (uint64_t)jubrelti_atom_charge(read, 6), 2);
    JubreltiWrite written = jubrelti_write_pdb(read, WORDS, lent, TEXT);
    expect("write them again", written.length, TEXT);
    expect("the same bytes", memcmp(lent, text, TEXT) == 0, 1);
    expect("no lines", jubrelti_read_pdb(NULL, 0, read, WORDS), JUBRELTI_DONE);
    expect("open the store", read[0] == 0 && jubrelti_records(read, WORDS) == 0, 1);
    free(block);
    free(read);
    free(as_it_was);
}

static void edit(void) {
    const uint64_t not_nitrogen[] = {JUBRELTI_NODE_ELEMENT(7), JUBRELTI_NODE_NOT};
    expect("what was never opened can't be copied", jubrelti_copy(longer, LONGER, store, LENGTH), JUBRELTI_BROKEN_LAYOUT);
    expect("no words can't take a copy", jubrelti_copy(store, LENGTH, longer, 0), JUBRELTI_BAD_LENGTH);
    expect("copy into a longer store", jubrelti_copy(store, LENGTH, longer, LONGER), JUBRELTI_DONE);
    expect("its records end where they did", longer[LONGER - 1], store[LENGTH - 1]);
    expect("a record more has room", jubrelti_add_model(longer, LONGER, 2).result, JUBRELTI_DONE);
    expect("too much for a copy back", jubrelti_copy(longer, LONGER, store, LENGTH), JUBRELTI_NO_CAPACITY);
    JubreltiEdit edited = jubrelti_remove_atoms_by(store, LENGTH, 0, not_nitrogen, 6);
    expect("remove what is known not to be nitrogen", edited.removed, 0);
    expect("remove atom 0", jubrelti_remove_atom(store, LENGTH, 0, 0, 0, 0, 0).removed, 1);
    expect("atom 1 is gone, as XX moved up", jubrelti_remove_atom(store, LENGTH, 0, 0, 0, 0, 1).result, JUBRELTI_NO_POSITION);
    edited = jubrelti_remove_chain_by_id(store, LENGTH, 0, bytes("B"), 1);
    expect("no chain B", edited.found, 0);
    edited = jubrelti_remove_chain_by_id(store, LENGTH, 0, bytes("A"), 1);
    expect("chain A and its atom go", edited.removed, 1);
    expect("one record is left", jubrelti_records(store, LENGTH), 1);
}

/* The store S again: atom 0 has element 7, atom 1 none. */
static void open_s(void) {
    expect("open", jubrelti_open(store, LENGTH), JUBRELTI_DONE);
    expect("add model 1", jubrelti_add_model(store, LENGTH, 1).result, JUBRELTI_DONE);
    expect("add N", add(1, "N", 7, 1.5).result, JUBRELTI_DONE);
    expect("add XX without an element", add(2, "XX", 0, 2.5).result, JUBRELTI_DONE);
}

static JubreltiEdit set_element(uint64_t atom, uint64_t element) {
    return jubrelti_set_element(store, LENGTH, 0, 0, 0, 0, atom, element);
}

static void elements(void) {
    const uint64_t nitrogen[] = {JUBRELTI_NODE_ELEMENT(7)};
    open_s();
    expect("0 is no element", set_element(1, 0).result, JUBRELTI_BAD_VALUE);
    expect("nor is 119", set_element(1, 119).result, JUBRELTI_BAD_VALUE);
    expect("also where there is one", set_element(0, 119).result, JUBRELTI_BAD_VALUE);
    expect("nothing at the position comes first", set_element(2, 119).result, JUBRELTI_NO_POSITION);
    expect("the element is still missing", jubrelti_atom_element(store, 5), 0);
    JubreltiEdit edited = set_element(1, 7);
    expect("set it", edited.result, JUBRELTI_DONE);
    expect("it was missing", edited.found, 1);
    expect("no atom goes", edited.removed, 0);
    expect("it is set", jubrelti_atom_element(store, 5), 7);
    expect("hits of nitrogen stay", hits(nitrogen, 3), 2);
    edited = set_element(1, 8);
    expect("set it again", edited.result, JUBRELTI_DONE);
    expect("one is there", edited.found, 0);
    expect("and stays", jubrelti_atom_element(store, 5), 7);
}

static void elements_in_a_list(void) {
    const uint64_t nitrogen[] = {JUBRELTI_NODE_ELEMENT(7)};
    const uint64_t list[] = {JUBRELTI_SET_ELEMENT, 6, 0, 0, 0, 0, 2, 119, JUBRELTI_SET_ELEMENT, 6, 0, 0, 0, 0, 1, 119,
                             JUBRELTI_SET_ELEMENT, 6, 0, 0, 0, 0, 1, 8,   JUBRELTI_SET_ELEMENT, 6, 0, 0, 0, 0, 1, 7};
    const uint64_t answers[] = {JUBRELTI_NO_POSITION, 0, 0, JUBRELTI_BAD_VALUE, 0, 0, JUBRELTI_DONE, 1, 0, JUBRELTI_DONE, 0, 0};
    open_s();
    expect("set elements", jubrelti_apply(store, LENGTH, list, JUBRELTI_LENGTH(list), out, OUT).calls, 4);
    for (size_t i = 0; i < JUBRELTI_LENGTH(answers); i++) {
        expect("answer", out[i], answers[i]);
    }
    expect("the first that could be set is", jubrelti_atom_element(store, 5), 8);
    expect("hits of nitrogen lose the atom", hits(nitrogen, 3), 1);
}

static size_t length_of(const char *text) {
    return text == NULL ? 0 : strlen(text);
}

/* An atom with these texts, NULL for an empty one. Insertion code and location are NULL, and absent or present by their flags. */
static uint64_t add_texts(const char *chain, uint64_t code_flag, const char *conformer, uint64_t location_flag, const char *name) {
    JubreltiEdit edited =
        jubrelti_add_atom(store, LENGTH, 0, bytes(chain), length_of(chain), 7, code_flag, NULL, 0, bytes(conformer),
                          length_of(conformer), location_flag, NULL, 0, bytes(name), length_of(name), no_values());
    return edited.result;
}

/* NULL as a store, which is refused. */
static void no_store(void) {
    const uint64_t all[] = {JUBRELTI_NODE_KNOWN_TRUE};
    expect("check no words", jubrelti_check(NULL, 0), JUBRELTI_BAD_LENGTH);
    expect("open no words", jubrelti_open(NULL, 0), JUBRELTI_BAD_LENGTH);
    expect("copy no words", jubrelti_copy(NULL, 0, longer, LONGER), JUBRELTI_BAD_LENGTH);
    expect("copy into no words", jubrelti_copy(store, LENGTH, NULL, 0), JUBRELTI_BAD_LENGTH);
    expect("find in no words", jubrelti_find(NULL, 0, all, 3, out, OUT).result, JUBRELTI_BAD_LENGTH);
    expect("from a model", jubrelti_model_find(NULL, 0, 0, all, 3, out, OUT).result, JUBRELTI_BAD_LENGTH);
    expect("from a chain", jubrelti_chain_find(NULL, 0, 0, 0, all, 3, out, OUT).result, JUBRELTI_BAD_LENGTH);
    expect("from a residue", jubrelti_residue_find(NULL, 0, 0, 0, 0, all, 3, out, OUT).result, JUBRELTI_BAD_LENGTH);
    expect("from a conformer", jubrelti_conformer_find(NULL, 0, 0, 0, 0, 0, all, 3, out, OUT).result, JUBRELTI_BAD_LENGTH);
    expect("look up in no words", jubrelti_binary_find_atom(NULL, 0, 1, 0, NULL, 0).result, JUBRELTI_BAD_LENGTH);
    expect("write no words", jubrelti_write_pdb(NULL, 0, NULL, 0).result, JUBRELTI_BAD_LENGTH);
    expect("read lines into no words", jubrelti_read_pdb(NULL, 0, NULL, 0), JUBRELTI_BAD_LENGTH);
    expect("edit no words", jubrelti_add_model(NULL, 0, 1).result, JUBRELTI_BAD_LENGTH);
    expect("set an element in no words", jubrelti_set_element(NULL, 0, 0, 0, 0, 0, 0, 119).result, JUBRELTI_BAD_LENGTH);
    expect("apply a list to no words", jubrelti_apply(NULL, 0, NULL, 0, NULL, 0).result, JUBRELTI_BAD_LENGTH);
}

/* NULL as each text. */
static void no_texts(void) {
    expect("open", jubrelti_open(store, LENGTH), JUBRELTI_DONE);
    expect("add model 1", jubrelti_add_model(store, LENGTH, 1).result, JUBRELTI_DONE);
    expect("a chain id may not be empty", add_texts(NULL, 0, "ALA", 0, "N"), JUBRELTI_BAD_IDENTIFIER);
    expect("nor a code that is present", add_texts("A", 1, "ALA", 0, "N"), JUBRELTI_BAD_INSERTION_CODE);
    expect("a code's flag is 0 or 1", add_texts("A", 2, NULL, 2, "\x01"), JUBRELTI_BAD_INSERTION_CODE);
    expect("a conformer's name may not be empty", add_texts("A", 0, NULL, 2, "\x01"), JUBRELTI_BAD_CONFORMER);
    expect("a location's flag is 0 or 1", add_texts("A", 0, "ALA", 2, "\x01"), JUBRELTI_BAD_CONFORMER);
    expect("an atom's name has no control character", add_texts("A", 0, "ALA", 0, "\x01"), JUBRELTI_BAD_ATOM_NAME);
    expect("an atom's name may, and a location", add_texts("A", 0, "ALA", 1, NULL), JUBRELTI_DONE);
    expect("the location is stored as absent", store[3 * 12 + 2], 0);
    expect("the name is stored as 0", store[4 * 12 + 2], 0);
    expect("an absent location finds that conformer", add_texts("A", 0, "ALA", 0, "N"), JUBRELTI_DONE);
    expect("so there is one record more", store[LENGTH - 1], 6 * 12);
    expect("look up at an absent location", jubrelti_binary_find_atom(store, LENGTH, 0, 0, NULL, 0).atom, 4);
    expect("nothing has a present empty one", jubrelti_binary_find_atom(store, LENGTH, 0, 1, NULL, 0).found, 0);
    expect("a flag of 2 is refused", jubrelti_binary_find_atom(store, LENGTH, 0, 2, NULL, 0).result, JUBRELTI_BAD_CONFORMER);
    expect("and in a removal of a conformer",
           jubrelti_remove_conformer_by_id(store, LENGTH, 0, 0, 0, NULL, 0, 2, NULL, 0).result, JUBRELTI_BAD_CONFORMER);
    expect("and of a residue", jubrelti_remove_residue_by_id(store, LENGTH, 0, 0, 7, 2, NULL, 0).result,
           JUBRELTI_BAD_INSERTION_CODE);
    expect("no chain has an empty id", jubrelti_remove_chain_by_id(store, LENGTH, 0, NULL, 0).found, 0);
    expect("no conformer an empty name", jubrelti_remove_conformer_by_id(store, LENGTH, 0, 0, 0, NULL, 0, 0, NULL, 0).found, 0);
    expect("nor a present empty location",
           jubrelti_remove_conformer_by_id(store, LENGTH, 0, 0, 0, bytes("ALA"), 3, 1, NULL, 0).found, 0);
    expect("ALA has no location", jubrelti_remove_conformer_by_id(store, LENGTH, 0, 0, 0, bytes("ALA"), 3, 0, NULL, 0).found, 1);
    expect("no residue has a present empty code", jubrelti_remove_residue_by_id(store, LENGTH, 0, 0, 7, 1, NULL, 0).found, 0);
    expect("residue 7 has no code", jubrelti_remove_residue_by_id(store, LENGTH, 0, 0, 7, 0, NULL, 0).found, 1);
}

/* Worked case 10. */
static void prepared_codes(void) {
    const char *codes[] = {"a", "a", "A"};
    expect("open", jubrelti_open(longer, LONGER), JUBRELTI_DONE);
    expect("add model 1", jubrelti_add_model(longer, LONGER, 1).result, JUBRELTI_DONE);
    for (size_t i = 0; i < 3; i++) {
        JubreltiEdit edited = jubrelti_add_atom(longer, LONGER, 0, bytes("A"), 1, 7, 1, bytes(codes[i]), 1, bytes("ALA"), 3, 0, NULL, 0,
                                                bytes("N"), 1, no_values());
        expect("a code in any case", edited.result, JUBRELTI_DONE);
    }
    expect("is that of one residue", jubrelti_records(longer, LONGER), 7);
    expect("a removal takes it as given", jubrelti_remove_residue_by_id(longer, LONGER, 0, 0, 7, 1, bytes("a"), 1).found, 0);
    expect("in capitals it finds all three", jubrelti_remove_residue_by_id(longer, LONGER, 0, 0, 7, 1, bytes("A"), 1).removed, 3);
}

/* Find at a position of one to four indexes in the store of lower_down. */
static JubreltiFind find_at(size_t indexes, const uint64_t *at, const uint64_t *tree, size_t tree_length, size_t out_length) {
    switch (indexes) {
    case 1: return jubrelti_model_find(longer, LONGER, at[0], tree, tree_length, out, out_length);
    case 2: return jubrelti_chain_find(longer, LONGER, at[0], at[1], tree, tree_length, out, out_length);
    case 3: return jubrelti_residue_find(longer, LONGER, at[0], at[1], at[2], tree, tree_length, out, out_length);
    default: return jubrelti_conformer_find(longer, LONGER, at[0], at[1], at[2], at[3], tree, tree_length, out, out_length);
    }
}

/* An atom of residue 7 in the first model of that store. */
static uint64_t add_to(const char *chain, const char *conformer, const char *name, uint64_t element) {
    JubreltiNewAtom values = no_values();
    values.element = element;
    JubreltiEdit edited = jubrelti_add_atom(longer, LONGER, 0, bytes(chain), strlen(chain), 7, 0, NULL, 0, bytes(conformer),
                                            strlen(conformer), 0, NULL, 0, bytes(name), strlen(name), values);
    return edited.result;
}

/* The records are those of S, then 6 chain B, 7 residue 7, 8 conformer HOH, 9 atom O, and 10 a model without chains. */
static void lower_down(void) {
    const uint64_t all[] = {JUBRELTI_NODE_KNOWN_TRUE};
    const uint64_t nitrogen[] = {JUBRELTI_NODE_ELEMENT(7)};
    const uint64_t not_nitrogen[] = {JUBRELTI_NODE_ELEMENT(7), JUBRELTI_NODE_NOT};
    const uint64_t backbone[] = {JUBRELTI_NODE_BACKBONE};
    const uint64_t of_no_record[][3] = {{JUBRELTI_NODE_MODEL_SERIAL_NUMBER(9)},
                                        {JUBRELTI_NODE_CHAIN_ID("Z")},
                                        {JUBRELTI_NODE_RESIDUE_SERIAL_NUMBER(9)},
                                        {JUBRELTI_NODE_CONFORMER_NAME("GLY")},
                                        {JUBRELTI_NODE_ATOM_NAME("CA")}};
    const uint64_t unknown[] = {99, 0, 0};
    const uint64_t first[] = {0, 0, 0, 0}, water[] = {0, 1, 0, 0}, empty[] = {1, 0}, last[] = {0, 1, 0, 1};
    const uint64_t hit[] = {0, 6, 7, 8, 9};
    expect("open", jubrelti_open(longer, LONGER), JUBRELTI_DONE);
    expect("add model 1", jubrelti_add_model(longer, LONGER, 1).result, JUBRELTI_DONE);
    expect("add N", add_to("A", "ALA", "N", 7), JUBRELTI_DONE);
    expect("add XX", add_to("A", "ALA", "XX", 0), JUBRELTI_DONE);
    expect("add a water's O", add_to("B", "HOH", "O", 8), JUBRELTI_DONE);
    expect("add model 2", jubrelti_add_model(longer, LONGER, 2).result, JUBRELTI_DONE);
    for (size_t indexes = 1; indexes <= 4; indexes++) {
        uint64_t atoms = indexes == 1 ? 3 : 2;
        expect("atoms from a start", find_at(indexes, first, all, 3, OUT).hits, atoms);
        expect("hits of nitrogen", find_at(indexes, first, nitrogen, 3, OUT).hits, 2);
        expect("of not nitrogen, and one undecided", find_at(indexes, first, not_nitrogen, 6, OUT).hits, atoms - 1);
        for (size_t level = 1; level <= 5; level++) {
            expect("a term of no record, by its level", find_at(indexes, first, of_no_record[level - 1], 3, OUT).hits,
                   level <= indexes ? atoms : 0);
        }
    }
    expect("backbone from a water's residue", find_at(3, water, backbone, 3, OUT).hits, 0);
    expect("and from its conformer", find_at(4, water, backbone, 3, OUT).hits, 1);
    for (size_t level = 0; level < 5; level++) {
        expect("record", out[level], hit[level]);
    }
    longer[12 * 9 + 10] = 1;
    expect("but not of an O that is hetero", find_at(4, water, backbone, 3, OUT).hits, 0);
    longer[12 * 4 + 10] = 1;
    for (size_t indexes = 1; indexes <= 4; indexes++) {
        expect("nor of an alanine's N that is", find_at(indexes, first, backbone, 3, OUT).hits, 0);
    }
    expect("nor does a removal take them", jubrelti_remove_atoms_by(longer, LONGER, 0, backbone, 3).removed, 0);
    longer[12 * 9 + 10] = longer[12 * 4 + 10] = 0;
    expect("a model without atoms is searched", find_at(1, empty, all, 3, 0).result, JUBRELTI_DONE);
    expect("a chain of it isn't there, whatever the tree", find_at(2, empty, NULL, 0, OUT).result, JUBRELTI_NO_POSITION);
    expect("nor a second conformer of the water", find_at(4, last, unknown, 3, OUT).result, JUBRELTI_NO_POSITION);
    expect("a tree is refused before an output", find_at(3, first, unknown, 3, 9).result, JUBRELTI_TREE_NODE);
    out[0] = 99;
    expect("no room for two hits", find_at(3, first, all, 3, 9).result, JUBRELTI_SHORT_OUTPUT);
    expect("the output is as it was", out[0], 99);
}

/* NULL as a tree, an output and a list. */
static void no_words(void) {
    const uint64_t all[] = {JUBRELTI_NODE_KNOWN_TRUE};
    const uint64_t none[] = {JUBRELTI_NODE_KNOWN_FALSE};
    const uint64_t list[] = {JUBRELTI_ADD_MODEL, 1, 2};
    expect("open", jubrelti_open(store, LENGTH), JUBRELTI_DONE);
    expect("add model 1", jubrelti_add_model(store, LENGTH, 1).result, JUBRELTI_DONE);
    expect("add N", add(1, "N", 7, 1.5).result, JUBRELTI_DONE);
    expect("no nodes are no tree", find(NULL, 0), JUBRELTI_TREE_SHAPE);
    expect("nor for a removal", jubrelti_remove_atoms_by(store, LENGTH, 0, NULL, 0).result, JUBRELTI_TREE_SHAPE);
    expect("an output of no words has no room", jubrelti_find(store, LENGTH, all, 3, NULL, 0).result, JUBRELTI_SHORT_OUTPUT);
    expect("and is enough for no hit", jubrelti_find(store, LENGTH, none, 3, NULL, 0).result, JUBRELTI_DONE);
    expect("a list's answers need room", jubrelti_apply(store, LENGTH, list, 3, NULL, 0).result, JUBRELTI_SHORT_ANSWERS);
    JubreltiApply applied = jubrelti_apply(store, LENGTH, NULL, 0, NULL, 0);
    expect("a list of no edits is one", applied.result, JUBRELTI_DONE);
    expect("its edits", applied.calls, 0);
    expect("the store is as it was", store[LENGTH - 1], 5 * 12);
    expect("and a list of one is made", jubrelti_apply(store, LENGTH, list, 3, out, 3).calls, 1);
}

/* ---- the helpers */

static void texts(void) {
    const char *good[] = {"", "A", "ALA", "12345678", " ~", "a b"};
    const char *bad[] = {"123456789", "a\tb", "\x1f", "\x7f", "\x80", "\xff", NULL};
    char text[9];
    for (size_t i = 0; i < JUBRELTI_LENGTH(good); i++) {
        expect_text("a text packed and unpacked", jubrelti_unpack(jubrelti_text(good[i]), text), good[i]);
    }
    for (size_t i = 0; i < JUBRELTI_LENGTH(bad); i++) {
        expect("a text that can't be packed", jubrelti_text(bad[i]), JUBRELTI_NO_TEXT);
    }
    expect("a packed text", jubrelti_text("AB"), 0x4142000000000000);
    expect("an absent text", jubrelti_optional(NULL), 0);
    expect("a present one", jubrelti_optional("AB"), jubrelti_text("AB"));
    expect("a present empty one", jubrelti_optional(""), JUBRELTI_NO_TEXT);
    expect("a long one", jubrelti_optional("123456789"), JUBRELTI_NO_TEXT);
    expect("characters", JUBRELTI_CHARS('A', 'L', 'A'), jubrelti_text("ALA"));
    expect("one", JUBRELTI_CHARS('A'), jubrelti_text("A"));
    expect("eight", JUBRELTI_CHARS('1', '2', '3', '4', '5', '6', '7', '8'), jubrelti_text("12345678"));
    expect("nine", JUBRELTI_CHARS('1', '2', '3', '4', '5', '6', '7', '8', '9'), JUBRELTI_NO_TEXT);
    expect("ten", JUBRELTI_CHARS('1', '2', '3', '4', '5', '6', '7', '8', '9', '0'), JUBRELTI_NO_TEXT);
}

static void numbers(void) {
    const double floats[] = {0.0, -0.0, 1.5, -1e300, DBL_MIN, DBL_MAX};
    const int64_t integers[] = {0, 1, -1, INT64_MAX, INT64_MIN};
    for (size_t i = 0; i < JUBRELTI_LENGTH(floats); i++) {
        uint64_t word = jubrelti_bits(floats[i]);
        expect("a float and back", jubrelti_float(word) == floats[i], 1);
        expect("its bits again", jubrelti_bits(jubrelti_float(word)), word);
    }
    for (size_t i = 0; i < JUBRELTI_LENGTH(integers); i++) {
        expect("a signed number and back", jubrelti_integer(jubrelti_signed(integers[i])) == integers[i], 1);
    }
    expect("bits of 1.0", jubrelti_bits(1.0), 0x3ff0000000000000);
    expect("-1 as a word", jubrelti_signed(-1), UINT64_MAX);
    expect("words for no record", jubrelti_words(0), 1);
    expect("words for the most records", jubrelti_words(JUBRELTI_MAX_RECORDS), 1200001);
    expect("words for one more", jubrelti_words(JUBRELTI_MAX_RECORDS + 1), 0);
    expect("words for far too many", jubrelti_words(SIZE_MAX), 0);
    expect("records of no words", jubrelti_records(NULL, 0), 0);
}

static void messages_and_version(void) {
    const char *unknown = jubrelti_message(UINT64_MAX);
    uint64_t known = 0;
    for (uint64_t number = 0; number < 100; number++) {
        const char *sentence = jubrelti_message(number);
        if (strcmp(sentence, unknown) != 0) {
            known++;
            printf("%llu: %s\n", (unsigned long long)number, sentence);
            expect("the sentence says what to do", strstr(sentence, "; ") != NULL, number != JUBRELTI_DONE);
        }
    }
    expect("numbers with a sentence of their own", known, JUBRELTI_LENGTH(jubrelti_messages));
    expect_text("an unknown number", unknown, "the refusal is unknown; use a header and a library of the same version");
    expect("the library's version is the header's", jubrelti_version(), JUBRELTI_VERSION);
    expect("so they agree", (uint64_t)jubrelti_version_agrees(), 1);
}

/* An atom whose fields all differ, in the first records of a new store. */
static void full_atom(void) {
    JubreltiNewAtom values = no_values();
    values.serial = 17;
    values.x = jubrelti_bits(1.5);
    values.y = jubrelti_bits(-2.5);
    values.z = jubrelti_bits(3.25);
    values.occupancy = jubrelti_bits(0.5);
    values.b_factor = jubrelti_bits(40.0);
    values.element = 20;
    values.charge = jubrelti_signed(-2);
    values.hetero = 1;
    expect("open", jubrelti_open(store, LENGTH), JUBRELTI_DONE);
    expect("add model 3", jubrelti_add_model(store, LENGTH, 3).result, JUBRELTI_DONE);
    JubreltiEdit edited = jubrelti_add_atom(store, LENGTH, 0, bytes("Chain"), 5, jubrelti_signed(-7), 1, bytes("I"), 1,
                                            bytes("CALCIUM2"), 8, 1, bytes("B"), 1, bytes("CA"), 2, values);
    expect("add an atom", edited.result, JUBRELTI_DONE);
}

static void records(void) {
    char text[9];
    full_atom();
    expect("its records", jubrelti_records(store, LENGTH), 5);
    for (uint64_t r = 0; r < 5; r++) {
        expect("kind", jubrelti_record_kind(store, r), JUBRELTI_KIND_MODEL + r);
    }
    expect("the last kind", jubrelti_record_kind(store, 4), JUBRELTI_KIND_ATOM);
    expect("model's serial number", jubrelti_model_serial_number(store, 0), 3);
    expect_text("chain's id", jubrelti_chain_id(store, 1, text), "Chain");
    expect("residue's serial number", jubrelti_residue_serial_number(store, 2) == -7, 1);
    expect_text("its insertion code", jubrelti_residue_insertion_code(store, 2, text), "I");
    expect_text("conformer's name", jubrelti_conformer_name(store, 3, text), "CALCIUM2");
    expect_text("its alternative location", jubrelti_conformer_alternative_location(store, 3, text), "B");
    expect("atom's serial number", jubrelti_atom_serial_number(store, 4), 17);
    expect_text("its name", jubrelti_atom_name(store, 4, text), "CA");
    expect("x", jubrelti_atom_x(store, 4) == 1.5, 1);
    expect("y", jubrelti_atom_y(store, 4) == -2.5, 1);
    expect("z", jubrelti_atom_z(store, 4) == 3.25, 1);
    expect("occupancy", jubrelti_atom_occupancy(store, 4) == 0.5, 1);
    expect("B-factor", jubrelti_atom_b_factor(store, 4) == 40.0, 1);
    expect("element", jubrelti_atom_element(store, 4), 20);
    expect("charge", jubrelti_atom_charge(store, 4) == -2, 1);
    expect("hetero", jubrelti_atom_hetero(store, 4), 1);
    expect("its line is too wide, which comes first", jubrelti_write_pdb(store, LENGTH, NULL, 0).result, JUBRELTI_TOO_WIDE);
}

/* A tree outside any function needs constants. */
static const uint64_t static_tree[] = {JUBRELTI_CONFORMER_NAME, JUBRELTI_CHARS('C', 'A', 'L', 'C', 'I', 'U', 'M', '2'), 0,
                                       JUBRELTI_NODE_ELEMENT(20), JUBRELTI_NODE_RESIDUE_SERIAL_NUMBER(-7), JUBRELTI_NODE_AND,
                                       JUBRELTI_NODE_AND};

/* A node of each code in the order of the codes. Each term but two is true of the atom of full_atom, which is in no amino acid. */
static void nodes(void) {
    const uint64_t all[] = {
        JUBRELTI_NODE_MODEL_SERIAL_NUMBER(3), JUBRELTI_NODE_MODEL_SERIAL_NUMBER_RANGE(2, 3), JUBRELTI_NODE_CHAIN_ID("Chain"),
        JUBRELTI_NODE_CHAIN_ID_RANGE("C", "D"), JUBRELTI_NODE_RESIDUE_SERIAL_NUMBER(-7),
        JUBRELTI_NODE_RESIDUE_SERIAL_NUMBER_RANGE(-8, 0), JUBRELTI_NODE_RESIDUE_INSERTION_CODE("I"),
        JUBRELTI_NODE_RESIDUE_ID(-7, "I"), JUBRELTI_NODE_CONFORMER_NAME("CALCIUM2"),
        JUBRELTI_NODE_CONFORMER_ALTERNATIVE_LOCATION("B"), JUBRELTI_NODE_CONFORMER_ID("CALCIUM2", "B"),
        JUBRELTI_NODE_ATOM_SERIAL_NUMBER(17), JUBRELTI_NODE_ATOM_SERIAL_NUMBER_RANGE(17, 18), JUBRELTI_NODE_ATOM_NAME("CA"),
        JUBRELTI_NODE_ELEMENT(20), JUBRELTI_NODE_B_FACTOR(40.0), JUBRELTI_NODE_B_FACTOR_RANGE(30.0, 60),
        JUBRELTI_NODE_OCCUPANCY(0.5), JUBRELTI_NODE_OCCUPANCY_RANGE(0, 0.5), JUBRELTI_NODE_BACKBONE, JUBRELTI_NODE_SIDE_CHAIN,
        JUBRELTI_NODE_HETERO, JUBRELTI_NODE_AND, JUBRELTI_NODE_OR, JUBRELTI_NODE_XOR, JUBRELTI_NODE_NOT, JUBRELTI_NODE_KNOWN_FALSE,
        JUBRELTI_NODE_KNOWN_TRUE};
    expect("words of 28 nodes", JUBRELTI_LENGTH(all), 28 * 3);
    for (uint64_t i = 0; i < 28; i++) {
        expect("code", all[3 * i], i + 1);
    }
    for (uint64_t i = 0; i < 22; i++) {
        int is_false = i + 1 == JUBRELTI_BACKBONE || i + 1 == JUBRELTI_SIDE_CHAIN;
        expect("a term is accepted", find(all + 3 * i, 3), JUBRELTI_DONE);
        expect("hits", hits(all + 3 * i, 3), is_false ? 0 : 1);
    }
    expect("hits of a static tree", hits(static_tree, JUBRELTI_LENGTH(static_tree)), 1);
}

/* What is no text is refused by each call with a tree, in each place of a text. */
static void bad_texts(void) {
    const uint64_t trees[][3] = {{JUBRELTI_NODE_CHAIN_ID("123456789")},
                                 {JUBRELTI_NODE_CHAIN_ID_RANGE("A", "123456789")},
                                 {JUBRELTI_NODE_RESIDUE_INSERTION_CODE("")},
                                 {JUBRELTI_NODE_RESIDUE_ID(7, "123456789")},
                                 {JUBRELTI_NODE_CONFORMER_NAME("\xc3\x85")},
                                 {JUBRELTI_NODE_CONFORMER_ALTERNATIVE_LOCATION("")},
                                 {JUBRELTI_NODE_CONFORMER_ID("ALA", "")},
                                 {JUBRELTI_NODE_ATOM_NAME(NULL)},
                                 {JUBRELTI_ATOM_NAME, JUBRELTI_CHARS('C', 0, 'A'), 0},
                                 {JUBRELTI_ATOM_NAME, JUBRELTI_CHARS('C', '\n'), 0}};
    for (size_t i = 0; i < JUBRELTI_LENGTH(trees); i++) {
        expect("find refuses the text", find(trees[i], 3), JUBRELTI_TREE_NODE);
        expect("so does a removal", jubrelti_remove_atoms_by(store, LENGTH, 0, trees[i], 3).result, JUBRELTI_TREE_NODE);
    }
}

int main(void) {
    store = junk(LENGTH);
    longer = junk(LONGER);
    out = junk(OUT);
    build();
    search();
    lines();
    read_lines();
    edit();
    elements();
    elements_in_a_list();
    no_store();
    no_texts();
    prepared_codes();
    lower_down();
    no_words();
    texts();
    numbers();
    messages_and_version();
    records();
    nodes();
    bad_texts();
    free(store);
    free(longer);
    free(out);
    puts("all answers are right");
    return 0;
}
