// Written by bindings/tables from bindings/refusals.txt; edit that file.
refusals! {
    1 BadLength: "the store's length isn't 1 to 1,200,001 words", "a store has 1 to 1,200,001 words; give it 12 for each record and one more, for at most 100,000 records";
    2 BrokenLayout: "the words aren't a store: they weren't opened, or were written by others", "the words aren't a store; open them first, or give back the words of a store as they were";
    3 TreeShape: "the tree's length isn't 3 to 381 words in threes, or its postfix order doesn't leave exactly one operand", "the search isn't one tree of 1 to 127 terms and operators; split a larger one, and put each operator behind its operands";
    4 TreeNode: "a node has an unknown code or a bad parameter", "a node of the search has an unknown code or a bad parameter; build it from the terms there are, with texts of at most 8 printable ASCII characters";
    5 NoPosition: "nothing stands at the position", "nothing stands at this position; count from 0, from the model down, in the structure as it is now";
    6 BadIdentifier: "a bad chain id", "the chain id is bad; give it 1 to 8 printable ASCII characters, not counting spaces at its ends";
    7 BadValue: "a float that isn't finite, an element above 118, hetero above 1; where an element is set, 0 too", "a coordinate, the occupancy or the B-factor is infinite or not a number, the element is over 118, or 0 where one is set, or hetero is over 1; give finite numbers, and 0 for the missing element of a new atom alone";
    8 NoCapacity: "the records needed exceed the store's capacity", "the store has no room for the records needed; copy it into more words, or use a store that grows, up to 100,000 records";
    9 JoinWithItself: "both positions of a join are the same", "both positions of the join are the same; give two different ones";
    10 ShortOutput: "the output is shorter than five words for each hit", "the output has no room for all hits; lend five words for each";
    11 BadFile: "the input isn't a whole number of words, is empty or over 65,536 bytes, or the tree's start lies past its last word", "the file isn't a store, a tree and the tree's start, or is over 65,536 bytes; write it so";
    12 TooWide: "a field of a line that is written is too wide for its columns", "a field is too wide for its columns of a PDB line; give a chain id, code and location 1 byte, a conformer name 3, an atom name 4, and numbers within the limits of docs/FORMATS.md";
    13 ShortText: "the output is shorter than the text", "the output has no room for the text; lend 81 bytes for each atom and twice 81 for each model";
    14 BadInsertionCode: "a bad insertion code, or a flag of one above 1", "the insertion code is bad, or its flag is over 1; give it 1 to 8 printable ASCII characters, not counting spaces at its ends, or leave it out";
    15 BadConformer: "a bad conformer name, an alternative location of over 8 bytes, or a location's flag above 1", "the conformer's name is bad, its alternative location is too long, or the location's flag is over 1; give the name 1 to 8 printable ASCII characters and the location at most 8, not counting spaces at the ends";
    16 BadAtomName: "a bad atom name", "the atom's name is bad; give it at most 8 printable ASCII characters, not counting spaces at its ends";
    17 BadText: "a text that the writer could not have made", "the text isn't PDB lines as write_pdb writes them; give each line 80 columns and a newline, MODEL and ENDMDL around the atoms of each model and no other lines, and each field its columns of docs/FORMATS.md";
    22 BadList: "the words are not a well-formed list of edits", "the list isn't well-formed, or an edit in it has over 1,024 words; give each edit the words of its code, and shorten its texts or its search";
    23 ShortAnswers: "the output is shorter than three words for each edit", "the output has no room for all answers; lend three words for each edit";
}
