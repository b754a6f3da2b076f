// Reads a PDB text from the standard input with gemmi and prints what it read, a line for each model and for each atom, its fields apart by
// tabs. Floats have as many digits as tell them apart. With the argument `write` it prints the PDB file that gemmi writes of it instead.
#define GEMMI_WRITE_IMPLEMENTATION
#include <cstdio>
#include <iostream>
#include <iterator>
#include <gemmi/pdb.hpp>
#include <gemmi/to_pdb.hpp>

static std::string one(char c) {
    return c == '\0' || c == ' ' ? "" : std::string(1, c);
}

static void print(const gemmi::Residue &residue, const gemmi::Atom &atom) {
    printf("%c\t%d\t%s\t%s\t%s\t", residue.het_flag, atom.serial, atom.name.c_str(), one(atom.altloc).c_str(), residue.name.c_str());
    printf("%d\t%s\t", *residue.seqid.num, one(residue.seqid.icode).c_str());
    printf("%.17g\t%.17g\t%.17g\t%.9g\t%.9g\t", atom.pos.x, atom.pos.y, atom.pos.z, atom.occ, atom.b_iso);
    printf("%d\t%d\n", atom.element.ordinal(), atom.charge);
}

int main(int argc, char **argv) {
    std::string text((std::istreambuf_iterator<char>(std::cin)), std::istreambuf_iterator<char>());
    gemmi::Structure structure = gemmi::read_pdb_string(text, "text");
    if (argc == 2 && std::string(argv[1]) == "write") {
        gemmi::write_pdb(structure, std::cout);
        return 0;
    }
    for (auto &model : structure.models) {
        printf("model\t%s\n", model.name.c_str());
        for (auto &chain : model.chains)
            for (auto &residue : chain.residues)
                for (auto &atom : residue.atoms) {
                    printf("%s\t", chain.name.c_str());
                    print(residue, atom);
                }
    }
}
