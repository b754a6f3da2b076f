// gemmi's structure, selections, PDB writer and PDB reader, for bench/others.rs.
#define GEMMI_WRITE_IMPLEMENTATION
#include <gemmi/pdb.hpp>
#include <gemmi/select.hpp>
#include <gemmi/to_pdb.hpp>
#include <streambuf>

static gemmi::Structure structure;

extern "C" void gemmi_add(const char *chain, int residue, const char *conformer, const char *name, const char *element, double b_factor) {
    if (structure.models.empty())
        structure.models.emplace_back("1");
    auto &chains = structure.models[0].chains;
    if (chains.empty() || chains.back().name != chain)
        chains.emplace_back(chain);
    auto &residues = chains.back().residues;
    if (residues.empty() || *residues.back().seqid.num != residue) {
        gemmi::Residue added;
        added.name = conformer;
        added.seqid.num = residue;
        residues.push_back(added);
    }
    gemmi::Atom atom;
    atom.name = name;
    atom.element = gemmi::Element(element);
    atom.b_iso = (float)b_factor;
    residues.back().atoms.push_back(atom);
}

// The number of atoms that a selection picks.
extern "C" size_t gemmi_select(const char *cid) {
    gemmi::Selection selection(cid);
    size_t hits = 0;
    for (auto &model : selection.models(structure))
        for (auto &chain : selection.chains(model))
            for (auto &residue : selection.residues(chain))
                for (auto &atom : selection.atoms(residue)) {
                    asm volatile("" : : "r"(&atom));
                    hits++;
                }
    return hits;
}

extern "C" void gemmi_clear() {
    structure.models.clear();
}

// The atom that was added last.
extern "C" void gemmi_place(double x, double y, double z, bool hetero) {
    auto &residue = structure.models[0].chains.back().residues.back();
    residue.het_flag = hetero ? 'H' : 'A';
    residue.atoms.back().pos = gemmi::Position(x, y, z);
}

// A stream into bytes that are lent, so that no text grows while it is timed.
struct Lent : std::streambuf {
    Lent(char *out, size_t length) { setp(out, out + length); }
    size_t written() const { return pptr() - pbase(); }
};

// The atoms' PDB lines, with no header but what gemmi always writes; the number of bytes.
extern "C" size_t gemmi_write(char *out, size_t length) {
    Lent lent(out, length);
    std::ostream stream(&lent);
    gemmi::write_minimal_pdb(structure, stream);
    return lent.written();
}

// The number of atoms that gemmi reads of PDB lines.
extern "C" size_t gemmi_read(const char *text, size_t length) {
    gemmi::Structure read = gemmi::read_pdb_from_memory(text, length, "text");
    size_t atoms = 0;
    for (auto &model : read.models)
        for (auto &chain : model.chains)
            for (auto &residue : chain.residues)
                atoms += residue.atoms.size();
    return atoms;
}
