// mmdb2's structure and selections, for bench/others.rs.
#include <mmdb2/mmdb_manager.h>
#include <cstring>

static mmdb::Manager *manager;
static mmdb::Chain *last_chain;
static mmdb::Residue *last_residue;

extern "C" void mmdb2_add(const char *chain, int residue, const char *conformer, const char *name, const char *element, double b_factor) {
    if (!manager) {
        manager = new mmdb::Manager();
        manager->AddModel(new mmdb::Model());
    }
    if (!last_chain || strcmp(last_chain->GetChainID(), chain)) {
        last_chain = new mmdb::Chain(manager->GetModel(1), chain);
        last_residue = nullptr;
    }
    if (!last_residue || last_residue->GetSeqNum() != residue)
        last_residue = new mmdb::Residue(last_chain, conformer, residue, "");
    auto *atom = new mmdb::Atom(last_residue);
    atom->SetAtomName(name);
    atom->SetElementName(element);
    atom->SetCoordinates(0, 0, 0, 1, b_factor);
}

// The number of atoms that a selection picks.
extern "C" size_t mmdb2_select(const char *cid) {
    static bool finished = false;
    if (!finished)
        manager->FinishStructEdit();
    finished = true;
    int selection = manager->NewSelection();
    manager->Select(selection, mmdb::STYPE_ATOM, cid, mmdb::SKEY_NEW);
    mmdb::PPAtom atoms;
    int hits;
    manager->GetSelIndex(selection, atoms, hits);
    manager->DeleteSelection(selection);
    return (size_t)hits;
}
