// Picks atoms as a restraint builder would: main chain, side chains, what is loose or a ligand, what isn't hydrogen, and a part of one chain.
use jubrelti::*;

// A serine and a glycine of chain A; in chain B a fragment with an atom X1, whose element isn't known, and a free glycine from the soak: its
// names are those of the chain's own, and it is hetero.
const LINES: &str = include_str!("restraints.pdb");

fn list(title: &str, hits: Hits) {
    println!("{title}");
    for hit in hits {
        let (atom, residue) = (hit.atom(), hit.residue());
        let (x, y, z) = atom.pos();
        println!(
            "  {:>3} {:<4} {} {}{:<4} {x:7.3} {y:7.3} {z:7.3}  B {:.1}",
            atom.serial_number(),
            atom.name(),
            hit.conformer().name(),
            hit.chain().id(),
            residue.serial_number(),
            atom.b_factor()
        );
    }
}

fn main() -> Result<(), Error> {
    // As a partner's program sends them back. An error would say at which line the text stops being one.
    let mut store = Store::read_pdb(LINES)?;

    // Hetero goes first: the free glycine has a backbone's names and is neither main chain nor side chain, but a ligand.
    list("main chain, for bonds and planes", store.find(Term::Backbone)?);
    list("side chains, for rotamers", store.find(Term::SideChain)?);
    list("loose or ligand, for tighter restraints", store.find(Term::BFactorRange(30.0, f64::INFINITY) | Term::Hetero)?);
    // X1 may be hydrogen or not, so it is listed: a search leaves out only what it knows to be false.
    list("ligands without hydrogen, for contacts", store.find(Term::Hetero & !Term::Element(Element::H))?);
    // A viewer that stands on the second chain asks from there.
    list("chain B without carbon", store.chain_find([0, 1], !Term::Element(Element::C))?);

    // Only an atom without an element is a hit of such a term and of its opposite. The anomalous map says what X1 is.
    let unknown = Term::Element(Element::S) & !Term::Element(Element::S);
    let positions: Vec<_> = store.find(unknown.clone())?.map(|hit| hit.position()).collect();
    for position in positions {
        store.set_element(position, Element::S)?;
    }
    println!("{} atoms without an element are left", store.find(unknown)?.len());

    // Both edits or none: the loose atoms go, and what holds no atoms then.
    let mut edits = Edits::new();
    edits.remove_atoms_by(0, Term::BFactorRange(40.0, f64::INFINITY))?.remove_empty(0);
    let edited = store.apply_all(&edits)?;
    println!("removed {} atom above B 40", edited[0].removed);
    let left = store.find(Search::Known(true))?.len();
    println!("{left} atoms left, as lines for a partner's program:");
    print!("{}", store.write_pdb()?);
    Ok(())
}
