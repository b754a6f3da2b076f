// A survey of a small structure, as a program on pdbtbx makes it. Without its `?` and with `use pdbtbx::*` in place of the `use` lines of
// this package it is such a program, and `oracle/run` compares what the two print.

use jubrelti::Store as PDB;

mod build {
    use jubrelti::{ModelBuilder as Model, NewAtom as Atom, Store as PDB};
    use std::error::Error;

    // Serial number, name, symbol, position, B-factor.
    type Line = (usize, &'static str, &'static str, (f64, f64, f64), f64);

    const SERINE: [Line; 6] = [
        (1, "N", "N", (0.0, 0.0, 0.0), 12.0),
        (2, "CA", "C", (1.46, 0.0, 0.0), 12.5),
        (3, "C", "C", (1.98, 1.43, 0.0), 13.0),
        (4, "O", "O", (1.2, 2.4, 0.0), 14.5),
        (5, "CB", "C", (2.0, -0.76, 1.21), 18.0),
        (6, "OG", "O", (3.42, -0.7, 1.2), 41.0),
    ];
    const GLYCINE: [Line; 4] = [
        (7, "N", "N", (3.31, 1.55, 0.0), 12.0),
        (8, "CA", "C", (3.98, 2.84, 0.0), 12.25),
        (9, "C", "C", (5.49, 2.68, 0.0), 12.5),
        (10, "O", "O", (6.0, 1.56, 0.0), 13.75),
    ];
    const WATER: [Line; 1] = [(11, "O", "O", (6.1, -3.0, 2.2), 35.0)];

    fn add(model: &mut Model, lines: &[Line], chain: &str, residue: (isize, Option<&str>), conformer: (&str, Option<&str>)) {
        for &(serial_number, name, symbol, (x, y, z), b_factor) in lines {
            let hetero = conformer.0 == "HOH";
            let atom = Atom::new(hetero, serial_number, name, x, y, z, 1.0, b_factor, symbol, 0).expect("a good atom");
            model.add_atom(atom, chain, residue, conformer);
        }
    }

    pub fn fill(pdb: &mut PDB) -> Result<(), Box<dyn Error>> {
        let mut model = Model::new(1);
        add(&mut model, &SERINE, "A", (1, None), ("SER", Some("A")));
        add(&mut model, &GLYCINE, "A", (2, Some("B")), ("GLY", None));
        add(&mut model, &WATER, "W", (101, None), ("HOH", None));
        pdb.add_model(model)?;
        Ok(())
    }
}

mod read {
    use jubrelti::{Store as PDB, *};
    use std::error::Error;

    fn label(hit: &impl ContainsAtomConformerResidueChain) -> String {
        let (number, code) = hit.residue().id();
        format!("{}{}{} {} {}", hit.chain().id(), number, code.unwrap_or(""), hit.conformer().name(), hit.atom().name())
    }

    fn farthest<'a>(from: &Atom, atoms: impl Iterator<Item = &'a Atom>) -> Option<&'a Atom> {
        atoms.max_by(|a, b| from.distance(a).total_cmp(&from.distance(b)))
    }

    pub fn counts(pdb: &PDB) {
        println!("{pdb}: {} chains, {} residues, {} atoms", pdb.chain_count(), pdb.residue_count(), pdb.total_atom_count());
        for chain in pdb.chains().rev() {
            println!("  {chain}, atoms: {}", chain.atom_count());
            for residue in chain.residues() {
                let names: Vec<&str> = residue.atoms().map(|atom| atom.name()).collect();
                println!("    {:?} {residue}: {}", residue.name(), names.join(" "));
            }
        }
    }

    pub fn geometry(pdb: &PDB) {
        let first = pdb.atom(0).expect("an atom");
        let last = farthest(first, pdb.atoms()).expect("an atom");
        println!("farthest from {}: {} at {:.3}", first.name(), last.name(), first.distance(last));
        for hit in pdb.atoms_with_hierarchy().filter(|hit| hit.is_sidechain()) {
            println!("  side chain {}: {:?}", label(&hit), hit.atom().pos());
        }
        println!("box {:?}", pdb.bounding_box());
    }

    pub fn searches(pdb: &PDB) -> Result<(), Box<dyn Error>> {
        let searches = [
            // The crate's Backbone claims hetero atoms under names of amino acids too.
            ("main chain", Term::Backbone & !Term::Hetero),
            ("loose or ligand", Term::BFactorRange(30.0, f64::INFINITY) | Term::Hetero),
            ("not carbon in A", Term::ChainId("A".to_owned()) & !Term::Element(Element::C)),
            ("2B or a name", Term::ResidueId(2, Some("B".to_owned())) ^ Term::AtomName("OG".to_owned())),
        ];
        for (title, search) in searches {
            let hits: Vec<String> = pdb.find(search)?.map(|hit| label(&hit)).collect();
            println!("{title}: {}", hits.join(", "));
        }
        Ok(())
    }
}

fn main() -> Result<(), Box<dyn std::error::Error>> {
    let mut pdb = PDB::new();
    build::fill(&mut pdb)?;
    read::counts(&pdb);
    read::geometry(&pdb);
    read::searches(&pdb)?;
    Ok(())
}
