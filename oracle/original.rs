// The same calls on pdbtbx's own structures, for calls in the domain of the comparison.
use crate::plain;
use crate::port::{Call, NewAtom, Optional};
use pdbtbx::{Atom, Chain, Conformer, Element, Model, Residue, PDB};

fn text(bytes: &[u8]) -> &str {
    std::str::from_utf8(bytes).unwrap()
}

fn optional(o: &Optional) -> Option<&str> {
    (o.flag == 1).then(|| text(&o.text))
}

// An addition's code and location, prepared by the crate's own constructors. A location that can't be prepared is not given.
fn prepared_code(o: &Optional) -> Option<String> {
    let residue = Residue::new(0, optional(o), None).unwrap();
    residue.insertion_code().map(String::from)
}

fn prepared_location(o: &Optional) -> Option<String> {
    let conformer = Conformer::new("ALA", optional(o), None).unwrap();
    conformer.alternative_location().map(String::from)
}

fn element(number: u64) -> Element {
    Element::new(number as usize).unwrap()
}

// Through `Atom::new`, for its own trimming. Where that guesses an element and none was given, the atom is made without a name and is
// named afterwards.
fn atom(name: &[u8], v: &NewAtom) -> Option<Atom> {
    let f = f64::from_bits;
    let symbol = if v.element == 0 { "" } else { element(v.element).symbol() };
    let (serial, charge) = (v.serial as usize, v.charge as isize);
    let new = |name| Atom::new(v.hetero == 1, serial, name, f(v.x), f(v.y), f(v.z), f(v.occupancy), f(v.b_factor), symbol, charge);
    let made = new(text(name))?;
    if v.element != 0 || made.element().is_none() {
        return Some(made);
    }
    let mut unnamed = new("")?;
    unnamed.set_name(made.name()).unwrap();
    Some(unnamed)
}

// The refusal that the crate's own constructors, as `add_atom` calls them, give to an addition: by the first level that can't be made, or by
// the atom's floats; else 0.
pub fn refusal(call: &Call) -> u64 {
    let Call::AddAtom { chain, code, conformer, location, name, values, .. } = call else {
        return 0;
    };
    let zero = NewAtom { x: 0, y: 0, z: 0, occupancy: 0, b_factor: 0, ..*values };
    let made = [
        (6, Chain::new(text(chain).trim()).is_some()),
        (14, Residue::new(0, optional(code), None).is_some()),
        (15, Conformer::new(text(conformer), optional(location), None).is_some()),
        (16, atom(name, &zero).is_some()),
        (7, atom(name, values).is_some()),
    ];
    made.iter().find(|(_, made)| !made).map_or(0, |(refusal, _)| *refusal)
}

fn model<'a>(p: &'a mut PDB, i: u64) -> &'a mut Model {
    p.models_mut().nth(i as usize).unwrap()
}

fn chain<'a>(p: &'a mut PDB, at: &[u64]) -> &'a mut Chain {
    model(p, at[0]).chain_mut(at[1] as usize).unwrap()
}

fn residue<'a>(p: &'a mut PDB, at: &[u64]) -> &'a mut Residue {
    chain(p, at).residue_mut(at[2] as usize).unwrap()
}

fn conformer<'a>(p: &'a mut PDB, at: &[u64]) -> &'a mut Conformer {
    residue(p, at).conformer_mut(at[3] as usize).unwrap()
}

// A call that the port accepted; the answer is found.
pub fn edit(p: &mut PDB, call: &Call) -> bool {
    match call {
        Call::AddModel(serial) => p.add_model(Model::new(*serial as usize)),
        Call::AddAtom { model: i, chain, residue, code, conformer, location, name, values } => model(p, *i).add_atom(
            atom(name, values).unwrap(),
            text(chain),
            (*residue as isize, prepared_code(code).as_deref()),
            (text(conformer), prepared_location(location).as_deref()),
        ),
        Call::RemoveChain(at) => drop(model(p, at[0]).remove_chain(at[1] as usize)),
        Call::RemoveResidue(at) => chain(p, at).remove_residue(at[2] as usize),
        Call::RemoveConformer(at) => residue(p, at).remove_conformer(at[3] as usize),
        Call::RemoveAtom(at) => conformer(p, at).remove_atom(at[4] as usize),
        Call::RemoveChainById(i, id) => return model(p, *i).remove_chain_by_id(text(id)),
        Call::RemoveResidueById(at, serial, o) => return chain(p, at).remove_residue_by_id((*serial as isize, optional(o))),
        Call::RemoveConformerById(at, name, o) => return residue(p, at).remove_conformer_by_id((text(name), optional(o))),
        Call::RemoveAtomBySerialNumber(at, serial) => return conformer(p, at).remove_atom_by_serial_number(*serial as usize),
        Call::RemoveAtomsBy(i, tree) => {
            let search = search_for(&plain::read_tree(tree).unwrap());
            model(p, *i).remove_atoms_by(|a| search.add_atom_info(a).complete() == Some(true));
        }
        Call::RemoveEmpty(i) => model(p, *i).remove_empty(),
        Call::JoinModels(i, j) => {
            let second = std::mem::replace(model(p, *j), Model::new(0));
            model(p, *i).join(second);
            p.remove_model(*j as usize);
        }
        Call::JoinChains(a, b) => {
            let second = std::mem::replace(chain(p, b), Chain::new("A").unwrap());
            chain(p, a).join(second);
            model(p, b[0]).remove_chain(b[1] as usize);
        }
        Call::JoinResidues(a, b) => {
            let empty = Residue::new(0, None, None).unwrap();
            let second = std::mem::replace(residue(p, b), empty);
            residue(p, a).join(second);
            chain(p, b).remove_residue(b[2] as usize);
        }
        Call::JoinConformers(a, b) => {
            let empty = Conformer::new("A", None, None).unwrap();
            let second = std::mem::replace(conformer(p, b), empty);
            conformer(p, a).join(second);
            residue(p, b).remove_conformer(b[3] as usize);
        }
        // The crate's call overwrites, so it is made where there is no element.
        Call::SetElement(at, number) => {
            let atom = conformer(p, at).atom_mut(at[4] as usize).unwrap();
            let is_missing = atom.element().is_none();
            if is_missing {
                atom.set_element(element(*number));
            }
            return is_missing;
        }
    }
    true
}

// The structure as document 01's machine.
pub fn machine(p: &PDB) -> plain::Machine {
    let pack = |s: &str| plain::pack(s.as_bytes());
    let maybe = |s: Option<&str>| s.map_or(0, pack);
    let atom = |a: &Atom| plain::Atom {
        name: pack(a.name()),
        values: NewAtom {
            serial: a.serial_number() as u64,
            x: a.x().to_bits(),
            y: a.y().to_bits(),
            z: a.z().to_bits(),
            occupancy: a.occupancy().to_bits(),
            b_factor: a.b_factor().to_bits(),
            element: a.element().map_or(0, |e| e.atomic_number() as u64),
            charge: a.charge() as u64,
            hetero: a.hetero() as u64,
        },
    };
    let conformer = |f: &Conformer| plain::Conformer {
        name: pack(f.name()),
        location: maybe(f.alternative_location()),
        atoms: f.atoms().map(atom).collect(),
    };
    let residue = |r: &Residue| plain::Residue {
        serial: r.serial_number() as u64,
        code: maybe(r.insertion_code()),
        conformers: r.conformers().map(conformer).collect(),
    };
    let chain = |c: &Chain| plain::Chain { id: pack(c.id()), residues: c.residues().map(residue).collect() };
    let model = |m: &Model| plain::Model { serial: m.serial_number() as u64, chains: m.chains().map(chain).collect() };
    p.models().map(model).collect()
}

// ---- trees

// A tree as a crate's search; the package has the same names.
macro_rules! searches {
    ($crate_name:ident) => {
        fn unpacked(word: u64) -> String {
            word.to_be_bytes().iter().take_while(|b| **b != 0).map(|b| *b as char).collect()
        }

        fn maybe(word: u64) -> Option<String> {
            (word != 0).then(|| unpacked(word))
        }

        fn term(code: u64, p: u64, q: u64) -> $crate_name::Term {
            use $crate_name::{Element, Term};
            let f = f64::from_bits;
            match code {
                1 => Term::ModelSerialNumber(p as usize),
                2 => Term::ModelSerialNumberRange(p as usize, q as usize),
                3 => Term::ChainId(unpacked(p)),
                4 => Term::ChainIdRange(unpacked(p), unpacked(q)),
                5 => Term::ResidueSerialNumber(p as isize),
                6 => Term::ResidueSerialNumberRange(p as isize, q as isize),
                7 => Term::ResidueInsertionCode(maybe(p)),
                8 => Term::ResidueId(p as isize, maybe(q)),
                9 => Term::ConformerName(unpacked(p)),
                10 => Term::ConformerAlternativeLocation(maybe(p)),
                11 => Term::ConformerId(unpacked(p), maybe(q)),
                12 => Term::AtomSerialNumber(p as usize),
                13 => Term::AtomSerialNumberRange(p as usize, q as usize),
                14 => Term::AtomName(unpacked(p)),
                15 => Term::Element(Element::new(p as usize).unwrap()),
                16 => Term::BFactor(f(p)),
                17 => Term::BFactorRange(f(p), f(q)),
                18 => Term::Occupancy(f(p)),
                19 => Term::OccupancyRange(f(p), f(q)),
                20 => Term::Backbone,
                21 => Term::SideChain,
                _ => Term::Hetero,
            }
        }

        pub fn search(tree: &crate::plain::Tree) -> $crate_name::Search {
            use crate::plain::Tree;
            use $crate_name::{Ops, Search};
            match tree {
                Tree::Term(c, p, q) => Search::Single(term(*c, *p, *q)),
                Tree::Known(b) => Search::Known(*b),
                Tree::Not(a) => Search::Not(Box::new(search(a))),
                Tree::Ops(o, a, b) => {
                    let o = match o {
                        23 => Ops::And,
                        24 => Ops::Or,
                        _ => Ops::Xor,
                    };
                    Search::Ops(o, Box::new(search(a)), Box::new(search(b)))
                }
            }
        }
    };
}

searches!(pdbtbx);

// Change request §8: "The crate's side of the comparison gets And Not Hetero on both terms."
fn and_not_hetero(tree: &plain::Tree) -> plain::Tree {
    use plain::Tree;
    match tree {
        Tree::Term(20 | 21, _, _) => Tree::Ops(23, Box::new(tree.clone()), Box::new(Tree::Not(Box::new(Tree::Term(22, 0, 0))))),
        Tree::Term(..) | Tree::Known(_) => tree.clone(),
        Tree::Not(a) => Tree::Not(Box::new(and_not_hetero(a))),
        Tree::Ops(o, a, b) => Tree::Ops(*o, Box::new(and_not_hetero(a)), Box::new(and_not_hetero(b))),
    }
}

// The search that the crate is given for a tree.
pub fn search_for(tree: &plain::Tree) -> pdbtbx::Search {
    search(&and_not_hetero(tree))
}

// The hits of the crate's find at a start of none to four indexes, each part numbered as its record is. The crate's hits say what stands
// below the start; the start and what stands above it are put before that.
pub fn find(p: &PDB, start: &[u64], search: pdbtbx::Search) -> Vec<[u64; 5]> {
    use pdbtbx::{ContainsAtomConformer, ContainsAtomConformerResidue, ContainsAtomConformerResidueChain, ContainsAtomConformerResidueChainModel};
    let mut numbers = std::collections::HashMap::new();
    let mut number = |part: *const ()| {
        let n = numbers.len() as u64;
        numbers.insert(part, n);
    };
    for m in p.models() {
        number(m as *const _ as *const ());
        for c in m.chains() {
            number(c as *const _ as *const ());
            for r in c.residues() {
                number(r as *const _ as *const ());
                for f in r.conformers() {
                    number(f as *const _ as *const ());
                    f.atoms().for_each(|a| number(a as *const _ as *const ()));
                }
            }
        }
    }
    macro_rules! numbered {
        ($($part:expr),*) => { [$(numbers[&($part as *const _ as *const ())]),*] };
    }
    let index = |level: usize| start[level] as usize;
    if start.is_empty() {
        return p.find(search).map(|h| numbered!(h.model(), h.chain(), h.residue(), h.conformer(), h.atom())).collect();
    }
    let m = p.model(index(0)).unwrap();
    if start.len() == 1 {
        return m.find(search).map(|h| numbered!(m, h.chain(), h.residue(), h.conformer(), h.atom())).collect();
    }
    let c = m.chain(index(1)).unwrap();
    if start.len() == 2 {
        return c.find(search).map(|h| numbered!(m, c, h.residue(), h.conformer(), h.atom())).collect();
    }
    let r = c.residue(index(2)).unwrap();
    if start.len() == 3 {
        return r.find(search).map(|h| numbered!(m, c, r, h.conformer(), h.atom())).collect();
    }
    let f = r.conformer(index(3)).unwrap();
    f.find(search).map(|a| numbered!(m, c, r, f, a)).collect()
}
