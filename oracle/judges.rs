// What a call must answer and leave: by the crate where it can judge, by the plain reading of document 01 everywhere.
use crate::original;
use crate::plain::{self, Machine};
use crate::port::{Call, Edit, Optional};
use pdbtbx::PDB;

pub struct Judges {
    pub length: usize,
    pub machine: Machine,
    // None after an accepted call outside the domain of the comparison.
    pub pdb: Option<PDB>,
}

// "identifiers of at most 8 bytes after trimming, all bytes below 128", and what the crate's types can hold.
fn in_domain(call: &Call) -> bool {
    let short = |t: &[u8]| std::str::from_utf8(t).is_ok_and(|t| t.is_ascii() && t.trim().len() <= 8);
    let optional = |o: &Optional| o.flag == 0 || o.flag == 1 && short(&o.text);
    let given = |o: &Optional| o.flag == 0 || o.flag == 1 && o.text.is_ascii();
    match call {
        Call::AddAtom { chain, code, conformer, location, name, values, .. } => {
            let texts = short(chain) && optional(code) && short(conformer) && optional(location) && short(name);
            texts && values.element <= 118 && values.hetero <= 1
        }
        Call::RemoveChainById(_, id) => id.is_ascii(),
        Call::RemoveResidueById(_, _, code) => given(code),
        Call::RemoveConformerById(_, name, location) => name.is_ascii() && given(location),
        Call::SetElement(_, element) => (1..=118).contains(element),
        _ => true,
    }
}

impl Judges {
    pub fn new(length: usize) -> Self {
        Judges { length, machine: Vec::new(), pdb: Some(PDB::new()) }
    }

    // The answer, and whether the crate gave it.
    pub fn edit(&mut self, call: &Call) -> (Edit, bool) {
        let before = self.machine.clone();
        let answer = plain::edit(&mut self.machine, self.length, call);
        let in_domain = in_domain(call);
        if in_domain && answer.result != 5 {
            let refused = if matches!(answer.result, 6 | 7 | 14 | 15 | 16) { answer.result } else { 0 };
            assert_eq!(original::refusal(call), refused, "the crate's refusal of {call:?}");
        }
        if answer.result != 0 {
            return (answer, false);
        }
        if !in_domain {
            self.pdb = None;
        }
        let Some(pdb) = &mut self.pdb else {
            return (answer, false);
        };
        let atoms = pdb.total_atom_count();
        let found = original::edit(pdb, call) as u64;
        let by_crate = Edit { result: 0, found, removed: atoms.saturating_sub(pdb.total_atom_count()) as u64 };
        let machine = original::machine(pdb);
        assert_eq!((by_crate, &machine), (answer, &self.machine), "the crate's answer and structure after {call:?} on {before:?}");
        self.machine = machine;
        (by_crate, true)
    }
}
