// Lists of hits of trees that have Backbone or SideChain, beside the lists from before change request §8: those that the crate gives for the tree
// as it is, without And Not Hetero. The two differ in hetero atoms alone, "in conformers with one of the 31 names", and from a conformer
// "under any name".
use crate::plain::{self, Machine, Tree};

#[derive(Default)]
pub struct Counts {
    same: u64,
    changed: u64,
    // Atoms that a list has no longer, and atoms that it has now.
    lost: u64,
    gained: u64,
}

impl Counts {
    pub fn print(&self) {
        let Counts { same, changed, lost, gained } = self;
        if same + changed > 0 {
            print!("  lists by trees with Backbone or SideChain: {same} are what the crate's own terms give, {changed} aren't; ");
            println!("these lost {lost} hetero atoms and gained {gained}");
        }
    }
}

pub fn asks_side(tree: &Tree) -> bool {
    match tree {
        Tree::Term(code, _, _) => matches!(code, 20 | 21),
        Tree::Known(_) => false,
        Tree::Not(a) => asks_side(a),
        Tree::Ops(_, a, b) => asks_side(a) || asks_side(b),
    }
}

// The number of stored hetero atoms in conformers with one of the 31 names.
pub fn under_amino_names(m: &Machine) -> u64 {
    let conformers = m.iter().flat_map(|m| &m.chains).flat_map(|c| &c.residues).flat_map(|r| &r.conformers);
    let atoms = conformers.filter(|f| plain::is_amino_acid(f.name)).flat_map(|f| &f.atoms);
    atoms.filter(|a| a.values.hetero == 1).count() as u64
}

// By five, those that the other list doesn't have.
fn beyond<'a>(hits: &'a [u64], other: &[u64]) -> Vec<&'a [u64]> {
    hits.chunks(5).filter(|hit| other.chunks(5).all(|h| h != *hit)).collect()
}

pub fn compare(store: &[u64], start: &[u64], before: &[u64], after: &[u64], counts: &mut Counts) {
    let word = |record: u64, i: usize| store[12 * record as usize + i];
    let (lost, gained) = (beyond(before, after), beyond(after, before));
    for hit in lost.iter().chain(&gained) {
        assert_eq!(word(hit[4], 10), 1, "{hit:?} is hetero, in {before:?} or {after:?} alone on {store:?}");
        assert!(start.len() == 4 || plain::is_amino_acid(word(hit[3], 1)), "the conformer of {hit:?} from {start:?} on {store:?}");
    }
    *if before == after { &mut counts.same } else { &mut counts.changed } += 1;
    counts.lost += lost.len() as u64;
    counts.gained += gained.len() as u64;
}
