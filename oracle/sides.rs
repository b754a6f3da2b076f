// The port beside its judges: everything is compared after each call, and a disagreement stops the run and prints the call.
use crate::judges::Judges;
use crate::plain::Machine;
use crate::port::{self, Call, Edit, Find, Lookup, Optional};
use crate::{hetero, original, plain};

#[derive(Default)]
pub struct Counts {
    edits: u64,
    accepted: u64,
    edits_by_crate: u64,
    finds: u64,
    // By the start's number of indexes.
    finds_by_crate: [u64; 5],
    no_such_start: u64,
    hetero: hetero::Counts,
    lookups: u64,
}

impl Counts {
    pub fn print(&self, name: &str) {
        println!("{name}: no disagreement");
        println!("  edits {}, accepted {}, of these by the crate {}", self.edits, self.accepted, self.edits_by_crate);
        println!("  finds {}, of these from where nothing stands {}; lookups {}", self.finds, self.no_such_start, self.lookups);
        let [structure, model, chain, residue, conformer] = self.finds_by_crate;
        print!("  finds accepted and by the crate, from the structure {structure}, from a model {model}, from a chain {chain}, ");
        println!("from a residue {residue}, from a conformer {conformer}");
        self.hetero.print();
    }
}

// On words that hold this machine, or that are refused so, with an output of so many words; the answer and the output.
pub fn find(store: &[u64], read: Result<&Machine, u64>, start: &[u64], tree: &[u64], room: usize) -> (Find, Vec<u64>) {
    let mut ours = vec![7u64; room];
    let mut by_plain = ours.clone();
    let answer = port::find(store, start, tree, &mut ours);
    let expected = match read {
        Ok(m) => plain::find(m, start, tree, &mut by_plain),
        Err(result) => Find { result, hits: 0 },
    };
    assert_eq!(answer, expected, "find {tree:?} from {start:?} on {store:?}");
    assert_eq!(ours, by_plain, "hits of {tree:?} from {start:?} on {store:?}");
    (answer, ours)
}

pub struct Sides {
    pub store: Vec<u64>,
    pub judges: Judges,
}

impl Sides {
    pub fn open(mut store: Vec<u64>) -> Self {
        assert_eq!(port::open(&mut store), 0);
        let judges = Judges::new(store.len());
        Sides { store, judges }
    }

    pub fn edit(&mut self, call: &Call, counts: &mut Counts) -> Edit {
        let before = self.store.clone();
        let ours = port::edit(&mut self.store, call);
        let (answer, by_crate) = self.judges.edit(call);
        assert_eq!(ours, answer, "answer of {call:?} on {before:?}");
        assert_eq!(self.store, plain::lay_out(&self.judges.machine, before.len()), "words after {call:?} on {before:?}");
        assert_eq!(port::check(&self.store), 0);
        counts.edits += 1;
        counts.accepted += (ours.result == 0) as u64;
        counts.edits_by_crate += by_crate as u64;
        ours
    }

    // From a start, with an output of so many words; the answer and the output.
    pub fn find_out(&self, start: &[u64], tree: &[u64], room: usize, counts: &mut Counts) -> (Find, Vec<u64>) {
        let (answer, out) = find(&self.store, Ok(&self.judges.machine), start, tree, room);
        counts.finds += 1;
        counts.no_such_start += (answer.result == 5) as u64;
        if let (Some(pdb), 0) = (&self.judges.pdb, answer.result) {
            let read = plain::read_tree(tree).unwrap();
            let hits = original::find(pdb, start, original::search_for(&read)).concat();
            assert_eq!(hits, out[..answer.hits as usize * 5], "the crate's hits of {tree:?} from {start:?} on {:?}", self.store);
            counts.finds_by_crate[start.len()] += 1;
            if hetero::asks_side(&read) {
                let before = original::find(pdb, start, original::search(&read)).concat();
                hetero::compare(&self.store, start, &before, &hits, &mut counts.hetero);
            }
        }
        (answer, out)
    }

    pub fn find(&self, start: &[u64], tree: &[u64], room: usize, counts: &mut Counts) -> Find {
        self.find_out(start, tree, room, counts).0
    }

    // Into words that hold anything.
    pub fn copy(&self, mut words: Vec<u64>) {
        let records = plain::records(&self.judges.machine);
        let expected = match words.len() {
            0 => (1, words.clone()),
            n if n <= records.len() => (8, words.clone()),
            n => (0, plain::lay_out(&self.judges.machine, n)),
        };
        let answer = port::copy(&self.store, &mut words);
        assert_eq!((answer, words), expected, "copy of {:?}", self.store);
    }

    pub fn lookup(&self, serial: u64, location: &Optional, counts: &mut Counts) -> Lookup {
        let ours = port::binary_find_atom(&self.store, serial, location);
        assert_eq!(ours, plain::lookup(&self.judges.machine, serial, location), "lookup {serial} {location:?} on {:?}", self.store);
        counts.lookups += 1;
        ours
    }
}
