// Finds from every start of a small store in which a part of each level is empty, and from where nothing stands; the refusals in their
// order; and stores that are spoilt.
use crate::plain::{self, children, pack, positions, Machine};
use crate::port::{self, Call, Find};
use crate::random::Random;
use crate::sides::{self, Counts, Sides};
use crate::trees::{self, STARTS};

// Finds on words that hold anything.
#[derive(Default)]
pub struct Spoilt {
    finds: u64,
    refused: u64,
}

impl Spoilt {
    pub fn print(&self, name: &str) {
        println!("{name}: no disagreement");
        println!("  finds {}, refused with 1 or 2 {}", self.finds, self.refused);
    }
}

// Without atoms: in model 0 residue 1 of chain 0 and the conformer of chain 1, chain 1 of model 1, and model 2.
pub fn sample(atoms: [(&str, u64); 3]) -> Sides {
    let mut sides = trees::sample(atoms);
    let atom = || Call::RemoveAtom([0, 1, 0, 0, 0]);
    let calls = [Call::RemoveConformer([0, 0, 1, 0]), atom(), atom(), atom(), Call::RemoveResidue([1, 1, 0]), Call::AddModel(3)];
    calls.iter().for_each(|call| assert_eq!(sides.edit(call, &mut Counts::default()).result, 0));
    sides
}

// A node of each term, which mostly tells parts of the sample apart, and of each constant; alone and under Not.
fn nodes() -> Vec<Vec<u64>> {
    let (a, ala, n, half, one) = (pack(b"A"), pack(b"ALA"), pack(b"N"), 0.5f64.to_bits(), 1f64.to_bits());
    let above =
        [[1, 2, 0], [2, 0, 1], [3, a, 0], [4, a, a], [5, 7, 0], [6, 8, 9], [7, 0, 0], [8, 8, 0], [9, ala, 0], [10, 0, 0], [11, ala, 0]];
    let atom = [[12, 9, 0], [13, 1, 10], [14, n, 0], [15, 7, 0], [16, half, 0], [17, one, one], [18, half, 0], [19, half, one]];
    let others = [20, 21, 22, 27, 28].map(|code| [code, 0, 0]);
    let all = above.iter().chain(&atom).chain(&others);
    all.flat_map(|node| [node.to_vec(), [&node[..], &[26, 0, 0]].concat()]).collect()
}

// Each start of so many indexes with one of them past the end of its list.
pub fn missing(m: &Machine, indexes: usize) -> Vec<Vec<u64>> {
    let mut all = Vec::new();
    for start in positions(m, indexes) {
        for level in 0..indexes {
            let n = children(m, &start[..level]);
            for index in [n, n + 1, start[level] | 1 << 32, 1 << 60, 1 << 63, u64::MAX] {
                all.push(start.clone());
                all.last_mut().unwrap()[level] = index;
            }
        }
    }
    all
}

// Into outputs that are long, exact, a word short and empty.
fn every_start(sides: &Sides, counts: &mut Counts) {
    let m = &sides.judges.machine;
    for (indexes, tree) in (0..=4).flat_map(|n| nodes().into_iter().map(move |tree| (n, tree))) {
        for start in positions(m, indexes) {
            let words = 5 * sides.find(&start, &tree, 200, counts).hits as usize;
            assert_eq!(sides.find(&start, &tree, words, counts).result, 0);
            if words > 0 {
                assert_eq!([words - 1, 0].map(|room| sides.find(&start, &tree, room, counts).result), [10; 2]);
            }
        }
        for start in missing(m, indexes) {
            assert_eq!(sides.find(&start, &tree, 200, counts).result, 5);
        }
    }
}

// On words that hold anything.
fn find(store: &[u64], start: &[u64], tree: &[u64], room: usize, counts: &mut Spoilt) -> Find {
    let read = plain::read_store(store);
    let read = read.as_ref().map_err(|result| *result);
    assert_eq!(port::check(store), read.err().unwrap_or(0), "the layout check of {store:?}");
    counts.finds += 1;
    counts.refused += read.is_err() as u64;
    sides::find(store, read, start, tree, room).0
}

fn with(store: &[u64], i: usize, word: u64) -> Vec<u64> {
    let mut store = store.to_vec();
    store[i] = word;
    store
}

// The first that there is cause for, in the order 1, 2, 5, then 3 for a tree's length, 4, 3 for its shape, and 10.
fn refusals(store: &[u64], counts: &mut Spoilt) {
    let long = [28].into_iter().chain([26; 127]).flat_map(|code| [code, 0, 0]).collect();
    let stores = [(store.to_vec(), 0), (Vec::new(), 1), (vec![0; 1_200_002], 1), (with(store, 0, 2), 2), (with(store, 23, 1), 2)];
    let trees =
        [(vec![28, 0, 0], 0), (Vec::new(), 3), (vec![29, 0, 0, 0], 3), (long, 3), (vec![26, 0, 1], 4), (vec![28, 0, 0, 28, 0, 0], 3)];
    let here = STARTS.map(|start| (start.to_vec(), 0));
    let missing = STARTS[1..].iter().map(|start| ([&start[..start.len() - 1], &[3]].concat(), 5));
    for (start, no_start) in here.into_iter().chain(missing) {
        for ((store, bad_store), (tree, bad_tree)) in stores.iter().flat_map(|s| trees.iter().map(move |t| (s, t))) {
            for (room, short) in [(200, 0), (14, 10)] {
                let first = [*bad_store, no_start, *bad_tree, short].into_iter().find(|refusal| *refusal != 0);
                let answer = find(store, &start, tree, room, counts);
                assert_eq!(answer.result, first.unwrap_or(0), "{tree:?} from {start:?}, {room} words, the store's {bad_store}");
            }
        }
    }
}

// Every word changed to telling ones, and the store cut short at every word.
fn every_word(store: &[u64], counts: &mut Spoilt) {
    let values = [0, 1, 2, 3, 4, 5, 6, 12, 24, 119, pack(b"A"), pack(b"\x7f"), f64::NAN.to_bits(), u64::MAX];
    for (start, i) in STARTS.iter().flat_map(|start| (0..store.len()).map(move |i| (start, i))) {
        for value in values {
            find(&with(store, i, value), start, &[20, 0, 0], 200, counts);
        }
        find(&store[..i], start, &[20, 0, 0], 200, counts);
    }
}

pub fn compare() {
    let (sides, mut counts, mut stores) = (sample(trees::ATOMS), Counts::default(), Spoilt::default());
    every_start(&sides, &mut counts);
    counts.print("every start of a small store, and each with an index past the end");
    refusals(&sides.store, &mut stores);
    every_word(&sides.store, &mut stores);
    stores.print("the order of a find's refusals, and stores with a word spoilt or cut short");
}

// A store with a word changed, cut short, or of junk alone.
pub fn compare_spoilt(r: &mut Random, sides: &Sides, counts: &mut Spoilt) {
    let mut store = sides.store.clone();
    let i = r.below(store.len() as u64) as usize;
    match r.below(6) {
        0 => store.truncate(i),
        1 => store.fill_with(|| r.junk()),
        _ => store[i] = r.junk(),
    }
    find(&store, &r.start(&sides.judges.machine), &r.tree(), r.below(200) as usize, counts);
}
