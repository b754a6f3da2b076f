// `set_element`, at every position of a small store and in random lists, and the lists of hits before it and after it. Change request §6:
// "the hit list either stays the same or loses exactly that atom". Each of the two is compared with the crate's, too.
use crate::plain::positions;
use crate::port::{Call, Edit};
use crate::random::Random;
use crate::sides::{self, Sides};
use crate::starts::{self, missing};

#[derive(Default)]
pub struct Counts {
    set: u64,
    present: u64,
    no_position: u64,
    bad_element: u64,
    // Of the lists: where the element was set, and elsewhere.
    lost: u64,
    stayed: u64,
    untouched: u64,
    by_crate: u64,
}

impl Counts {
    pub fn print(&self) {
        let Counts { set, present, no_position, bad_element, lost, stayed, untouched, by_crate } = self;
        println!("  set_element: found 1 {set}, found 0 {present}, refused with 5 {no_position}, with 7 {bad_element}");
        let lists = lost + stayed + untouched;
        print!("  lists of hits before and after it {lists}, of these by the crate too {by_crate}; ");
        println!("with found 1 {lost} lost the atom and {stayed} stayed, others stayed");
    }

    fn add(&mut self, e: Edit) {
        *match (e.result, e.found) {
            (0, 0) => &mut self.present,
            (0, _) => &mut self.set,
            (5, _) => &mut self.no_position,
            _ => &mut self.bad_element,
        } += 1;
    }
}

// An atom's position, and an element for it.
type Setting = ([u64; 5], u64);

// A start and a tree.
type Query = (Vec<u64>, Vec<u64>);

// None where the find is refused.
fn hits(sides: &Sides, (start, tree): &Query) -> Option<Vec<u64>> {
    let (answer, mut out) = sides.find_out(start, tree, sides.store.len(), &mut sides::Counts::default());
    out.truncate(5 * answer.hits as usize);
    (answer.result == 0).then_some(out)
}

// The record numbers of a conformer's atoms, by five.
fn atoms(sides: &Sides, conformer: &[u64]) -> Vec<u64> {
    hits(sides, &(conformer.to_vec(), vec![28, 0, 0])).unwrap()
}

// Whether a list lost the atom that was set, if one was. It lost no other, and has nothing new.
fn lost(before: &[u64], after: &[u64], atom: Option<&[u64]>) -> bool {
    if before == after {
        return false;
    }
    let i = before.chunks(5).position(|hit| Some(hit) == atom).expect("the atom among the hits before");
    assert_eq!([&before[..5 * i], &before[5 * i + 5..]].concat(), after, "the hits without {atom:?}");
    true
}

fn set(sides: &mut Sides, (p, element): Setting, queries: &[Query], edits: &mut sides::Counts, counts: &mut Counts) -> Edit {
    let lists = |sides: &Sides| queries.iter().map(|query| hits(sides, query)).collect::<Vec<_>>();
    let before = lists(sides);
    let e = sides.edit(&Call::SetElement(p, element), edits);
    counts.add(e);
    let atoms = if e.found == 1 { atoms(sides, &p[..4]) } else { Vec::new() };
    let atom = atoms.chunks(5).nth(p[4] as usize);
    for (before, after) in before.iter().zip(&lists(sides)) {
        let (Some(before), Some(after)) = (before, after) else {
            assert_eq!(before, after, "a find that is refused before it or after it alone");
            continue;
        };
        *match (e.found, lost(before, after, atom)) {
            (_, true) => &mut counts.lost,
            (1, false) => &mut counts.stayed,
            _ => &mut counts.untouched,
        } += 1;
        counts.by_crate += sides.judges.pdb.is_some() as u64;
    }
    e
}

// Four random trees, most of them joined with an element, from starts that mostly hold the position.
pub fn compare_random(r: &mut Random, sides: &mut Sides, new: Setting, edits: &mut sides::Counts, counts: &mut Counts) -> Edit {
    let (p, _) = new;
    let mut query = || {
        let start = if r.one_in(4) { r.start(&sides.judges.machine) } else { p[..r.below(5) as usize].to_vec() };
        let mut tree = r.tree();
        if !r.one_in(4) {
            tree.extend(r.node(15));
            tree.extend([26, 0, 0].repeat(r.below(2) as usize));
            tree.extend([23 + r.below(3), 0, 0]);
        }
        (start, tree)
    };
    let queries = [query(), query(), query(), query()];
    set(sides, new, &queries, edits, counts)
}

// Three elements and Backbone, each under Not too: alone, and by two under each operator.
fn trees() -> Vec<Vec<u64>> {
    let terms = [[15, 1, 0], [15, 7, 0], [15, 118, 0], [20, 0, 0]];
    let one: Vec<Vec<u64>> = terms.iter().flat_map(|t| [t.to_vec(), [&t[..], &[26, 0, 0]].concat()]).collect();
    let under = |operator| {
        let one = &one;
        one.iter().flat_map(move |a| one.iter().map(move |b| [&a[..], b, &[operator, 0, 0]].concat()))
    };
    let two: Vec<Vec<u64>> = (23..=25).flat_map(under).collect();
    [one, two].concat()
}

// The crate's clone of an atom without an element guesses one from its name, so this is made anew for each call.
fn sample() -> Sides {
    starts::sample([("N", 0), ("XX", 0), ("CB", 7)])
}

// At each atom, with every tree from every start; and where nothing stands, because of an index of each level.
pub fn compare() {
    let sides = sample();
    let m = &sides.judges.machine;
    let starts = (0..=4).flat_map(|indexes| positions(m, indexes));
    let queries: Vec<Query> = starts.flat_map(|start| trees().into_iter().map(move |tree| (start.clone(), tree))).collect();
    let mut at: Vec<([u64; 5], &[Query])> = Vec::new();
    let five = |p: &[u64], atom: u64| [p[0], p[1], p[2], p[3], atom];
    for p in positions(m, 4) {
        let n = atoms(&sides, &p).len() as u64 / 5;
        at.extend((0..n).map(|i| (five(&p, i), &queries[..])));
        at.extend([n, n + 1, 1 << 32, 1 << 63, u64::MAX].map(|i| (five(&p, i), &[][..])));
    }
    at.extend(missing(m, 4).iter().map(|p| (five(p, 0), &[][..])));
    let (mut edits, mut counts) = (sides::Counts::default(), Counts::default());
    for (p, queries) in at {
        for element in [0, 1, 7, 118, 119, u64::MAX] {
            set(&mut sample(), (p, element), queries, &mut edits, &mut counts);
        }
    }
    println!("an element at every position of a small store, and where nothing stands: no disagreement");
    counts.print();
}
