// compare [SEED] [LISTS] [READER]: the port beside pdbtbx's own files and a plain reading of document 01: small texts, bad names, trees,
// starts, elements and floats in full, then random lists of calls, each also as one call; and its PDB lines, written and read, beside plain
// readings of change requests §1 and §9 and, where the program READER is given, read back by gemmi. Run it in the repository's folder.
mod elements;
mod files;
mod fitting;
mod floats;
mod hetero;
mod identifiers;
mod judges;
mod junk;
mod lines_in;
mod list;
mod names;
#[macro_use]
mod original;
mod plain;
mod port;
mod random;
mod read_back;
mod reading;
mod reading_lines;
mod sides;
mod starts;
mod text;
mod trees;
mod writing;
use port::Call;
use random::Random;
use sides::{Counts, Sides};
use starts::Spoilt;

// The same calls as one list: the same answers and the same words. Then the list with some word changed.
fn as_one(r: &mut Random, length: usize, calls: &[Call], answers: &[u64], after: &[u64]) -> u64 {
    let words: Vec<u64> = calls.iter().flat_map(list::words).collect();
    let opened = vec![0u64; length];
    junk::compare(&opened, &words, &vec![7; answers.len() + r.below(4) as usize], Some((answers, after)));
    if answers.is_empty() {
        return 0;
    }
    let short = r.below(answers.len() as u64) as usize;
    junk::compare(&opened, &words, &vec![7; short], None);
    for _ in 0..4 {
        let mut spoilt = words.clone();
        let i = r.below(words.len() as u64) as usize;
        if r.one_in(3) {
            spoilt.truncate(i);
        } else {
            spoilt[i] = r.junk();
        }
        junk::compare(&opened, &spoilt, &vec![7; answers.len() + 30], None);
    }
    4
}

// What random lists come to.
#[derive(Default)]
struct Totals {
    counts: Counts,
    // Stored hetero atoms in conformers with one of the 31 names, at the ends of the lists.
    soaked: u64,
    elements: elements::Counts,
    stores: Spoilt,
    reads: reading::Counts,
    writes: writing::Counts,
}

// One random list; the number of spoilt ones made from it. The package reads at its end and at every eighth call.
fn list(r: &mut Random, totals: &mut Totals) -> u64 {
    let Totals { counts, soaked, elements, stores, reads, writes } = totals;
    let length = 1 + r.below(30 * 12) as usize;
    let mut sides = Sides::open((0..length).map(|_| r.word()).collect());
    let (mut calls, mut answers) = (Vec::new(), Vec::new());
    for step in 0..r.below(60) {
        let call = r.call(&sides.judges.machine);
        let e = match call {
            Call::SetElement(p, element) => elements::compare_random(r, &mut sides, (p, element), counts, elements),
            _ => sides.edit(&call, counts),
        };
        answers.extend([e.result, e.found, e.removed]);
        calls.push(call);
        let tree = r.tree();
        let room = if r.one_in(8) { r.below(20) as usize } else { length };
        let start = r.start(&sides.judges.machine);
        let found = sides.find(&start, &tree, room, counts);
        let (serial, location) = (r.small(), r.optional());
        let looked_up = sides.lookup(serial, &location, counts);
        if step % 8 == 7 {
            reading::compare(&sides, reads);
            reading::lookup(&sides, serial, &location, &looked_up, reads);
            if found.result == 0 {
                reading::hits(&sides, &start, &tree, reads);
            }
        }
    }
    *soaked += hetero::under_amino_names(&sides.judges.machine);
    reading::compare(&sides, reads);
    writing::compare(&sides.store, &sides.judges.machine, writes);
    let other = r.below(30 * 12);
    sides.copy((0..other).map(|_| r.word()).collect());
    (0..4).for_each(|_| starts::compare_spoilt(r, &sides, stores));
    as_one(r, length, &calls, &answers, &sides.store)
}

fn main() {
    let args: Vec<String> = std::env::args().skip(1).collect();
    let number = |i: usize, default| args.get(i).map_or(default, |a| a.parse::<u64>().expect("a number"));
    let (seed, lists) = (number(0, 1), number(1, 100_000));
    println!("{} lists with a number in a header's place, or cut short: no disagreement", junk::headers());
    identifiers::compare().print("small texts in full");
    identifiers::compare_beyond_ascii();
    println!("characters above 127: the listed blanks differ, and no other");
    names::compare().print("names of an addition, each good or bad in three ways");
    trees::compare().print("small trees in full");
    starts::compare();
    elements::compare();
    floats::compare().print("floats, each against each");
    floats::compare_classes();
    writing::compare_formatting(&mut Random::new(seed)).print();
    writing::compare_limits();
    reading_lines::compare_limits();
    let mut totals = Totals::default();
    let random = |i: u64| Random::new(seed.wrapping_mul(1_000_003).wrapping_add(i));
    let spoilt: u64 = (0..lists).map(|i| list(&mut random(i), &mut totals)).sum();
    let Totals { counts, soaked, elements, stores, mut reads, writes } = totals;
    counts.print(&format!("seed {seed}, {lists} random lists and {spoilt} spoilt ones"));
    println!("  hetero atoms under names of amino acids, at the ends of the lists: {soaked}");
    elements.print();
    stores.print("the stores that they leave, each spoilt in four ways");
    let mut places = Counts::default();
    (0..lists / 10).for_each(|i| reading::compare_places(&mut random(i), &mut places, &mut reads));
    places.print(&format!("seed {seed}, {} structures of atoms in random places", lists / 10));
    println!("{} names of conformers and atoms, in the package's tables as in the crate's", reading::compare_tables());
    reads.print();
    writes.print("after each random list");
    let mut writes = writing::Counts::default();
    (0..lists).for_each(|i| writing::compare_random(&mut random(i), &mut writes));
    writes.print(&format!("seed {seed}, {lists} random structures, each also with a word spoilt"));
    let mut reads = reading_lines::Counts::default();
    (0..lists).for_each(|i| reading_lines::compare_random(&mut random(i), &mut reads));
    reads.print(&format!("seed {seed}, texts of {lists} random structures, whole, in another order and spoilt"));
    files::compare(args.get(2), &mut random(0));
    if let Some(reader) = args.get(2) {
        read_back::compare(reader, lists / 20, random);
    }
}
