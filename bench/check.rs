// The layout check on the largest store against one plain pass that sums its words, in the same run.
use super::{port, store};
use std::hint::black_box;

// The least time of some runs on a good store, in nanoseconds.
pub fn time(words: &[u64], runs: usize) -> f64 {
    store::least(runs, || assert_eq!(black_box(port::check(black_box(words))), 0))
}

pub fn table() {
    let words = store::words(store::RESIDUES, 0);
    let runs = 200;
    let sum = store::least(runs, || {
        black_box(black_box(&words).iter().fold(0u64, |s, w| s.wrapping_add(*w)));
    });
    let check = time(&words, runs);
    let junk: Vec<u64> = (0..1000u64).map(|i| i.wrapping_mul(0x9e37_79b9_7f4a_7c15)).collect();
    println!(
        "length 0: {}; 1,200,002 words: {}; E above the trailer's index: {}; junk: {}",
        port::check(&[]),
        port::check(&vec![0; 1_200_002]),
        port::check(&[0, 0, 12]),
        port::check(&junk)
    );
    let records = store::records(store::RESIDUES);
    println!("{} records, {} words", records, words.len());
    println!("sum   {:8.0} ns", sum);
    println!("check {:8.0} ns, {:.2} times the sum, {:.2} ns per record", check, check / sum, check / records as f64);
}
