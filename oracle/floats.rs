// B-factors and occupancies each against each, in the float terms; each float in each place of an addition; and patterns of every sign and
// exponent by Rust's own classes.
use crate::port::{self, Call, NewAtom};
use crate::sides::{Counts, Sides};
use std::num::FpCategory;

// Zero, the ends of the subnormal and normal numbers, 1, 0.5 and 2^-52 with what decides a rounded difference near them; each with its
// neighbours and negatives.
fn finite() -> Vec<u64> {
    let two = |n| 2f64.powi(n);
    let of = [
        f64::from_bits(1), f64::MIN_POSITIVE, two(-200), two(-106), two(-105), two(-104), two(-53), two(-52), two(-51), 0.5, 1.0, 2.0, 20.0,
        two(53), f64::MAX.next_down(),
    ];
    let mut all = vec![0.0, -0.0];
    for x in of {
        for y in [x.next_down(), x, x.next_up()].into_iter().filter(|y| *y != 0.0) {
            all.extend([y, -y]);
        }
    }
    all.into_iter().map(f64::to_bits).collect()
}

fn addition(values: NewAtom) -> Call {
    Call::add_atom(0, "A", 7, "ALA", "XX", values)
}

// One atom for each float, which is its B-factor; the occupancies run the other way.
fn sample(floats: &[u64], counts: &mut Counts) -> Sides {
    let mut sides = Sides::open(vec![0; (floats.len() + 4) * 12 + 1]);
    sides.edit(&Call::AddModel(1), counts);
    for (b_factor, occupancy) in floats.iter().zip(floats.iter().rev()) {
        let call = addition(NewAtom { b_factor: *b_factor, occupancy: *occupancy, ..NewAtom::default() });
        assert_eq!(sides.edit(&call, counts).result, 0);
    }
    sides
}

// An atom for each of its five floats, which has these bits.
fn in_each_place(bits: u64) -> [NewAtom; 5] {
    [
        NewAtom { x: bits, ..NewAtom::default() },
        NewAtom { y: bits, ..NewAtom::default() },
        NewAtom { z: bits, ..NewAtom::default() },
        NewAtom { occupancy: bits, ..NewAtom::default() },
        NewAtom { b_factor: bits, ..NewAtom::default() },
    ]
}

fn one_model(counts: &mut Counts) -> Sides {
    let mut sides = Sides::open(vec![0; 9 * 12 + 1]);
    sides.edit(&Call::AddModel(1), counts);
    sides
}

fn additions(floats: &[u64], counts: &mut Counts) {
    for f in floats.iter().copied() {
        let mut sides = one_model(counts);
        for values in in_each_place(f) {
            sides.edit(&addition(values), counts);
        }
    }
}

pub fn compare() -> Counts {
    let mut counts = Counts::default();
    let finite = finite();
    let others = [f64::INFINITY.to_bits(), f64::NEG_INFINITY.to_bits(), f64::NAN.to_bits(), (-f64::NAN).to_bits(), 0x7ff0_0000_0000_0001];
    let all = [&finite[..], &others].concat();
    let sides = sample(&finite, &mut counts);
    let room = sides.store.len();
    for p in &all {
        for (equal, range) in [(16, 17), (18, 19)] {
            sides.find(&[], &[equal, *p, 0], room, &mut counts);
            sides.find(&[], &[equal, *p, 0, 26, 0, 0], room, &mut counts);
            for q in &all {
                sides.find(&[], &[range, *p, *q], room, &mut counts);
            }
        }
    }
    additions(&all, &mut counts);
    counts
}

// Every sign and exponent, and fractions with none, one or all of their bits set.
fn patterns() -> impl Iterator<Item = u64> {
    let fractions: Vec<u64> = (0..52).map(|k| 1 << k).chain([0, (1 << 52) - 1]).collect();
    (0..1 << 12).flat_map(move |high: u64| fractions.clone().into_iter().map(move |fraction| high << 52 | fraction))
}

// In the request's order.
const CLASSES: [FpCategory; 5] = [FpCategory::Zero, FpCategory::Subnormal, FpCategory::Normal, FpCategory::Infinite, FpCategory::Nan];

// Change request §7: finite are zero, subnormal and normal. An addition takes no other pattern, and no store has one.
pub fn compare_classes() {
    let mut counts = Counts::default();
    let mut stored = one_model(&mut counts);
    assert_eq!(stored.edit(&addition(NewAtom::default()), &mut counts).result, 0);
    let mut classes = [0u64; 5];
    for bits in patterns() {
        let class = f64::from_bits(bits).classify();
        let place = CLASSES.iter().position(|c| *c == class).unwrap();
        classes[place] += 1;
        let mut sides = one_model(&mut counts);
        for (i, values) in in_each_place(bits).into_iter().enumerate() {
            let answer = sides.edit(&addition(values), &mut counts).result;
            assert_eq!(answer, if place < 3 { 0 } else { 7 }, "{class:?} {bits:x} as float {i} of an addition");
            let mut words = stored.store.clone();
            words[4 * 12 + 3 + i] = bits;
            assert_eq!(port::check(&words), if place < 3 { 0 } else { 2 }, "{class:?} {bits:x} as float {i} of a store");
        }
    }
    counts.print("floats of every sign and exponent");
    let [zero, subnormal, normal, infinite, not_a_number] = classes;
    println!("  zero {zero}, subnormal {subnormal}, normal {normal}, infinite {infinite}, not a number {not_a_number}; in five places each");
}
