// Random structures whose fields mostly fit the columns of a PDB line.
use crate::plain::{pack, Atom, Chain, Conformer, Machine, Model, Residue};
use crate::port::NewAtom;
use crate::random::Random;

// How often a field is too wide: in one of so many, or in none.
pub type Wide = Option<u64>;

fn is_wide(r: &mut Random, wide: Wide) -> bool {
    wide.is_some_and(|n| r.one_in(n))
}

// Bytes of 33 to 126, from the least number to the most, or more up to 8 where it is wide.
fn bytes(r: &mut Random, least: u64, most: u64, wide: Wide) -> Vec<u8> {
    let length = if is_wide(r, wide) { most + 1 + r.below(8 - most) } else { least + r.below(most + 1 - least) };
    (0..length).map(|_| (33 + r.below(94)) as u8).collect()
}

fn raised(r: &mut Random, least: u64, most: u64, wide: Wide) -> u64 {
    pack(&bytes(r, least, most, wide).to_ascii_uppercase())
}

fn number(r: &mut Random, low: i64, high: i64, wide: Wide) -> u64 {
    match is_wide(r, wide) {
        true if r.one_in(2) => r.word(),
        true => (if r.one_in(2) { high + 1 } else { low - 1 }) as u64,
        false => (low + r.below((high - low + 1) as u64) as i64) as u64,
    }
}

// So many places behind the point and a size in `low..=high` of its last place: at such a number, halfway to the next where that is an f64,
// or between.
fn float(r: &mut Random, places: i32, low: i64, high: i64, wide: Wide) -> u64 {
    let any = f64::from_bits(r.word());
    if is_wide(r, wide) && any.is_finite() {
        return any.to_bits();
    }
    let one = 10f64.powi(places);
    let x = (low + r.below((high - low + 1) as u64) as i64) as f64 / one;
    // Odd sixteenths lie halfway at three places, odd eighths at two.
    let halves = 2f64.powi(places + 1);
    match r.below(4) {
        0 => (x * halves).trunc() / halves,
        1 => x + (r.below(1_001) as f64 - 500.0) / 1_001.0 / one,
        _ => x,
    }
    .to_bits()
}

fn atom(r: &mut Random, wide: Wide) -> Atom {
    let coordinate = |r: &mut Random| float(r, 3, -999_999, 9_999_999, wide);
    let small = |r: &mut Random| float(r, 2, -9_999, 99_999, wide);
    let values = NewAtom {
        serial: number(r, 0, 99_999, wide),
        x: coordinate(r),
        y: coordinate(r),
        z: coordinate(r),
        occupancy: small(r),
        b_factor: small(r),
        element: r.below(119),
        charge: number(r, -9, 9, wide),
        hetero: r.below(2),
    };
    Atom { name: raised(r, 0, 4, wide), values }
}

fn some<T>(r: &mut Random, most: u64, mut make: impl FnMut(&mut Random) -> T) -> Vec<T> {
    (0..r.below(most + 1)).map(|_| make(r)).collect()
}

// Any of its parts may be empty.
pub fn machine(r: &mut Random, wide: Wide) -> Machine {
    some(r, 3, |r| Model {
        serial: number(r, 0, 9_999, wide),
        chains: some(r, 3, |r| Chain {
            id: pack(&bytes(r, 1, 1, wide)),
            residues: some(r, 3, |r| Residue {
                serial: number(r, -999, 9_999, wide),
                code: raised(r, 0, 1, wide),
                conformers: some(r, 2, |r| Conformer {
                    name: raised(r, 1, 3, wide),
                    location: raised(r, 0, 1, wide),
                    atoms: some(r, 4, |r| atom(r, wide)),
                }),
            }),
        }),
    })
}
