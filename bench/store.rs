// Structures of the lab's shape: 4 chains of residues of 10 atoms. The largest that fits a store has 2,000 residues in a chain.
pub const CHAINS: u64 = 4;
pub const RESIDUES: u64 = 2_000;
pub const ATOMS: u64 = 10;

pub fn records(residues: u64) -> usize {
    (1 + CHAINS + CHAINS * residues * (2 + ATOMS)) as usize
}

pub const RESIDUE_NAMES: [&str; 8] = ["ALA", "GLY", "LEU", "SER", "HOH", "VAL", "LYS", "PHE"];
pub const ATOM_NAMES: [&str; 10] = ["N", "CA", "C", "O", "CB", "CG", "CD1", "CD2", "H", "HA"];
pub const ELEMENTS: [u64; 10] = [7, 6, 6, 8, 6, 6, 6, 6, 1, 1];

pub fn pack(text: &str) -> u64 {
    let mut bytes = [0u8; 8];
    bytes[..text.len()].copy_from_slice(text.as_bytes());
    u64::from_be_bytes(bytes)
}

#[derive(Clone)]
pub struct AtomAt {
    pub serial: u64,
    pub chain: String,
    pub residue: u64,
    pub conformer: &'static str,
    pub name: &'static str,
    pub element: u64,
    pub b_factor: f64,
    pub hetero: bool,
}

// Every atom, in hierarchy order.
pub fn atoms(residues: u64) -> Vec<AtomAt> {
    let mut all = Vec::new();
    for c in 0..CHAINS {
        for r in 0..residues {
            for a in 0..ATOMS {
                let serial = all.len() as u64 + 1;
                all.push(AtomAt {
                    serial,
                    chain: ((b'A' + c as u8) as char).to_string(),
                    residue: r + 1,
                    conformer: RESIDUE_NAMES[(r % 8) as usize],
                    name: ATOM_NAMES[a as usize],
                    element: ELEMENTS[a as usize],
                    b_factor: (serial % 100) as f64,
                    hetero: r % 8 == 4,
                });
            }
        }
    }
    all
}

fn record(words: &mut Vec<u64>, fields: &[u64]) {
    words.extend_from_slice(fields);
    words.extend(std::iter::repeat(0).take(12 - fields.len()));
}

// Its words, with no room to spare but for `spare` records.
pub fn words(residues: u64, spare: usize) -> Vec<u64> {
    let room = (records(residues) + spare) * 12;
    let mut w = Vec::with_capacity(room + 1);
    record(&mut w, &[1, 1]);
    let (mut chain, mut residue) = (String::new(), 0);
    for a in atoms(residues) {
        if a.chain != chain {
            record(&mut w, &[2, pack(&a.chain)]);
            chain = a.chain.clone();
            residue = 0;
        }
        if a.residue != residue {
            record(&mut w, &[3, a.residue]);
            record(&mut w, &[4, pack(a.conformer)]);
            residue = a.residue;
        }
        let b = a.b_factor.to_bits();
        record(&mut w, &[5, a.serial, pack(a.name), 0, 0, 0, 1f64.to_bits(), b, a.element, 0, a.hetero as u64]);
    }
    let end = w.len() as u64;
    assert_eq!(end as usize, records(residues) * 12);
    w.resize(room, 0);
    w.push(end);
    w
}

// The words of so many such models, all alike, with no room to spare.
pub fn models(models: usize, residues: u64) -> Vec<u64> {
    let one = words(residues, 0);
    let mut w = one[..one.len() - 1].repeat(models);
    w.push(w.len() as u64);
    w
}

// The number of records up to a start that is there, its own among them, by one pass over their kinds.
pub fn records_to(words: &[u64], start: &[u64]) -> usize {
    let mut record = 0;
    for (kind, index) in (1..).zip(start) {
        let mut left = index + 1;
        while left > 0 {
            left -= (words[12 * record] == kind) as u64;
            record += 1;
        }
    }
    record
}

// The least time of some runs, in nanoseconds.
pub fn least(runs: usize, mut f: impl FnMut()) -> f64 {
    (0..runs)
        .map(|_| {
            let t = std::time::Instant::now();
            f();
            t.elapsed().as_nanos() as f64
        })
        .fold(f64::INFINITY, f64::min)
}

// The same for several things in turn, in three rounds, so that a spell of other load meets all of them.
pub fn least_each<const N: usize>(runs: usize, mut f: [&mut dyn FnMut(); N]) -> [f64; N] {
    let mut times = [f64::INFINITY; N];
    for _ in 0..3 {
        for (time, f) in times.iter_mut().zip(&mut f) {
            *time = time.min(least(runs, f));
        }
    }
    times
}

// The same with something made anew, untimed, before each run.
pub fn least_on<T>(runs: usize, mut make: impl FnMut() -> T, mut f: impl FnMut(&mut T)) -> f64 {
    (0..runs)
        .map(|_| {
            let mut on = make();
            let t = std::time::Instant::now();
            f(&mut on);
            t.elapsed().as_nanos() as f64
        })
        .fold(f64::INFINITY, f64::min)
}
