// Random calls and trees, biased to collisions, empties, joins and bad input.
use crate::plain::{children, pack, positions, Machine};
use crate::port::{Call, NewAtom, Optional};

pub struct Random(u64);

const CHAINS: [&[u8]; 8] = [b"A", b"B", b" A ", b"a", b"\tB", b"", b"AB", b"\x80"];
const CODES: [&[u8]; 9] = [b"A", b"a", b" A", b"B", b" ", b"", b"\x01", b"A\0", b"LONGERTHAN8"];
const NAMES: [&[u8]; 9] = [b"ALA", b"ala", b"HOH", b" GLY ", b"", b"A\t", b"NINELETRS", b"\xff", b"ALB"];
const ATOMS: [&[u8]; 10] = [b"N", b"CA", b"ca", b"XX", b"", b" O ", b"HA2", b"\x7f", b"TOOLONGNAME", b"\tC"];
const ELEMENTS: [u64; 5] = [1, 6, 7, 8, 118];
const FLOATS: [f64; 12] = [0.0, -0.0, 0.5, 1.0, 1.0 + f64::EPSILON, f64::EPSILON, 1e-200, -1.0, f64::MAX, f64::NAN, f64::INFINITY, 30.0];

fn lacks_element(m: &Machine, p: [u64; 5]) -> bool {
    let [i, c, r, f, a] = p.map(|index| index as usize);
    let atom = || m.get(i)?.chains.get(c)?.residues.get(r)?.conformers.get(f)?.atoms.get(a);
    atom().is_some_and(|a| a.values.element == 0)
}

impl Random {
    pub fn new(seed: u64) -> Self {
        Random(seed.wrapping_mul(0x9e37_79b9_7f4a_7c15) | 1)
    }

    pub fn word(&mut self) -> u64 {
        self.0 ^= self.0 << 13;
        self.0 ^= self.0 >> 7;
        self.0 ^= self.0 << 17;
        self.0.wrapping_mul(0x2545_f491_4f6c_dd1d)
    }

    pub fn below(&mut self, n: u64) -> u64 {
        (self.word() >> 11) % n
    }

    pub fn one_in(&mut self, n: u64) -> bool {
        self.below(n) == 0
    }

    fn pick<T: Copy>(&mut self, of: &[T]) -> T {
        of[self.below(of.len() as u64) as usize]
    }

    // Mostly one of the first few.
    fn text(&mut self, of: &[&[u8]]) -> Vec<u8> {
        let n = if self.one_in(12) { of.len() } else { 3 };
        self.pick(&of[..n]).to_vec()
    }

    pub fn small(&mut self) -> u64 {
        if self.one_in(40) { self.word() } else { self.below(5) }
    }

    // For some word of a list.
    pub fn junk(&mut self) -> u64 {
        match self.below(3) {
            0 => self.below(20),
            1 => self.pick(&[127, 128, 255, 256, 257, 1_024, 1_025, 1 << 32, 1 << 63, u64::MAX - 1, u64::MAX]),
            _ => self.word(),
        }
    }

    pub fn optional(&mut self) -> Optional {
        let flag = if self.one_in(40) { 2 + self.below(3) } else { self.below(2) };
        Optional { flag, text: self.text(&CODES) }
    }

    fn float(&mut self) -> u64 {
        let n = if self.one_in(30) { FLOATS.len() } else { 9 };
        let x = self.pick(&FLOATS[..n]);
        (if self.one_in(8) { x + f64::EPSILON / 2.0 } else { x }).to_bits()
    }

    fn values(&mut self) -> NewAtom {
        let element = if self.one_in(30) { 117 + self.below(4) } else { self.pick(&[0, 0, 1, 6, 7, 8]) };
        NewAtom {
            serial: self.small(),
            x: self.float(),
            y: 0,
            z: 0,
            occupancy: self.float(),
            b_factor: self.float(),
            element,
            charge: self.small(),
            hetero: if self.one_in(30) { 2 } else { self.below(2) },
        }
    }

    // Mostly one that trees ask for; else any, or none: 0, one beyond the last, or one that is good in its lowest bits alone.
    fn element(&mut self) -> u64 {
        match self.below(6) {
            0 => self.pick(&[0, 0, 119, 119, 120, 256 + 7, 1 << 32 | 7, 1 << 63 | 7, u64::MAX]),
            1 => 1 + self.below(118),
            _ => self.pick(&ELEMENTS),
        }
    }

    // An index of a list of n, or one beyond.
    fn index(&mut self, n: usize) -> u64 {
        if n == 0 || self.one_in(30) { self.pick(&[n as u64, n as u64 + 1, u64::MAX]) } else { self.below(n as u64) }
    }

    // The same, passing by most of the empty ones.
    fn full<T>(&mut self, list: &[T], is_empty: fn(&T) -> bool) -> u64 {
        let first = self.index(list.len());
        (0..3).fold(first, |i, _| if list.get(i as usize).is_some_and(is_empty) { self.index(list.len()) } else { i })
    }

    // Five indexes from the model down, each mostly of something that is there.
    fn position(&mut self, m: &Machine) -> [u64; 5] {
        let mut p = [0; 5];
        p[0] = self.full(m, |m| m.chains.is_empty());
        let chains = m.get(p[0] as usize).map_or(&[][..], |m| &m.chains);
        p[1] = self.full(chains, |c| c.residues.is_empty());
        let residues = chains.get(p[1] as usize).map_or(&[][..], |c| &c.residues);
        p[2] = self.full(residues, |r| r.conformers.is_empty());
        let conformers = residues.get(p[2] as usize).map_or(&[][..], |r| &r.conformers);
        p[3] = self.full(conformers, |f| f.atoms.is_empty());
        p[4] = self.index(conformers.get(p[3] as usize).map_or(0, |f| f.atoms.len()));
        p
    }

    // The same, drawn up to three times for an atom without an element.
    fn to_fill(&mut self, m: &Machine) -> [u64; 5] {
        let first = self.position(m);
        (0..2).fold(first, |p, _| if lacks_element(m, p) { p } else { self.position(m) })
    }

    // An index past the end of a list of n; also one whose lower 32 bits are an index of the list.
    fn beyond(&mut self, n: u64) -> u64 {
        let in_32_bits = self.below(n + 1) | 1 << 32;
        let large = self.word() | 1 << 63;
        self.pick(&[n, n, n + 1, in_32_bits, 1 << 31, 1 << 60, large, u64::MAX - 1, u64::MAX])
    }

    // A start of none to four indexes, from the model down, or of fewer where nothing stands so low. One of three that have an index is
    // missing: at some level its index lies past the end, and below that its indexes are any.
    pub fn start(&mut self, m: &Machine) -> Vec<u64> {
        let indexes = self.below(5);
        let is_missing = indexes > 0 && self.one_in(3);
        let standing = if is_missing { self.below(indexes) } else { indexes };
        let all = (0..=standing as usize).rev().map(|n| positions(m, n)).find(|all| !all.is_empty()).unwrap();
        let mut start = all[self.below(all.len() as u64) as usize].clone();
        if is_missing {
            start.push(self.beyond(children(m, &start)));
            start.resize_with(indexes as usize, || self.small());
        }
        start
    }

    // Two positions of so many indexes, mostly not the same.
    fn two<const N: usize>(&mut self, m: &Machine) -> [[u64; N]; 2] {
        let mut draw = || self.position(m)[..N].try_into().unwrap();
        let p = draw();
        [p, (0..4).fold(p, |q, _| if q == p { draw() } else { q })]
    }

    pub fn call(&mut self, m: &Machine) -> Call {
        let p = self.position(m);
        let (p2, p3, p4) = ([p[0], p[1]], [p[0], p[1], p[2]], [p[0], p[1], p[2], p[3]]);
        if m.is_empty() && !self.one_in(4) {
            return Call::AddModel(self.small());
        }
        match self.below(43) {
            1 => Call::RemoveChain(p2),
            2 => Call::RemoveResidue(p3),
            3 => Call::RemoveConformer(p4),
            4 => Call::RemoveAtom(p),
            5 => Call::RemoveChainById(p[0], self.text(&CHAINS)),
            6 => Call::RemoveResidueById(p2, self.small(), self.optional()),
            7 => Call::RemoveConformerById(p3, self.text(&NAMES), self.optional()),
            8 => Call::RemoveAtomBySerialNumber(p4, self.small()),
            9 => Call::RemoveAtomsBy(p[0], self.tree()),
            10 => Call::RemoveEmpty(p[0]),
            11 => {
                let [[i], [j]] = self.two(m);
                Call::JoinModels(i, j)
            }
            12 => {
                let [p, q] = self.two(m);
                Call::JoinChains(p, q)
            }
            13 => {
                let [p, q] = self.two(m);
                Call::JoinResidues(p, q)
            }
            14 => {
                let [p, q] = self.two(m);
                Call::JoinConformers(p, q)
            }
            15..=17 => Call::SetElement(self.to_fill(m), self.element()),
            0 | 18 | 19 => Call::AddModel(self.small()),
            _ => Call::AddAtom {
                model: p[0],
                chain: self.text(&CHAINS),
                residue: self.small().wrapping_sub(1),
                code: self.optional(),
                conformer: self.text(&NAMES),
                location: self.optional(),
                name: self.text(&ATOMS),
                values: self.values(),
            },
        }
    }

    // A packed text as a tree has it.
    fn packed(&mut self, of: &[&[u8]]) -> u64 {
        loop {
            let t = self.text(of);
            if t.len() <= 8 {
                return pack(&t);
            }
        }
    }

    pub fn node(&mut self, code: u64) -> [u64; 3] {
        let n = self.small();
        let (p, q) = match code {
            1 | 12 => (n, 0),
            2 | 13 => (n, n + self.below(3)),
            3 => (self.packed(&CHAINS), 0),
            4 => (self.packed(&CHAINS), self.packed(&CHAINS)),
            5 => (n.wrapping_sub(1), 0),
            6 => (n.wrapping_sub(2), n),
            7 | 10 => (self.packed(&CODES), 0),
            8 => (n.wrapping_sub(1), self.packed(&CODES)),
            9 => (self.packed(&NAMES), 0),
            11 => (self.packed(&NAMES), self.packed(&CODES)),
            14 => (self.packed(&ATOMS), 0),
            15 => (self.pick(&ELEMENTS), 0),
            16 | 18 => (self.float(), 0),
            17 | 19 => (self.float(), self.float()),
            _ => (0, 0),
        };
        [code, p, q]
    }

    // Mostly a good tree; else words of some kind.
    pub fn tree(&mut self) -> Vec<u64> {
        let mut words = Vec::new();
        let mut operands = 0;
        let nodes = if self.one_in(50) { 125 } else { 1 + self.below(9) };
        for _ in 0..nodes {
            let code = match self.below(4) {
                0 if operands >= 2 => 23 + self.below(3),
                1 if operands >= 1 => 26,
                _ if self.one_in(12) => 27 + self.below(2),
                _ => 1 + self.below(22),
            };
            operands += match code {
                23..=25 => -1,
                26 => 0,
                _ => 1,
            };
            words.extend(self.node(code));
        }
        while operands > 1 {
            words.extend([23 + self.below(3), 0, 0]);
            operands -= 1;
        }
        if self.one_in(10) {
            let i = self.below(words.len() as u64) as usize;
            words[i] = self.pick(&[0, 1, 22, 23, 26, 28, 29, u64::MAX]);
        }
        if self.one_in(20) {
            words.truncate(self.below(words.len() as u64 + 1) as usize);
        }
        words
    }
}
