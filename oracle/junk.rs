// Lists of edits, good and spoilt, against a plain reading of their format (docs/FORMATS.md) over single calls.
use crate::port::{self, Apply, Call, NewAtom, Optional};
use crate::list;

// The parts behind the numbers: each a length and as many words, and no word more.
fn parts(mut words: &[u64], count: usize, bytes: bool) -> Option<Vec<Vec<u64>>> {
    let mut all = Vec::new();
    for _ in 0..count {
        let n = usize::try_from(*words.first()?).ok()?;
        let part = words.get(1..n.checked_add(1)?)?;
        if bytes && part.iter().any(|w| *w > 255) {
            return None;
        }
        all.push(part.to_vec());
        words = &words[1 + n..];
    }
    words.is_empty().then_some(all)
}

fn call(code: u64, words: &[u64]) -> Option<Call> {
    let (numbers, count) = match code {
        1 | 12 => (1, 0),
        2 => (13, 5),
        3 | 13 => (2, 0),
        4 => (3, 0),
        5 | 14 => (4, 0),
        6 | 10 => (5, 0),
        7 | 11 => (1, 1),
        8 => (4, 1),
        9 => (4, 2),
        15 | 17 => (6, 0),
        16 => (8, 0),
        _ => return None,
    };
    let n = words.get(..numbers)?;
    let p = parts(&words[numbers..], count, code != 11)?;
    let text = |i: usize| p[i].iter().map(|w| *w as u8).collect::<Vec<u8>>();
    let optional = |flag: usize, i: usize| Optional { flag: n[flag], text: text(i) };
    Some(match code {
        1 => Call::AddModel(n[0]),
        2 => Call::AddAtom {
            model: n[0],
            chain: text(0),
            residue: n[1],
            code: optional(2, 1),
            conformer: text(2),
            location: optional(3, 3),
            name: text(4),
            values: NewAtom {
                serial: n[4],
                x: n[5],
                y: n[6],
                z: n[7],
                occupancy: n[8],
                b_factor: n[9],
                element: n[10],
                charge: n[11],
                hetero: n[12],
            },
        },
        3 => Call::RemoveChain([n[0], n[1]]),
        4 => Call::RemoveResidue([n[0], n[1], n[2]]),
        5 => Call::RemoveConformer([n[0], n[1], n[2], n[3]]),
        6 => Call::RemoveAtom([n[0], n[1], n[2], n[3], n[4]]),
        7 => Call::RemoveChainById(n[0], text(0)),
        8 => Call::RemoveResidueById([n[0], n[1]], n[2], optional(3, 0)),
        9 => Call::RemoveConformerById([n[0], n[1], n[2]], text(0), optional(3, 1)),
        10 => Call::RemoveAtomBySerialNumber([n[0], n[1], n[2], n[3]], n[4]),
        11 => Call::RemoveAtomsBy(n[0], p[0].clone()),
        12 => Call::RemoveEmpty(n[0]),
        13 => Call::JoinModels(n[0], n[1]),
        14 => Call::JoinChains([n[0], n[1]], [n[2], n[3]]),
        15 => Call::JoinResidues([n[0], n[1], n[2]], [n[3], n[4], n[5]]),
        16 => Call::JoinConformers([n[0], n[1], n[2], n[3]], [n[4], n[5], n[6], n[7]]),
        _ => Call::SetElement([n[0], n[1], n[2], n[3], n[4]], n[5]),
    })
}

fn read(mut words: &[u64]) -> Option<Vec<Call>> {
    let mut calls = Vec::new();
    while !words.is_empty() {
        let n = usize::try_from(*words.get(1)?).ok().filter(|n| *n <= 1_024)?;
        calls.push(call(words[0], words.get(2..2 + n)?)?);
        words = &words[2 + n..];
    }
    Some(calls)
}

// What the list does by single calls of the port, which are compared elsewhere.
fn expected(store: &[u64], words: &[u64], out: &[u64]) -> (Apply, Vec<u64>, Vec<u64>) {
    let (mut store, mut out) = (store.to_vec(), out.to_vec());
    let refused = |result| Apply { result, calls: 0 };
    let checked = port::check(&store);
    if checked != 0 {
        return (refused(checked), store, out);
    }
    let Some(calls) = read(words) else {
        return (refused(22), store, out);
    };
    if out.len() < 3 * calls.len() {
        return (refused(23), store, out);
    }
    for (i, c) in calls.iter().enumerate() {
        let e = port::edit(&mut store, c);
        out[3 * i..3 * i + 3].copy_from_slice(&[e.result, e.found, e.removed]);
    }
    (Apply { result: 0, calls: calls.len() as u64 }, store, out)
}

// The list as one call, and, where they are given, the answers and the words that it must leave.
pub fn compare(store: &[u64], words: &[u64], out: &[u64], known: Option<(&[u64], &[u64])>) {
    let (mut ours, mut answers) = (store.to_vec(), out.to_vec());
    let applied = port::apply(&mut ours, words, &mut answers);
    assert_eq!((applied, ours.clone(), answers.clone()), expected(store, words, out), "list {words:?}");
    if let Some((known_answers, after)) = known {
        assert_eq!((&answers[..known_answers.len()], &ours[..]), (known_answers, after), "list {words:?}");
    }
}

// Each number in each header's place, and the list cut short at every word.
pub fn headers() -> u64 {
    let o = |text: &[u8]| Optional { flag: 1, text: text.to_vec() };
    let calls = [
        Call::AddModel(1),
        Call::RemoveChainById(0, b"A".to_vec()),
        Call::RemoveConformerById([0, 0, 0], b"ALA".to_vec(), o(b"A")),
        Call::RemoveAtomsBy(0, vec![28, 0, 0]),
        Call::JoinConformers([0; 4], [0, 0, 0, 1]),
        Call::SetElement([0; 5], 7),
    ];
    let lists: Vec<Vec<u64>> = calls.iter().map(list::words).collect();
    let words = lists.concat();
    let store = vec![0u64; 61];
    let mut tried = 0;
    let mut places = Vec::new();
    let mut at = 0;
    for l in &lists {
        places.extend([at, at + 1]);
        at += l.len();
    }
    let large = [1 << 16, 1 << 31, 1 << 32, 1 << 61, 1 << 63, u64::MAX - 2, u64::MAX - 1, u64::MAX];
    for place in places {
        for n in (0..5_000).chain(large) {
            let mut spoilt = words.clone();
            spoilt[place] = n;
            compare(&store, &spoilt, &[7; 30], None);
            tried += 1;
        }
    }
    for end in 0..words.len() {
        compare(&store, &words[..end], &[7; 30], None);
        tried += 1;
    }
    tried
}
