// Small texts in full, in each of the five places of an addition: chain, insertion code, conformer, location, atom name.
use crate::original;
use crate::plain::pack;
use crate::port::{self, Call, NewAtom, Optional};
use crate::sides::{Counts, Sides};

const PLACES: usize = 5;
const WORDS: usize = 10 * 12 + 1;
const SERIAL: u64 = 5;

fn present(text: &[u8]) -> Optional {
    Optional { flag: 1, text: text.to_vec() }
}

fn addition(place: usize, text: &[u8]) -> Call {
    let mut texts: [&[u8]; PLACES] = [b"A", b"B", b"ALA", b"C", b"N"];
    texts[place] = text;
    let [chain, code, conformer, location, name] = texts;
    Call::AddAtom {
        model: 0,
        chain: chain.to_vec(),
        residue: 7,
        code: present(code),
        conformer: conformer.to_vec(),
        location: present(location),
        name: name.to_vec(),
        values: NewAtom { serial: SERIAL, element: 6, ..NewAtom::default() },
    }
}

// The removal that takes the text as given; for an atom's name, by a term.
fn removal(place: usize, text: &[u8]) -> Call {
    match place {
        0 => Call::RemoveChainById(0, text.to_vec()),
        1 => Call::RemoveResidueById([0, 0], 7, present(text)),
        2 => Call::RemoveConformerById([0, 0, 0], text.to_vec(), present(b"C")),
        3 => Call::RemoveConformerById([0, 0, 0], b"ALA".to_vec(), present(text)),
        _ => Call::RemoveAtomsBy(0, vec![14, pack(text), 0]),
    }
}

fn terms(place: usize, text: &[u8]) -> Vec<[u64; 3]> {
    let t = pack(text);
    match place {
        0 => vec![[3, t, 0], [4, t, t], [4, 0, t]],
        1 => vec![[7, t, 0], [8, 7, t]],
        2 => vec![[9, t, 0], [11, t, pack(b"C")]],
        3 => vec![[10, t, 0], [11, pack(b"ALA"), t]],
        _ => vec![[14, t, 0]],
    }
}

// One text added after another; then the second as given, in terms, in lookup and in a removal.
fn pair(place: usize, first: &[u8], second: &[u8], counts: &mut Counts) {
    let mut sides = Sides::open(vec![0; WORDS]);
    sides.edit(&Call::AddModel(1), counts);
    sides.edit(&addition(place, first), counts);
    sides.edit(&addition(place, second), counts);
    for term in terms(place, second) {
        sides.find(&[], &term, WORDS, counts);
    }
    sides.lookup(SERIAL, &present(second), counts);
    sides.edit(&removal(place, second), counts);
}

// Every text of up to so many bytes.
fn over(alphabet: &[u8], bytes: usize) -> Vec<Vec<u8>> {
    let mut all = vec![Vec::new()];
    let mut last = all.clone();
    for _ in 0..bytes {
        last = last.iter().flat_map(|t| alphabet.iter().map(move |b| [&t[..], &[*b]].concat())).collect();
        all.extend(last.clone());
    }
    all
}

// Around 8 bytes, with blanks at the ends, and the same with a byte that is bad.
fn long() -> Vec<Vec<u8>> {
    let blanks = over(b" \t\r", 2);
    let mut all = Vec::new();
    for core in [&b"aB 1cdEfgh"[..], b"ab\x01cdefghi", b"abcd\x80fghij"] {
        for n in 6..=10 {
            for before in &blanks {
                all.extend(blanks.iter().map(|after| [before, &core[..n], after].concat()));
            }
        }
    }
    all
}

pub fn compare() -> Counts {
    let every_byte: Vec<u8> = (0..=255).collect();
    let texts = [over(&every_byte, 2), over(b" \t\rAZaz09\0\x7f\x80\xff", 3), long()].concat();
    let short = over(b" \tAaB1\0\x80", 2);
    let mut counts = Counts::default();
    for place in 0..PLACES {
        texts.iter().for_each(|t| pair(place, t, t, &mut counts));
        for first in &short {
            short.iter().for_each(|second| pair(place, first, second, &mut counts));
        }
    }
    counts
}

// The blanks that docs/DIFFERENCES.md lists.
const BLANKS: &str =
    "\u{85}\u{a0}\u{1680}\u{2000}\u{2001}\u{2002}\u{2003}\u{2004}\u{2005}\u{2006}\u{2007}\u{2008}\u{2009}\u{200a}\u{2028}\u{2029}\
    \u{202f}\u{205f}\u{3000}";

// Every character above 127 before a letter: where the port refuses it, so does the crate, but for the blanks that it trims from chain ids and
// atom names.
pub fn compare_beyond_ascii() {
    let mut empty_model = vec![0; WORDS];
    port::edit(&mut empty_model, &Call::AddModel(1));
    let differ = |place: usize, c: char| {
        let call = addition(place, format!("{c}A").as_bytes());
        port::edit(&mut empty_model.clone(), &call).result != original::refusal(&call)
    };
    for place in 0..PLACES {
        let differing: String = ('\u{80}'..=char::MAX).filter(|c| differ(place, *c)).collect();
        assert_eq!(differing, if place == 0 || place == 4 { BLANKS } else { "" }, "place {place}");
    }
}
