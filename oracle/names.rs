// Which of an addition's five names is answered, with what is checked before and after them; and the flags of removals by id and of lookup.
use crate::port::{Call, NewAtom, Optional};
use crate::sides::{Counts, Sides};

const NAMES: usize = 5;
const LONG: &[u8] = b"ABCDEFGHI";

// Chain, insertion code, conformer, location, atom name: a good form, then three bad ones. Only the second and the fourth have a flag.
const FORMS: [[(u64, &[u8]); 4]; NAMES] = [
    [(1, b"A"), (1, b" "), (1, b"A\x7f"), (1, LONG)],
    [(1, b"B"), (2, b"B"), (1, b""), (1, LONG)],
    [(1, b"ALA"), (1, b""), (1, b"\tALA"), (1, LONG)],
    [(1, b"C"), (2, b"C"), (u64::MAX, b""), (1, LONG)],
    [(1, b"N"), (1, b"N\x01"), (1, b"\x80"), (1, LONG)],
];

const BAD: [u64; NAMES] = [6, 14, 15, 15, 16];

fn addition(model: u64, forms: [usize; NAMES], element: u64) -> Call {
    let given: [(u64, &[u8]); NAMES] = std::array::from_fn(|name| FORMS[name][forms[name]]);
    let text = |name: usize| given[name].1.to_vec();
    let optional = |name: usize| Optional { flag: given[name].0, text: text(name) };
    Call::AddAtom {
        model,
        chain: text(0),
        residue: 7,
        code: optional(1),
        conformer: text(2),
        location: optional(3),
        name: text(4),
        values: NewAtom { serial: 5, element, ..NewAtom::default() },
    }
}

// An addition to a store with one model and room for so many records more.
fn add(room: usize, call: &Call, expected: u64, counts: &mut Counts) -> Sides {
    let mut sides = Sides::open(vec![0; (1 + room) * 12 + 1]);
    sides.edit(&Call::AddModel(1), counts);
    assert_eq!(sides.edit(call, counts).result, expected, "{call:?} with room for {room}");
    sides
}

// Every choice of forms: the first bad name is answered, after the position and before the values and the room.
fn compare_additions(counts: &mut Counts) {
    for choice in 0..4usize.pow(NAMES as u32) {
        let forms: [usize; NAMES] = std::array::from_fn(|name| choice >> (2 * name) & 3);
        let bad = (0..NAMES).find(|name| forms[*name] != 0).map(|name| BAD[name]);
        add(4, &addition(0, forms, 6), bad.unwrap_or(0), counts);
        add(4, &addition(1, forms, 119), 5, counts);
        add(3, &addition(0, forms, 119), bad.unwrap_or(7), counts);
        add(3, &addition(0, forms, 6), bad.unwrap_or(8), counts);
    }
}

// A bad flag is answered after the position, whatever its text.
fn compare_flags(counts: &mut Counts) {
    for flag in [0, 1, 2, 3, u64::MAX] {
        for text in [&b"B"[..], b"C", b"", LONG] {
            let o = Optional { flag, text: text.to_vec() };
            let bad = |number| if flag > 1 { number } else { 0 };
            let calls = [
                (Call::RemoveResidueById([0, 1], 7, o.clone()), 5),
                (Call::RemoveResidueById([0, 0], 7, o.clone()), bad(14)),
                (Call::RemoveConformerById([0, 0, 1], b"ALA".to_vec(), o.clone()), 5),
                (Call::RemoveConformerById([0, 0, 0], b"ALA".to_vec(), o.clone()), bad(15)),
            ];
            for (call, expected) in calls {
                let mut sides = add(4, &addition(0, [0; NAMES], 6), 0, counts);
                assert_eq!(sides.lookup(5, &o, counts).result, bad(15));
                assert_eq!(sides.edit(&call, counts).result, expected, "{call:?}");
            }
            assert_eq!(Sides::open(vec![0; 13]).lookup(5, &o, counts).result, bad(15), "lookup without a model");
        }
    }
}

pub fn compare() -> Counts {
    let mut counts = Counts::default();
    compare_additions(&mut counts);
    compare_flags(&mut counts);
    counts
}
