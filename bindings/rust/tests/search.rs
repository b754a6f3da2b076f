// Operators, their shapes, and the nodes they become.
use jubrelti::*;

fn serial(n: usize) -> Term {
    Term::AtomSerialNumber(n)
}

fn ops(ops: Ops, left: impl Into<Search>, right: impl Into<Search>) -> Search {
    Search::Ops(ops, Box::new(left.into()), Box::new(right.into()))
}

// The codes of a search's nodes.
fn codes(search: Search) -> Vec<u64> {
    search.nodes().unwrap().chunks(3).map(|node| node[0]).collect()
}

fn text(t: &str) -> String {
    t.to_owned()
}

#[test]
fn each_operator_takes_terms_and_searches() {
    let known = || Search::Known(true);
    assert_eq!(serial(1) & serial(2), ops(Ops::And, serial(1), serial(2)));
    assert_eq!(serial(1) & known(), ops(Ops::And, serial(1), known()));
    assert_eq!(known() & serial(2), ops(Ops::And, known(), serial(2)));
    assert_eq!(known() & known(), ops(Ops::And, known(), known()));
    assert_eq!(serial(1) | serial(2), ops(Ops::Or, serial(1), serial(2)));
    assert_eq!(serial(1) | known(), ops(Ops::Or, serial(1), known()));
    assert_eq!(known() | serial(2), ops(Ops::Or, known(), serial(2)));
    assert_eq!(known() | known(), ops(Ops::Or, known(), known()));
    assert_eq!(serial(1) ^ serial(2), ops(Ops::Xor, serial(1), serial(2)));
    assert_eq!(serial(1) ^ known(), ops(Ops::Xor, serial(1), known()));
    assert_eq!(known() ^ serial(2), ops(Ops::Xor, known(), serial(2)));
    assert_eq!(known() ^ known(), ops(Ops::Xor, known(), known()));
    assert_eq!(!serial(1), Search::Not(Box::new(Search::Single(serial(1)))));
    assert_eq!(!known(), Search::Not(Box::new(known())));
}

// `!` binds first, then `&`, `^` and `|`; equal ones group from the left.
#[test]
fn precedence() {
    let (a, b, c, d) = (|| serial(1), || serial(2), || serial(3), || serial(4));
    assert_eq!(a() | b() ^ c() & !d(), a() | (b() ^ (c() & (!d()))));
    assert_eq!(a() & b() | c(), (a() & b()) | c());
    assert_eq!(a() & b() & c(), (a() & b()) & c());
    assert_ne!(a() & b() & c(), a() & (b() & c()));
}

#[test]
fn nodes_in_postfix_order() {
    let search = Term::ChainId(text("A")) & !Term::Hetero | Search::Known(false) ^ Search::Known(true);
    assert_eq!(codes(search), [3, 22, 26, 23, 27, 28, 25, 24]);
    let left_first = (serial(1) & serial(2)).nodes().unwrap();
    assert_eq!(left_first, [12, 1, 0, 12, 2, 0, 23, 0, 0]);
}

#[test]
fn each_term_is_its_node() {
    const A: u64 = 0x41 << 56;
    const B: u64 = 0x42 << 56;
    const ALA: u64 = 0x0041_4c41 << 40;
    let minus_one = u64::MAX;
    let (half, one) = (0.5f64.to_bits(), 1f64.to_bits());
    let terms = [
        (Term::ModelSerialNumber(1), [1, 1, 0]),
        (Term::ModelSerialNumberRange(1, 2), [2, 1, 2]),
        (Term::ChainId(text("A")), [3, A, 0]),
        (Term::ChainIdRange(text("A"), text("B")), [4, A, B]),
        (Term::ResidueSerialNumber(-1), [5, minus_one, 0]),
        (Term::ResidueSerialNumberRange(-1, 2), [6, minus_one, 2]),
        (Term::ResidueInsertionCode(Some(text("A"))), [7, A, 0]),
        (Term::ResidueInsertionCode(None), [7, 0, 0]),
        (Term::ResidueId(-1, Some(text("A"))), [8, minus_one, A]),
        (Term::ConformerName(text("ALA")), [9, ALA, 0]),
        (Term::ConformerAlternativeLocation(Some(text("B"))), [10, B, 0]),
        (Term::ConformerId(text("ALA"), None), [11, ALA, 0]),
        (Term::AtomSerialNumber(3), [12, 3, 0]),
        (Term::AtomSerialNumberRange(3, 4), [13, 3, 4]),
        (Term::AtomName(text("")), [14, 0, 0]),
        (Term::Element(Element::Og), [15, 118, 0]),
        (Term::BFactor(0.5), [16, half, 0]),
        (Term::BFactorRange(0.5, 1.0), [17, half, one]),
        (Term::Occupancy(1.0), [18, one, 0]),
        (Term::OccupancyRange(0.5, 1.0), [19, half, one]),
        (Term::Backbone, [20, 0, 0]),
        (Term::SideChain, [21, 0, 0]),
        (Term::Hetero, [22, 0, 0]),
    ];
    for (term, node) in terms {
        assert_eq!(Search::from(term.clone()).nodes().unwrap(), node, "{term:?}");
    }
}

// A soaked glycine in one conformer with others of that name: hetero goes first.
#[test]
fn hetero_atoms_are_in_neither_term() {
    for (name, atoms) in [("GLY", [1, 2]), ("HOH", [0, 0])] {
        let mut edits = Edits::new();
        edits.add_model(1);
        for (n, atom) in (1..).zip(["CA", "CB", "CA", "CB"]) {
            let atom = NewAtom::new(n > 2, n, atom, 0.0, 0.0, 0.0, 1.0, 0.0, "C", 0).unwrap();
            edits.add_atom(0, atom, "A", (1, None), (name, None));
        }
        let mut store = Store::new();
        store.apply_all(&edits).unwrap();
        let serials = |hits: Hits| hits.map(|hit| hit.atom().serial_number()).collect::<Vec<_>>();
        for (term, atom, alone) in [(Term::Backbone, atoms[0], 1), (Term::SideChain, atoms[1], 2)] {
            let listed: Vec<usize> = if atom == 0 { vec![] } else { vec![atom] };
            let others: Vec<usize> = (1..=4).filter(|n| *n != atom).collect();
            assert_eq!(serials(store.find(term.clone()).unwrap()), listed, "{term:?} of {name}");
            assert_eq!(serials(store.find(!term.clone()).unwrap()), others, "!{term:?} of {name}");
            assert_eq!(serials(store.residue_find([0, 0, 0], term.clone()).unwrap()), listed, "{term:?} from {name}'s residue");
            // The conformer's name isn't looked at, and hetero is.
            assert_eq!(serials(store.conformer_find([0, 0, 0, 0], term.clone()).unwrap()), [alone], "{term:?} from {name}");
            assert_eq!(store.clone().remove_atoms_by(0, term).unwrap().removed, 1);
        }
        assert_eq!(serials(store.find(Term::Hetero).unwrap()), [3, 4]);
        // The methods of a hit go by the two names, as pdbtbx's do.
        assert_eq!(store.atoms_with_hierarchy().filter(|h| h.is_backbone()).count(), 2 * (name == "GLY") as usize);
    }
}

#[test]
fn texts_that_cannot_be_packed() {
    let refused = |term: Term| Search::from(term).nodes().unwrap_err();
    assert!(Search::from(Term::ChainId(text(" 234567~"))).nodes().is_ok());
    assert_eq!(refused(Term::ChainId(text("123456789"))), Error::QueryText(text("123456789")));
    assert_eq!(refused(Term::AtomName(text("C\0"))), Error::QueryText(text("C\0")));
    assert_eq!(refused(Term::AtomName(text("\u{1f}"))), Error::QueryText(text("\u{1f}")));
    assert_eq!(refused(Term::AtomName(text("\u{7f}"))), Error::QueryText(text("\u{7f}")));
    assert_eq!(refused(Term::ConformerName(text("Å"))), Error::QueryText(text("Å")));
    assert_eq!(refused(Term::ResidueInsertionCode(Some(text("")))), Error::QueryText(text("")));
    assert_eq!(refused(Term::ConformerId(text("ALA"), Some(text("")))), Error::QueryText(text("")));
}

#[test]
fn elements() {
    for n in 1..=118 {
        let element = Element::new(n).unwrap();
        assert_eq!(element.atomic_number(), n);
        assert_eq!(Element::from_symbol(element.to_string().to_ascii_uppercase()), Some(element));
    }
    assert_eq!((Element::new(0), Element::new(119)), (None, None));
    let noble = [Element::He, Element::Ne, Element::Ar, Element::Kr, Element::Xe, Element::Rn, Element::Og];
    assert_eq!(noble.map(|e| e.atomic_number()), [2, 10, 18, 36, 54, 86, 118]);
    assert_eq!((Element::from_symbol("fe"), Element::from_symbol("Xx")), (Some(Element::Fe), None));
    assert_eq!(Element::Og.to_string(), "Og");
}

#[test]
fn as_an_expression() {
    let search = Term::ChainId(text("A")) & !Term::Element(Element::N);
    assert_eq!(search.to_string(), r#"(ChainId("A") & !Element(N))"#);
    let search = !(Term::ResidueId(-1, Some(text("B"))) | Search::Known(true) ^ !!Term::BFactorRange(0.5, f64::INFINITY));
    assert_eq!(format!("{search:?}"), r#"!(ResidueId(-1, Some("B")) | (Known(true) ^ !!BFactorRange(0.5, inf)))"#);
    assert_eq!(Search::from(Term::Backbone).to_string(), "Backbone");
}

// The longest search is taken, and one that is longer by a node is refused.
#[test]
fn the_most_nodes() {
    let joined = |terms: usize| (1..terms).fold(Search::Known(true), |search, n| search & serial(n));
    assert_eq!(codes(joined(64)).len(), 127);
    assert!(joined(64).to_string().ends_with("& AtomSerialNumber(63))"));
    assert_eq!((!joined(64)).nodes(), Err(Error::TreeShape));
    assert_eq!(joined(65).nodes(), Err(Error::TreeShape));
    assert_eq!((joined(32) & joined(32)).nodes().unwrap().len(), 127 * 3);
    assert_eq!((joined(32) & joined(33)).nodes(), Err(Error::TreeShape));
}

// Everything that can be done with a search that is nested a million deep.
fn use_up(search: Search) {
    let copy = search.clone();
    assert_eq!(copy, search);
    assert_ne!(copy, Search::Known(true));
    assert_eq!(format!("{copy:?}"), format!("{search}"));
    assert_eq!(search.to_string(), "a search of more than 127 terms and operators");
    drop(copy);
    let mut store = Store::new();
    assert_eq!(store.find(search.clone()).unwrap_err(), Error::TreeShape);
    assert_eq!(store.remove_atoms_by(0, search.clone()), Err(Error::TreeShape));
    assert_eq!(Edits::new().remove_atoms_by(0, search).unwrap_err(), Error::TreeShape);
}

#[test]
fn nested_a_million_deep() {
    const DEEP: usize = 1_000_000;
    let on_a_small_stack = std::thread::Builder::new().stack_size(64 * 1024);
    let thread = on_a_small_stack.spawn(|| {
        use_up((0..DEEP).fold(Search::Known(true), |search, _| !search));
        use_up((0..DEEP).fold(Search::Known(true), |search, n| search & serial(n)));
        use_up((0..DEEP).fold(Search::Known(true), |search, n| serial(n) & search));
        use_up((0..DEEP).fold(Search::Known(true), |search, n| ops(Ops::Xor, serial(n), Search::Not(Box::new(search)))));
    });
    thread.unwrap().join().unwrap();
}
