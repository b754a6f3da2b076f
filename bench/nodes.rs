// A crate's search as the port's nodes.
use super::store::pack;
use pdbtbx::{Ops, Search, Term};

// The terms that the benchmarks use.
fn term(t: &Term) -> [u64; 3] {
    match t {
        Term::ChainId(id) => [3, pack(id), 0],
        Term::ResidueSerialNumberRange(low, high) => [6, *low as u64, *high as u64],
        Term::ConformerName(name) => [9, pack(name), 0],
        Term::AtomSerialNumber(n) => [12, *n as u64, 0],
        Term::AtomName(name) => [14, pack(name), 0],
        Term::Element(e) => [15, e.atomic_number() as u64, 0],
        Term::BFactorRange(low, high) => [17, low.to_bits(), high.to_bits()],
        Term::Backbone => [20, 0, 0],
        Term::Hetero => [22, 0, 0],
        other => unimplemented!("{other:?}"),
    }
}

// Nodes in postfix order.
pub fn nodes(search: &Search) -> Vec<u64> {
    match search {
        Search::Single(t) => term(t).to_vec(),
        Search::Known(b) => vec![27 + *b as u64, 0, 0],
        Search::Not(a) => [nodes(a), vec![26, 0, 0]].concat(),
        Search::Ops(o, a, b) => {
            let code = match o {
                Ops::And => 23,
                Ops::Or => 24,
                Ops::Xor => 25,
            };
            [nodes(a), nodes(b), vec![code, 0, 0]].concat()
        }
    }
}
