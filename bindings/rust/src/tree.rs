// A search as the library's tree: three words for each node, in postfix order (docs/FORMATS.md).
use crate::search::Node;
use crate::text::{pack, pack_optional};
use crate::{Error, Ops, Search, Term};

impl Search {
    /// The search as words for the C interface. It gives [Error::TreeShape] for a search that is too long, and [Error::QueryText] for a
    /// text that can't be packed.
    pub fn nodes(&self) -> Result<Vec<u64>, Error> {
        let mut words = Vec::new();
        for node in self.postfix().ok_or(Error::TreeShape)? {
            words.extend(match node {
                Node::Term(term) => self::term(term)?,
                Node::Known(value) => [27 + *value as u64, 0, 0],
                Node::Not => [26, 0, 0],
                Node::Ops(Ops::And) => [23, 0, 0],
                Node::Ops(Ops::Or) => [24, 0, 0],
                Node::Ops(Ops::Xor) => [25, 0, 0],
            });
        }
        Ok(words)
    }
}

// "Codes 1..22 are `Term`'s cases in source order", "p and q are the case's values in its order; unused ones are 0."
fn term(term: &Term) -> Result<[u64; 3], Error> {
    Ok(match term {
        Term::ModelSerialNumber(n) => [1, *n as u64, 0],
        Term::ModelSerialNumberRange(low, high) => [2, *low as u64, *high as u64],
        Term::ChainId(id) => [3, pack(id)?, 0],
        Term::ChainIdRange(low, high) => [4, pack(low)?, pack(high)?],
        Term::ResidueSerialNumber(n) => [5, *n as u64, 0],
        Term::ResidueSerialNumberRange(low, high) => [6, *low as u64, *high as u64],
        Term::ResidueInsertionCode(code) => [7, pack_optional(code.as_deref())?, 0],
        Term::ResidueId(n, code) => [8, *n as u64, pack_optional(code.as_deref())?],
        Term::ConformerName(name) => [9, pack(name)?, 0],
        Term::ConformerAlternativeLocation(location) => [10, pack_optional(location.as_deref())?, 0],
        Term::ConformerId(name, location) => [11, pack(name)?, pack_optional(location.as_deref())?],
        Term::AtomSerialNumber(n) => [12, *n as u64, 0],
        Term::AtomSerialNumberRange(low, high) => [13, *low as u64, *high as u64],
        Term::AtomName(name) => [14, pack(name)?, 0],
        Term::Element(element) => [15, element.atomic_number() as u64, 0],
        Term::BFactor(b) => [16, b.to_bits(), 0],
        Term::BFactorRange(low, high) => [17, low.to_bits(), high.to_bits()],
        Term::Occupancy(o) => [18, o.to_bits(), 0],
        Term::OccupancyRange(low, high) => [19, low.to_bits(), high.to_bits()],
        Term::Backbone => [20, 0, 0],
        Term::SideChain => [21, 0, 0],
        Term::Hetero => [22, 0, 0],
    })
}
