// pdbtbx's search.rs without the evaluation, which the library does.
use crate::Element;
use std::{fmt, ops};

/// Any parameter to use in a [Search] for atoms. Texts are compared as given, with the stored ones.
#[derive(Clone, Debug, PartialEq)]
#[non_exhaustive]
pub enum Term {
    /// The model serial number.
    ModelSerialNumber(usize),
    /// A range of model serial numbers, both ends included.
    ModelSerialNumberRange(usize, usize),
    /// The chain id, as `A`.
    ChainId(String),
    /// A range of chain ids in the order of `str`, both ends included.
    ChainIdRange(String, String),
    /// The residue serial number.
    ResidueSerialNumber(isize),
    /// A range of residue serial numbers, both ends included.
    ResidueSerialNumberRange(isize, isize),
    /// The residue insertion code, as `Some("A")`.
    ResidueInsertionCode(Option<String>),
    /// The residue serial number and insertion code.
    ResidueId(isize, Option<String>),
    /// The conformer name, as `ALA`.
    ConformerName(String),
    /// The conformer alternative location, as `Some("A")`.
    ConformerAlternativeLocation(Option<String>),
    /// The conformer name and alternative location.
    ConformerId(String, Option<String>),
    /// The atom serial number.
    AtomSerialNumber(usize),
    /// A range of atom serial numbers, both ends included.
    AtomSerialNumberRange(usize, usize),
    /// The atom name, as `CA`.
    AtomName(String),
    /// The element; undecided, and so a hit, on an atom without one.
    Element(Element),
    /// The B-factor, to within a rounded difference below 2^-52.
    BFactor(f64),
    /// A range of B-factors, both ends included.
    BFactorRange(f64, f64),
    /// The occupancy, to within a rounded difference below 2^-52.
    Occupancy(f64),
    /// A range of occupancies, both ends included.
    OccupancyRange(f64, f64),
    /// Backbone atoms of amino acids. Hetero goes first: no hetero atom is one, whatever its residue is called.
    Backbone,
    /// Side chain atoms of amino acids, and no hetero atoms either.
    SideChain,
    /// Hetero atoms.
    Hetero,
}

/// Search terms joined by `&`, `|`, `^` and `!`, of at most 127 terms and operators.
///
/// A longer one drops its terms, and every call refuses it with [Error::TreeShape](crate::Error::TreeShape). So searches can be joined in
/// a loop without end, and two that are too long are equal.
///
/// ```
/// use jubrelti::*;
///
/// let search = Term::ChainId("A".to_owned()) & !Term::Element(Element::N);
/// assert_eq!(search.to_string(), r#"(ChainId("A") & !Element(N))"#);
/// ```
#[derive(Clone, PartialEq)]
pub struct Search {
    // In postfix order, so that no call goes down a tree; none where they are too many.
    nodes: Option<Vec<Node>>,
}

// "1 to 127 nodes in postfix order"
const MAX_NODES: usize = 127;

#[derive(Clone, PartialEq)]
pub(crate) enum Node {
    Term(Term),
    Known(bool),
    Not,
    Ops(Ops),
}

// The cases of pdbtbx's enum as functions, so that searches are built as there.
#[allow(non_snake_case, clippy::boxed_local)]
impl Search {
    /// Two searches under an operator.
    pub fn Ops(ops: Ops, left: Box<Search>, right: Box<Search>) -> Search {
        let (Some(mut nodes), Some(right)) = (left.nodes, right.nodes) else { return Search { nodes: None } };
        nodes.extend(right);
        Search::under(nodes, Node::Ops(ops))
    }

    /// Not.
    pub fn Not(search: Box<Search>) -> Search {
        let Some(nodes) = search.nodes else { return Search { nodes: None } };
        Search::under(nodes, Node::Not)
    }

    /// A single search term.
    pub fn Single(term: Term) -> Search {
        Search { nodes: Some(vec![Node::Term(term)]) }
    }

    /// A known value.
    pub fn Known(value: bool) -> Search {
        Search { nodes: Some(vec![Node::Known(value)]) }
    }
}

impl Search {
    // The operands' nodes under an operator.
    fn under(mut nodes: Vec<Node>, operator: Node) -> Search {
        nodes.push(operator);
        Search { nodes: Some(nodes).filter(|n| n.len() <= MAX_NODES) }
    }

    // In postfix order; none where they are too many.
    pub(crate) fn postfix(&self) -> Option<&[Node]> {
        self.nodes.as_deref()
    }
}

/// The search as an expression.
impl fmt::Display for Search {
    fn fmt(&self, f: &mut fmt::Formatter<'_>) -> fmt::Result {
        let Some(nodes) = self.postfix() else { return f.write_str("a search of more than 127 terms and operators") };
        let mut texts: Vec<String> = Vec::new();
        for node in nodes {
            let text = match node {
                Node::Term(term) => format!("{term:?}"),
                Node::Known(value) => format!("Known({value})"),
                Node::Not => format!("!{}", texts.pop().unwrap_or_default()),
                Node::Ops(ops) => {
                    let right = texts.pop().unwrap_or_default();
                    format!("({} {ops} {right})", texts.pop().unwrap_or_default())
                }
            };
            texts.push(text);
        }
        f.write_str(&texts.concat())
    }
}

/// The search as an expression.
impl fmt::Debug for Search {
    fn fmt(&self, f: &mut fmt::Formatter<'_>) -> fmt::Result {
        fmt::Display::fmt(self, f)
    }
}

/// All operators on two searches.
#[derive(Clone, Copy, Debug, PartialEq, Eq)]
pub enum Ops {
    /// `&`
    And,
    /// `|`
    Or,
    /// `^`
    Xor,
}

/// The operator, as `&`.
impl fmt::Display for Ops {
    fn fmt(&self, f: &mut fmt::Formatter<'_>) -> fmt::Result {
        f.write_str(match self {
            Ops::And => "&",
            Ops::Or => "|",
            Ops::Xor => "^",
        })
    }
}

impl From<Term> for Search {
    fn from(term: Term) -> Self {
        Search::Single(term)
    }
}

macro_rules! operator {
    ($case:ident, $trait:ident, $method:ident: $($left:ident $right:ident),*) => {
        $(impl ops::$trait<$right> for $left {
            type Output = Search;
            fn $method(self, rhs: $right) -> Search {
                Search::Ops(Ops::$case, Box::new(self.into()), Box::new(rhs.into()))
            }
        })*
    };
}

operator!(And, BitAnd, bitand: Term Term, Term Search, Search Term, Search Search);
operator!(Or, BitOr, bitor: Term Term, Term Search, Search Term, Search Search);
operator!(Xor, BitXor, bitxor: Term Term, Term Search, Search Term, Search Search);

impl ops::Not for Term {
    type Output = Search;
    fn not(self) -> Search {
        Search::Not(Box::new(self.into()))
    }
}

impl ops::Not for Search {
    type Output = Search;
    fn not(self) -> Search {
        Search::Not(Box::new(self))
    }
}
