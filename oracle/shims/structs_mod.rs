mod atom;
mod chain;
mod conformer;
mod database_reference;
pub mod elements {
    include!("elements.rs");
    include!("elements_tables.rs");
}
pub mod helper;
pub mod hierarchy;
mod model;
mod pdb;
mod residue;
mod search;

pub use atom::*;
pub use chain::*;
pub use conformer::*;
pub use database_reference::*;
pub use elements::*;
pub use helper::*;
pub use hierarchy::*;
pub use model::*;
pub use pdb::*;
pub use residue::*;
pub use search::*;

#[derive(Debug, Clone, PartialEq)]
pub struct UnitCell;
impl UnitCell {
    pub fn a(&self) -> f64 {
        0.0
    }
    pub fn b(&self) -> f64 {
        0.0
    }
    pub fn c(&self) -> f64 {
        0.0
    }
}
#[derive(Debug, Clone, PartialEq)]
pub struct Symmetry;
#[derive(Debug, Clone, PartialEq)]
pub struct MtriX;
#[derive(Debug, Clone, Copy, PartialEq)]
pub enum Bond {
    Disulfide,
}
