// What pdbtbx's structs lean on and its files here don't hold, as thin as they allow.
#![allow(dead_code, unused, ambiguous_glob_reexports)]
pub mod reference_tables;
pub mod structs;
pub mod transformation {
    #[derive(Debug, Clone, PartialEq)]
    pub struct TransformationMatrix;
    impl TransformationMatrix {
        pub fn apply(&self, p: (f64, f64, f64)) -> (f64, f64, f64) {
            p
        }
    }
}
#[derive(Debug, Clone, Copy, PartialEq, Eq)]
pub enum ErrorLevel {
    BreakingError,
    InvalidatingError,
    StrictWarning,
    LooseWarning,
    GeneralWarning,
}
#[derive(Debug, Clone, PartialEq)]
pub struct Context;
impl Context {
    pub fn show(_: impl Into<String>) -> Self {
        Context
    }
}
#[derive(Debug, Clone)]
pub struct PDBError;
impl PDBError {
    pub fn new(_: ErrorLevel, _: impl Into<String>, _: impl Into<String>, _: Context) -> Self {
        PDBError
    }
}
pub use structs::*;
