// The tables that elements.rs names: symbols in capitals; what nothing here reads is blank.
pub const ELEMENT_SYMBOLS: &[&str] = &[
    "H", "HE", "LI", "BE", "B", "C", "N", "O", "F", "NE", "NA", "MG",
    "AL", "SI", "P", "S", "CL", "AR", "K", "CA", "SC", "TI", "V", "CR",
    "MN", "FE", "CO", "NI", "CU", "ZN", "GA", "GE", "AS", "SE", "BR", "KR",
    "RB", "SR", "Y", "ZR", "NB", "MO", "TC", "RU", "RH", "PD", "AG", "CD",
    "IN", "SN", "SB", "TE", "I", "XE", "CS", "BA", "LA", "CE", "PR", "ND",
    "PM", "SM", "EU", "GD", "TB", "DY", "HO", "ER", "TM", "YB", "LU", "HF",
    "TA", "W", "RE", "OS", "IR", "PT", "AU", "HG", "TL", "PB", "BI", "PO",
    "AT", "RN", "FR", "RA", "AC", "TH", "PA", "U", "NP", "PU", "AM", "CM",
    "BK", "CF", "ES", "FM", "MD", "NO", "LR", "RF", "DB", "SG", "BH", "HS",
    "MT", "DS", "RG", "CN", "NH", "FL", "MC", "LV", "TS", "OG",
];
pub const ELEMENT_NAMES: &[&str] = &[""; 118];
#[derive(Debug)]
pub struct AtomicRadius {
    pub unbound: Option<f64>,
    pub van_der_waals: Option<f64>,
    pub covalent_single: f64,
    pub covalent_double: Option<f64>,
    pub covalent_triple: Option<f64>,
}
const NO_RADIUS: AtomicRadius = AtomicRadius {
    unbound: None,
    van_der_waals: None,
    covalent_single: 0.0,
    covalent_double: None,
    covalent_triple: None,
};
pub const ELEMENT_ATOMIC_RADII: &[AtomicRadius] = &[NO_RADIUS; 118];
pub const ELEMENT_WEIGHT: &[Option<f64>] = &[None; 118];
pub const ELEMENT_ELECTRON_NEGATIVITY: &[Option<f64>] = &[None; 118];
