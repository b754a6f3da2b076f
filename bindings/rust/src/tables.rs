// The names by which the terms Backbone and SideChain go (`crates/machine/specs/Query.antt`), as pdbtbx lists them.

const AMINO_ACIDS: [&str; 31] = [
    "ALA", "ARG", "ASH", "ASN", "ASP", "ASX", "CYS", "CYX", "GLH", "GLN", "GLU", "GLY", "HID", "HIE", "HIM", "HIP", "HIS", "ILE", "LEU",
    "LYN", "LYS", "MET", "PHE", "PRO", "SER", "THR", "TRP", "TYR", "VAL", "SEC", "PYL",
];

const BACKBONE: [&str; 11] = ["N", "CA", "C", "O", "H", "H1", "H2", "H3", "HA", "HA2", "HA3"];

pub fn is_amino_acid(name: &str) -> bool {
    AMINO_ACIDS.contains(&name)
}

pub fn is_backbone(name: &str) -> bool {
    BACKBONE.contains(&name)
}
