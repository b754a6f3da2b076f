use crate::text::Text;
use crate::{tables, Element};
use std::cmp::Ordering;
use std::fmt;

/// An atom of the structure.
#[derive(Clone, Debug)]
pub struct Atom {
    hetero: bool,
    serial_number: usize,
    name: Text,
    x: f64,
    y: f64,
    z: f64,
    occupancy: f64,
    b_factor: f64,
    element: Option<Element>,
    charge: isize,
}

impl Atom {
    pub(crate) fn read(record: &[u64]) -> Self {
        let float = |word: usize| f64::from_bits(record[word]);
        Atom {
            hetero: record[10] == 1,
            serial_number: record[1] as usize,
            name: Text::read(record[2]),
            x: float(3),
            y: float(4),
            z: float(5),
            occupancy: float(6),
            b_factor: float(7),
            element: Element::new(record[8] as usize),
            charge: record[9] as isize,
        }
    }

    /// Whether it is a hetero atom.
    pub fn hetero(&self) -> bool {
        self.hetero
    }

    /// Its serial number.
    pub fn serial_number(&self) -> usize {
        self.serial_number
    }

    /// Its name.
    pub fn name(&self) -> &str {
        self.name.as_str()
    }

    /// X, y and z in Å.
    pub fn pos(&self) -> (f64, f64, f64) {
        (self.x, self.y, self.z)
    }

    /// X in Å.
    pub fn x(&self) -> f64 {
        self.x
    }

    /// Y in Å.
    pub fn y(&self) -> f64 {
        self.y
    }

    /// Z in Å.
    pub fn z(&self) -> f64 {
        self.z
    }

    /// Its occupancy.
    pub fn occupancy(&self) -> f64 {
        self.occupancy
    }

    /// Its B-factor.
    pub fn b_factor(&self) -> f64 {
        self.b_factor
    }

    /// Its element, if it isn't missing.
    pub fn element(&self) -> Option<&Element> {
        self.element.as_ref()
    }

    /// Its charge.
    pub fn charge(&self) -> isize {
        self.charge
    }

    /// Its charge as PDB files have it, a digit and a sign: `2-`. It is empty for a charge of 0 or beyond one digit.
    pub fn pdb_charge(&self) -> String {
        match self.charge {
            1..=9 => format!("{}+", self.charge),
            -9..=-1 => format!("{}-", self.charge.unsigned_abs()),
            _ => String::new(),
        }
    }

    /// Whether its name is one of a protein's backbone. [crate::ContainsAtomConformer::is_backbone] asks the conformer too.
    pub fn is_backbone(&self) -> bool {
        tables::is_backbone(self.name())
    }

    /// Whether serial number, name, element and charge are equal: the same atom in another model.
    pub fn corresponds(&self, other: &Atom) -> bool {
        self.serial_number == other.serial_number && self.name == other.name && self.element == other.element && self.charge == other.charge
    }
}

/// Geometry. Each takes the crate's operations in the crate's order, so that results have the same bits.
impl Atom {
    /// The distance to another atom in Å.
    pub fn distance(&self, other: &Atom) -> f64 {
        let (x, y, z) = (other.x - self.x, other.y - self.y, other.z - self.z);
        z.mul_add(z, y.mul_add(y, x.powi(2))).sqrt()
    }

    /// The angle at the second of three atoms, in degrees.
    pub fn angle(&self, atom2: &Atom, atom3: &Atom) -> f64 {
        between(self.minus(atom2), atom3.minus(atom2))
    }

    /// The angle between the plane of the first three of four atoms and that of the last three, in degrees, without a sign.
    pub fn dihedral(&self, atom2: &Atom, atom3: &Atom, atom4: &Atom) -> f64 {
        let first = cross(self.minus(atom2), atom3.minus(atom2));
        let second = cross(atom2.minus(atom3), atom4.minus(atom3));
        between(first, second)
    }

    fn minus(&self, other: &Atom) -> [f64; 3] {
        [self.x - other.x, self.y - other.y, self.z - other.z]
    }
}

fn cross(a: [f64; 3], b: [f64; 3]) -> [f64; 3] {
    [a[1] * b[2] - a[2] * b[1], a[2] * b[0] - a[0] * b[2], a[0] * b[1] - a[1] * b[0]]
}

fn dot(a: [f64; 3], b: [f64; 3]) -> f64 {
    a.iter().zip(b).fold(0.0, |sum, (a, b)| sum + a * b)
}

fn between(a: [f64; 3], b: [f64; 3]) -> f64 {
    (dot(a, b) / (dot(a, a).sqrt() * dot(b, b).sqrt())).acos().to_degrees()
}

/// As the crate writes it. No atom here has anisotropic factors, so the last word is always `false`.
impl fmt::Display for Atom {
    fn fmt(&self, f: &mut fmt::Formatter<'_>) -> fmt::Result {
        let element = self.element.map_or(String::new(), |e| e.to_string());
        write!(f, "ATOM ID: {}, Number: {}, Element: {element}, ", self.name(), self.serial_number)?;
        write!(f, "X: {}, Y: {}, Z: {}, OCC: {}, B: {}, ANISOU: false", self.x, self.y, self.z, self.occupancy, self.b_factor)
    }
}

/// By all but [Atom::hetero], as in the crate.
impl PartialEq for Atom {
    fn eq(&self, other: &Self) -> bool {
        self.corresponds(other) && self.pos() == other.pos() && self.occupancy == other.occupancy && self.b_factor == other.b_factor
    }
}

/// The floats of a store are finite, so each atom equals itself.
impl Eq for Atom {}

impl PartialOrd for Atom {
    fn partial_cmp(&self, other: &Self) -> Option<Ordering> {
        Some(self.cmp(other))
    }
}

/// By serial number.
impl Ord for Atom {
    fn cmp(&self, other: &Self) -> Ordering {
        self.serial_number.cmp(&other.serial_number)
    }
}
