use crate::{ffi, Element, Error};

/// An atom to be added.
///
/// By default its numbers are 0 but for the occupancy, which is 1; its name is empty, and its element is missing.
#[derive(Clone, Copy, Debug, PartialEq)]
#[allow(missing_docs)]
pub struct NewAtom<'a> {
    pub serial_number: usize,
    pub name: &'a str,
    pub x: f64,
    pub y: f64,
    pub z: f64,
    pub occupancy: f64,
    pub b_factor: f64,
    pub element: Option<Element>,
    pub charge: isize,
    pub hetero: bool,
}

impl Default for NewAtom<'_> {
    fn default() -> Self {
        NewAtom {
            serial_number: 0,
            name: "",
            x: 0.0,
            y: 0.0,
            z: 0.0,
            occupancy: 1.0,
            b_factor: 0.0,
            element: None,
            charge: 0,
            hetero: false,
        }
    }
}

impl<'a> NewAtom<'a> {
    /// An atom with the arguments of pdbtbx's `Atom::new`. The element is given by its symbol in any case, or by an empty text where it
    /// is missing; spaces around it don't count.
    ///
    /// The crate guesses the element from the atom's name where the symbol is missing or wrong. Here a missing one stays missing, and a
    /// wrong one is [Error::Element], so that no guess passes for what a file said. The name and the numbers are checked by the library
    /// when the atom is added.
    ///
    /// ```
    /// use jubrelti::*;
    ///
    /// # fn main() -> Result<(), Error> {
    /// let atom = NewAtom::new(false, 1, "CA", 1.5, 2.5, 3.5, 1.0, 20.0, "c", 0)?;
    /// assert_eq!(atom.element, Some(Element::C));
    /// assert_eq!(NewAtom::new(false, 1, "CA", 1.5, 2.5, 3.5, 1.0, 20.0, "", 0)?.element, None);
    /// let wrong = NewAtom::new(false, 1, "CA", 1.5, 2.5, 3.5, 1.0, 20.0, "CX", 0);
    /// assert_eq!(wrong, Err(Error::Element("CX".to_owned())));
    /// # Ok(())
    /// # }
    /// ```
    #[allow(clippy::too_many_arguments)]
    pub fn new(
        hetero: bool,
        serial_number: usize,
        atom_name: &'a str,
        x: f64,
        y: f64,
        z: f64,
        occupancy: f64,
        b_factor: f64,
        element: impl AsRef<str>,
        charge: isize,
    ) -> Result<Self, Error> {
        let element = match element.as_ref().trim() {
            "" => None,
            symbol => Some(Element::from_symbol(symbol).ok_or_else(|| Error::Element(symbol.to_owned()))?),
        };
        Ok(NewAtom { serial_number, name: atom_name, x, y, z, occupancy, b_factor, element, charge, hetero })
    }

    // The atom at the place where it is to be added.
    pub(crate) fn at(
        &self,
        model: usize,
        chain: &'a str,
        residue: (isize, Option<&'a str>),
        conformer: (&'a str, Option<&'a str>),
    ) -> ffi::Addition<'a> {
        ffi::Addition {
            model: model as u64,
            chain: chain.as_bytes(),
            residue: residue.0 as u64,
            code: optional(residue.1),
            conformer: conformer.0.as_bytes(),
            location: optional(conformer.1),
            name: self.name.as_bytes(),
            values: self.values(),
        }
    }

    fn values(&self) -> ffi::NewAtom {
        ffi::NewAtom {
            serial: self.serial_number as u64,
            x: self.x.to_bits(),
            y: self.y.to_bits(),
            z: self.z.to_bits(),
            occupancy: self.occupancy.to_bits(),
            b_factor: self.b_factor.to_bits(),
            element: self.element.map_or(0, |e| e.atomic_number() as u64),
            charge: self.charge as u64,
            hetero: self.hetero as u64,
        }
    }
}

// "An optional argument has a flag, 0 absent or 1 present"
pub(crate) fn optional(text: Option<&str>) -> ffi::Optional<'_> {
    ffi::Optional { flag: text.is_some() as u64, text: text.unwrap_or("").as_bytes() }
}
