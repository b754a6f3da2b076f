use std::fmt;

macro_rules! elements {
    ($first:ident $($other:ident)*) => {
        /// All elements from the periodic system.
        #[derive(Clone, Copy, Debug, PartialEq, Eq, PartialOrd, Ord, Hash)]
        #[allow(missing_docs)]
        pub enum Element { $first = 1, $($other),* }

        const ELEMENTS: &[Element] = &[Element::$first, $(Element::$other),*];
        const SYMBOLS: &[&str] = &[stringify!($first), $(stringify!($other)),*];
    };
}

elements! {
    H He Li Be B C N O F Ne Na Mg Al Si P S Cl Ar K Ca Sc Ti V Cr Mn Fe Co Ni Cu Zn Ga Ge As Se Br Kr Rb Sr Y Zr Nb Mo Tc Ru Rh Pd Ag
    Cd In Sn Sb Te I Xe Cs Ba La Ce Pr Nd Pm Sm Eu Gd Tb Dy Ho Er Tm Yb Lu Hf Ta W Re Os Ir Pt Au Hg Tl Pb Bi Po At Rn Fr Ra Ac Th Pa U
    Np Pu Am Cm Bk Cf Es Fm Md No Lr Rf Db Sg Bh Hs Mt Ds Rg Cn Nh Fl Mc Lv Ts Og
}

impl Element {
    /// The element of an atomic number, 1 to 118.
    pub fn new(atomic_number: usize) -> Option<Element> {
        ELEMENTS.get(atomic_number.checked_sub(1)?).copied()
    }

    /// The element of a symbol in any case.
    pub fn from_symbol(symbol: impl AsRef<str>) -> Option<Element> {
        let at = SYMBOLS.iter().position(|s| s.eq_ignore_ascii_case(symbol.as_ref()))?;
        Some(ELEMENTS[at])
    }

    /// The atomic number, 1 to 118.
    pub const fn atomic_number(&self) -> usize {
        *self as usize
    }
}

/// The symbol, as `He`.
impl fmt::Display for Element {
    fn fmt(&self, f: &mut fmt::Formatter<'_>) -> fmt::Result {
        f.pad(SYMBOLS[self.atomic_number() - 1])
    }
}
