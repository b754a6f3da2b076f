// gemmi and mmdb2 on the benchmarks' structure, where they are installed (bench/gemmi.cpp, bench/mmdb2.cpp).
use super::store::AtomAt;
use super::structure;
use std::ffi::{c_char, c_int, CString};

type Text = *const c_char;
type Add = unsafe extern "C" fn(chain: Text, residue: c_int, conformer: Text, name: Text, element: Text, b_factor: f64);
type Select = unsafe extern "C" fn(cid: Text) -> usize;
type Clear = unsafe extern "C" fn();
type Place = unsafe extern "C" fn(x: f64, y: f64, z: f64, hetero: bool);
type Write = unsafe extern "C" fn(out: *mut u8, length: usize) -> usize;
type Read = unsafe extern "C" fn(text: *const u8, length: usize) -> usize;

#[cfg(any(gemmi, mmdb2))]
extern "C" {
    #[cfg(gemmi)]
    fn gemmi_add(chain: Text, residue: c_int, conformer: Text, name: Text, element: Text, b_factor: f64);
    #[cfg(gemmi)]
    fn gemmi_select(cid: Text) -> usize;
    #[cfg(gemmi)]
    fn gemmi_clear();
    #[cfg(gemmi)]
    fn gemmi_place(x: f64, y: f64, z: f64, hetero: bool);
    #[cfg(gemmi)]
    fn gemmi_write(out: *mut u8, length: usize) -> usize;
    #[cfg(gemmi)]
    fn gemmi_read(text: *const u8, length: usize) -> usize;
    #[cfg(mmdb2)]
    fn mmdb2_add(chain: Text, residue: c_int, conformer: Text, name: Text, element: Text, b_factor: f64);
    #[cfg(mmdb2)]
    fn mmdb2_select(cid: Text) -> usize;
}

#[cfg(gemmi)]
const GEMMI: Option<(Add, Select)> = Some((gemmi_add, gemmi_select));
#[cfg(not(gemmi))]
const GEMMI: Option<(Add, Select)> = None;
#[cfg(gemmi)]
const GEMMI_WRITING: Option<(Clear, Place, Write)> = Some((gemmi_clear, gemmi_place, gemmi_write));
#[cfg(not(gemmi))]
const GEMMI_WRITING: Option<(Clear, Place, Write)> = None;
#[cfg(gemmi)]
const GEMMI_READING: Option<Read> = Some(gemmi_read);
#[cfg(not(gemmi))]
const GEMMI_READING: Option<Read> = None;
#[cfg(mmdb2)]
const MMDB2: Option<(Add, Select)> = Some((mmdb2_add, mmdb2_select));
#[cfg(not(mmdb2))]
const MMDB2: Option<(Add, Select)> = None;

pub struct Library {
    pub name: &'static str,
    calls: Option<(Add, Select)>,
}

pub const LIBRARIES: [Library; 2] = [Library { name: "gemmi", calls: GEMMI }, Library { name: "mmdb2", calls: MMDB2 }];

fn text(t: &str) -> CString {
    CString::new(t).unwrap()
}

impl Library {
    pub fn is_here(&self) -> bool {
        self.calls.is_some()
    }

    // The library has one structure, which the atoms go into in their order.
    pub fn build(&self, atoms: &[AtomAt]) {
        atoms.iter().for_each(|a| self.add(a));
    }

    fn add(&self, a: &AtomAt) {
        let Some((add, _)) = self.calls else { return };
        let [chain, conformer, name, element] = [&a.chain, a.conformer, a.name, structure::symbol(a.element)].map(text);
        unsafe { add(chain.as_ptr(), a.residue as c_int, conformer.as_ptr(), name.as_ptr(), element.as_ptr(), a.b_factor) };
    }

    // The number of atoms that a selection in the library's syntax picks.
    pub fn select(&self, cid: &str) -> Option<usize> {
        let (_, select) = self.calls?;
        Some(unsafe { select(text(cid).as_ptr()) })
    }
}

// gemmi's structure made anew of these atoms at these places; false without gemmi.
pub fn build_in_places(atoms: &[AtomAt], place: fn(&AtomAt) -> [f64; 3]) -> bool {
    let Some((clear, put, _)) = GEMMI_WRITING else { return false };
    unsafe { clear() };
    for a in atoms {
        LIBRARIES[0].add(a);
        let [x, y, z] = place(a);
        unsafe { put(x, y, z, a.hetero) };
    }
    true
}

// The number of bytes that gemmi's PDB writer puts into the output.
pub fn write_by_gemmi(out: &mut [u8]) -> usize {
    GEMMI_WRITING.map_or(0, |(_, _, write)| unsafe { write(out.as_mut_ptr(), out.len()) })
}

// The number of atoms that gemmi's PDB reader finds in a text; 0 without gemmi.
pub fn read_by_gemmi(text: &[u8]) -> usize {
    GEMMI_READING.map_or(0, |read| unsafe { read(text.as_ptr(), text.len()) })
}
