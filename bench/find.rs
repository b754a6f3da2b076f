// Find on the largest store, the port and the crate in one run, for twelve trees; gemmi and mmdb2 for those that their selections can
// say. The port's times include its layout check and writing the hits, gemmi's and mmdb2's reading the selection. mmdb2 makes an index of its
// hits; the crate and gemmi only pass them, and `listed` is the crate's time with its hits put into a list that has room. Calls are repeated, as
// for queries that follow one another on one structure.
// Then one tree from a start of each level, beside the crate's own find there. The port's aim is the layout check, one pass over the kinds of
// the records up to the start, and at most the crate's time below it; the three are timed apart, the pass as a plain loop in Rust.
use super::others::LIBRARIES;
use super::{check, nodes, port, store, structure};
use pdbtbx::{Element, Search, Term, PDB};
use std::hint::black_box;

pub struct Tree {
    pub name: &'static str,
    pub search: Search,
    // As gemmi's and as mmdb2's selection.
    said: [Option<&'static str>; 2],
}

fn or_chain(terms: usize) -> Search {
    (1..terms).fold(Search::Single(Term::AtomSerialNumber(500)), |s, i| s | Term::AtomSerialNumber(i * 1_000 + 500))
}

const BACKBONE: &str = "/*/*/(ALA,ARG,ASH,ASN,ASP,ASX,CYS,CYX,GLH,GLN,GLU,GLY,HID,HIE,HIM,HIP,HIS,ILE,LEU,LYN,LYS,MET,PHE,PRO,SER,THR,\
    TRP,TYR,VAL,SEC,PYL)/N,CA,C,O,H,H1,H2,H3,HA,HA2,HA3";

pub fn trees() -> Vec<Tree> {
    let chain = || Term::ChainId("B".into());
    let residues = || Term::ResidueSerialNumberRange(100, 199);
    let b_range = || Term::BFactorRange(20.0, 30.0);
    let both = |cid| [Some(cid); 2];
    let neither = [None; 2];
    let tree = |name, search, said| Tree { name, search, said };
    vec![
        tree("known true", Search::Known(true), both("/*/*/*/*")),
        tree("ChainId", Search::Single(chain()), both("/*/B")),
        tree("residue range", Search::Single(residues()), both("/*/*/100-199")),
        tree("AtomName", Search::Single(Term::AtomName("CA".into())), both("/*/*/*/CA")),
        tree("ChainId & AtomName", chain() & Term::AtomName("CA".into()), both("/*/B/*/CA")),
        // The crate's Backbone doesn't leave out hetero atoms. Here these are waters', which it has none of.
        tree("Backbone", Search::Single(Term::Backbone), both(BACKBONE)),
        // The B-factors are whole numbers; gemmi's bounds aren't part of the range.
        tree("B range", Search::Single(b_range()), [Some("//*//;b>19;b<31"), None]),
        tree("!ConformerName", !Term::ConformerName("HOH".into()), both("/*/*/(!HOH)")),
        tree("ChainId & (residues | B range) & !Hetero", chain() & (residues() | b_range()) & !Term::Hetero, neither),
        tree("!(Element ^ Backbone)", !(Term::Element(Element::C) ^ Term::Backbone), neither),
        tree("16 or-ed serials, 31 nodes", or_chain(16), neither),
        tree("64 or-ed serials, 127 nodes", or_chain(64), neither),
    ]
}

pub struct Times {
    pub check: f64,
    pub kinds: f64,
    pub port: f64,
    pub of_crate: f64,
    pub listed: f64,
    pub hits: usize,
}

// The least times in nanoseconds from a start, at which `find` is the crate's, and the hits, on which port and crate agree.
pub fn times<H, I: Iterator<Item = H>>(words: &[u64], start: &[u64], search: &Search, runs: usize, find: impl Fn(Search) -> I) -> Times {
    let tree = nodes::nodes(search);
    let atoms = find(Search::Known(true)).count();
    let mut out = vec![0u64; atoms * 5];
    let (mut hits, mut hits_of_crate) = (0, 0);
    let mut list = Vec::with_capacity(atoms);
    let [check, kinds, port, of_crate, listed] = store::least_each(
        runs,
        [
            &mut || assert_eq!(port::check(black_box(words)), 0),
            &mut || {
                black_box(store::records_to(black_box(words), start));
            },
            &mut || hits = port::find(black_box(words), start, &tree, &mut out).hits as usize,
            &mut || hits_of_crate = find(search.clone()).map(black_box).count(),
            &mut || {
                list.clear();
                list.extend(find(search.clone()));
            },
        ],
    );
    assert_eq!([hits; 2], [hits_of_crate, list.len()]);
    Times { check, kinds, port, of_crate, listed, hits }
}

// In microseconds; each start lies in the middle of its store.
fn from_starts(words: &[u64], pdb: &PDB) {
    let (five_words, five) = (store::models(5, store::RESIDUES / 5), structure::models(5, store::RESIDUES / 5));
    let (model, chain) = (five.model(2).unwrap(), pdb.model(0).unwrap().chain(2).unwrap());
    let residue = chain.residue(1_002).unwrap();
    let conformer = residue.conformer(0).unwrap();
    let search = Term::AtomName("CA".into()) & Term::BFactorRange(20.0, 30.0);
    println!("us, AtomName & B range{:22} hits    port   check   kinds    rest   crate  listed  port/(check+kinds+listed)", "");
    let rows = [
        ("a model, the third of five", times(&five_words, &[2], &search, 50, |s| black_box(model).find(s))),
        ("a chain, the third of four", times(words, &[0, 2], &search, 50, |s| black_box(chain).find(s))),
        ("one residue of it", times(words, &[0, 2, 1_002], &search, 50, |s| black_box(residue).find(s))),
        ("one conformer", times(words, &[0, 2, 1_002, 0], &search, 50, |s| black_box(conformer).find(s))),
    ];
    for (name, Times { check, kinds, port, of_crate, listed, hits }) in rows {
        let us = [port, check, kinds, port - check - kinds, of_crate, listed].map(|t| format!("{:7.1}", t / 1e3)).join(" ");
        println!("{name:42} {hits:6} {us} {:26.3}", port / (check + kinds + listed));
    }
}

pub fn table() {
    let words = store::words(store::RESIDUES, 0);
    let pdb = structure::pdb(store::RESIDUES);
    let atoms = store::atoms(store::RESIDUES);
    let n = atoms.len() as f64;
    LIBRARIES.iter().for_each(|l| l.build(&atoms));
    let check = check::time(&words, 50);
    println!("{} records, {} atoms; layout check {:.2} ns per atom", store::records(store::RESIDUES), atoms.len(), check / n);
    for absent in LIBRARIES.iter().filter(|l| !l.is_here()) {
        println!("{} isn't installed and is left out", absent.name);
    }
    println!("ns per atom{:33} hits    port    walk   crate  listed  port/crate  port/listed   gemmi   mmdb2", "");
    for Tree { name, search, said } in trees() {
        let runs = if name.contains("or-ed") { 3 } else { 20 };
        let Times { port, of_crate, listed, hits, .. } = times(&words, &[], &search, runs, |s| black_box(&pdb).find(s));
        print!("{:42} {:6} {:7.2} {:7.2} {:7.2} {:7.2}", name, hits, port / n, (port - check) / n, of_crate / n, listed / n);
        print!(" {:11.3} {:12.3}", port / of_crate, port / listed);
        for (library, cid) in LIBRARIES.iter().zip(said) {
            match cid.filter(|_| library.is_here()) {
                Some(cid) => {
                    let time = store::least(10, || assert_eq!(library.select(black_box(cid)), Some(hits)));
                    print!(" {:7.2}", time / n);
                }
                None => print!(" {:>7}", "-"),
            }
        }
        println!();
    }
    from_starts(&words, &pdb);
}
