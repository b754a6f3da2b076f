// Document 01 read plainly: a machine of nested lists, and what each call answers. It shares nothing with the port.
use crate::port::{Call, Edit, Find, Lookup, NewAtom, Optional};

#[derive(Clone, Debug, PartialEq)]
pub struct Atom {
    pub name: u64,
    pub values: NewAtom,
}

#[derive(Clone, Debug, PartialEq)]
pub struct Conformer {
    pub name: u64,
    pub location: u64,
    pub atoms: Vec<Atom>,
}

#[derive(Clone, Debug, PartialEq)]
pub struct Residue {
    pub serial: u64,
    pub code: u64,
    pub conformers: Vec<Conformer>,
}

#[derive(Clone, Debug, PartialEq)]
pub struct Chain {
    pub id: u64,
    pub residues: Vec<Residue>,
}

#[derive(Clone, Debug, PartialEq)]
pub struct Model {
    pub serial: u64,
    pub chains: Vec<Chain>,
}

pub type Machine = Vec<Model>;

// ---- identifiers

fn is_blank(b: &u8) -> bool {
    (9..=13).contains(b) || *b == 32
}

fn good(text: &[u8]) -> bool {
    text.iter().all(|b| (32..=126).contains(b))
}

fn trim(text: &[u8]) -> &[u8] {
    let start = text.iter().position(|b| !is_blank(b)).unwrap_or(text.len());
    let end = text.iter().rposition(|b| !is_blank(b)).map_or(start, |i| i + 1);
    &text[start..end]
}

pub fn pack(text: &[u8]) -> u64 {
    (0..8).fold(0, |w, i| w << 8 | text.get(i).copied().unwrap_or(0) as u64)
}

fn packed(text: &[u8], raised: bool) -> Option<u64> {
    let text = if raised { text.to_ascii_uppercase() } else { text.to_vec() };
    (text.len() <= 8).then(|| pack(&text))
}

// The bytes that a packed word stands for.
pub fn text_of(word: u64) -> Vec<u8> {
    let bytes = word.to_be_bytes();
    let end = bytes.iter().rposition(|b| *b != 0).map_or(0, |i| i + 1);
    bytes[..end].to_vec()
}

fn chain_id(text: &[u8]) -> Option<u64> {
    let t = trim(text);
    if good(t) && !t.is_empty() { packed(t, false) } else { None }
}

fn raised_name(text: &[u8]) -> Option<u64> {
    let t = trim(text);
    if good(text) && !t.is_empty() { packed(t, true) } else { None }
}

fn code(o: &Optional) -> Option<u64> {
    match o.flag {
        0 => Some(0),
        1 => raised_name(&o.text),
        _ => None,
    }
}

fn location(o: &Optional) -> Option<u64> {
    match o.flag {
        0 => Some(0),
        1 if good(&o.text) && !trim(&o.text).is_empty() => packed(trim(&o.text), true),
        1 => Some(0),
        _ => None,
    }
}

fn atom_name(text: &[u8]) -> Option<u64> {
    let t = trim(text);
    if good(t) { packed(t, true) } else { None }
}

fn matches(text: &[u8], word: u64) -> bool {
    !text.is_empty() && text == text_of(word)
}

fn matches_optional(o: &Optional, word: u64) -> bool {
    if o.flag == 0 { word == 0 } else { matches(&o.text, word) }
}

// ---- records

fn record(words: &mut Vec<u64>, fields: &[u64]) {
    words.extend_from_slice(fields);
    words.resize(words.len() + 12 - fields.len(), 0);
}

pub fn records(m: &Machine) -> Vec<u64> {
    let mut w = Vec::new();
    for model in m {
        record(&mut w, &[1, model.serial]);
        for chain in &model.chains {
            record(&mut w, &[2, chain.id]);
            for residue in &chain.residues {
                record(&mut w, &[3, residue.serial, residue.code]);
                for conformer in &residue.conformers {
                    record(&mut w, &[4, conformer.name, conformer.location]);
                    for atom in &conformer.atoms {
                        let v = &atom.values;
                        let fields = [5, v.serial, atom.name, v.x, v.y, v.z, v.occupancy, v.b_factor, v.element, v.charge, v.hetero];
                        record(&mut w, &fields);
                    }
                }
            }
        }
    }
    w
}

pub fn lay_out(m: &Machine, length: usize) -> Vec<u64> {
    let mut w = records(m);
    let end = w.len() as u64;
    w.resize(length - 1, 0);
    w.push(end);
    w
}

fn good_values(v: &NewAtom) -> bool {
    [v.x, v.y, v.z, v.occupancy, v.b_factor].iter().all(|bits| f64::from_bits(*bits).is_finite()) && v.element <= 118 && v.hetero <= 1
}

// A word is in stored form where its rule, given the text that the word packs, would store that very word.
fn is_stored(word: u64, rule: fn(&[u8]) -> Option<u64>) -> bool {
    rule(&text_of(word)) == Some(word)
}

fn is_stored_or_absent(word: u64) -> bool {
    word == 0 || is_stored(word, raised_name)
}

// Below what stands last; none without a parent, or where a word isn't good.
fn put(m: &mut Machine, w: &[u64]) -> Option<()> {
    if w[0] == 1 {
        m.push(Model { serial: w[1], chains: Vec::new() });
        return Some(());
    }
    let chains = &mut m.last_mut()?.chains;
    if w[0] == 2 {
        chains.push(Chain { id: w[1], residues: Vec::new() });
        return is_stored(w[1], chain_id).then_some(());
    }
    let residues = &mut chains.last_mut()?.residues;
    if w[0] == 3 {
        residues.push(Residue { serial: w[1], code: w[2], conformers: Vec::new() });
        return is_stored_or_absent(w[2]).then_some(());
    }
    let conformers = &mut residues.last_mut()?.conformers;
    if w[0] == 4 {
        conformers.push(Conformer { name: w[1], location: w[2], atoms: Vec::new() });
        return (is_stored(w[1], raised_name) && is_stored_or_absent(w[2])).then_some(());
    }
    let [serial, name, x, y, z, occupancy, b_factor, element, charge, hetero] = w[1..11].try_into().unwrap();
    let values = NewAtom { serial, x, y, z, occupancy, b_factor, element, charge, hetero };
    conformers.last_mut()?.atoms.push(Atom { name, values });
    (is_stored(name, atom_name) && good_values(&values)).then_some(())
}

// The machine that words hold. Every word that isn't named, and every one between the records and the trailer, is as `lay_out` has it.
pub fn read_store(words: &[u64]) -> Result<Machine, u64> {
    if words.is_empty() || words.len() > 1_200_001 {
        return Err(1);
    }
    let end = usize::try_from(words[words.len() - 1]).ok().filter(|end| end % 12 == 0 && *end < words.len()).ok_or(2u64)?;
    let mut m = Machine::new();
    words[..end].chunks(12).try_for_each(|w| put(&mut m, w)).ok_or(2u64)?;
    if lay_out(&m, words.len()) == words { Ok(m) } else { Err(2) }
}

fn atoms(m: &Machine) -> u64 {
    m.iter().flat_map(|m| &m.chains).flat_map(|c| &c.residues).flat_map(|r| &r.conformers).map(|f| f.atoms.len() as u64).sum()
}

// ---- edits

type Step = Result<u64, u64>;

fn at<T>(list: &mut [T], i: u64) -> Result<&mut T, u64> {
    list.get_mut(usize::try_from(i).unwrap_or(usize::MAX)).ok_or(5)
}

fn chain_at<'a>(m: &'a mut Machine, p: &[u64]) -> Result<&'a mut Chain, u64> {
    at(&mut at(m, p[0])?.chains, p[1])
}

fn residue_at<'a>(m: &'a mut Machine, p: &[u64]) -> Result<&'a mut Residue, u64> {
    at(&mut chain_at(m, p)?.residues, p[2])
}

fn conformer_at<'a>(m: &'a mut Machine, p: &[u64]) -> Result<&'a mut Conformer, u64> {
    at(&mut residue_at(m, p)?.conformers, p[3])
}

fn remove_at<T>(list: &mut Vec<T>, i: u64) -> Step {
    at(list, i)?;
    list.remove(i as usize);
    Ok(1)
}

fn remove_first<T>(list: &mut Vec<T>, is: impl Fn(&T) -> bool) -> Step {
    match list.iter().position(is) {
        Some(i) => {
            list.remove(i);
            Ok(1)
        }
        None => Ok(0),
    }
}

fn flag(o: &Optional, refusal: u64) -> Result<(), u64> {
    if o.flag > 1 { Err(refusal) } else { Ok(()) }
}

fn room(m: &Machine, new: usize, length: usize) -> Result<(), u64> {
    if records(m).len() / 12 + new > (length - 1) / 12 { Err(8) } else { Ok(()) }
}

#[allow(clippy::too_many_arguments)]
fn add_atom(
    m: &mut Machine,
    length: usize,
    model: u64,
    chain: &[u8],
    residue: u64,
    code_given: &Optional,
    conformer: &[u8],
    location_given: &Optional,
    name: &[u8],
    v: &NewAtom,
) -> Step {
    at(m, model)?;
    let id = chain_id(chain).ok_or(6u64)?;
    let code_word = code(code_given).ok_or(14u64)?;
    let conformer_name = raised_name(conformer).ok_or(15u64)?;
    let location_word = location(location_given).ok_or(15u64)?;
    let name = atom_name(name).ok_or(16u64)?;
    if !good_values(v) {
        return Err(7);
    }
    let chains = &m[model as usize].chains;
    let c = chains.iter().position(|c| c.id == id);
    let r = c.and_then(|c| {
        chains[c].residues.iter().rposition(|r| r.serial == residue && r.code == code_word)
    });
    let f = c.zip(r).and_then(|(c, r)| {
        let conformers = &chains[c].residues[r].conformers;
        conformers.iter().position(|f| f.name == conformer_name && f.location == location_word)
    });
    let new = 1 + c.is_none() as usize + r.is_none() as usize + f.is_none() as usize;
    room(m, new, length)?;
    let chains = &mut m[model as usize].chains;
    let c = c.unwrap_or_else(|| {
        chains.push(Chain { id, residues: Vec::new() });
        chains.len() - 1
    });
    let residues = &mut chains[c].residues;
    let r = r.unwrap_or_else(|| {
        residues.push(Residue { serial: residue, code: code_word, conformers: Vec::new() });
        residues.len() - 1
    });
    let conformers = &mut residues[r].conformers;
    let f = f.unwrap_or_else(|| {
        conformers.push(Conformer { name: conformer_name, location: location_word, atoms: Vec::new() });
        conformers.len() - 1
    });
    conformers[f].atoms.push(Atom { name, values: *v });
    Ok(1)
}

// One call; a refused addition leaves the machine as it was.
pub fn step(m: &mut Machine, length: usize, call: &Call) -> Step {
    match call {
        Call::AddModel(serial) => {
            room(m, 1, length)?;
            m.push(Model { serial: *serial, chains: Vec::new() });
            Ok(1)
        }
        Call::AddAtom { model, chain, residue, code, conformer, location, name, values } => {
            add_atom(m, length, *model, chain, *residue, code, conformer, location, name, values)
        }
        Call::RemoveChain(p) => remove_at(&mut at(m, p[0])?.chains, p[1]),
        Call::RemoveResidue(p) => remove_at(&mut chain_at(m, p)?.residues, p[2]),
        Call::RemoveConformer(p) => remove_at(&mut residue_at(m, p)?.conformers, p[3]),
        Call::RemoveAtom(p) => remove_at(&mut conformer_at(m, p)?.atoms, p[4]),
        Call::RemoveChainById(i, id) => remove_first(&mut at(m, *i)?.chains, |c| matches(id, c.id)),
        Call::RemoveResidueById(p, serial, o) => {
            let residues = &mut chain_at(m, p)?.residues;
            flag(o, 14)?;
            remove_first(residues, |r| r.serial == *serial && matches_optional(o, r.code))
        }
        Call::RemoveConformerById(p, name, o) => {
            let conformers = &mut residue_at(m, p)?.conformers;
            flag(o, 15)?;
            remove_first(conformers, |f| matches(name, f.name) && matches_optional(o, f.location))
        }
        Call::RemoveAtomBySerialNumber(p, serial) => remove_first(&mut conformer_at(m, p)?.atoms, |a| a.values.serial == *serial),
        Call::RemoveAtomsBy(i, tree) => {
            let model = at(m, *i)?;
            let tree = read_tree(tree)?;
            for f in model.chains.iter_mut().flat_map(|c| &mut c.residues).flat_map(|r| &mut r.conformers) {
                f.atoms.retain(|a| value(&tree, &|t| atom_term(t, a)) != Some(true));
            }
            Ok(1)
        }
        Call::RemoveEmpty(i) => {
            let model = at(m, *i)?;
            for r in model.chains.iter_mut().flat_map(|c| &mut c.residues) {
                r.conformers.retain(|f| !f.atoms.is_empty());
            }
            for c in &mut model.chains {
                c.residues.retain(|r| !r.conformers.is_empty());
            }
            model.chains.retain(|c| !c.residues.is_empty());
            Ok(1)
        }
        Call::JoinModels(i, j) => {
            at(m, *i)?;
            let second = at(m, *j)?.chains.clone();
            other(&[*i], &[*j])?;
            at(m, *i)?.chains.extend(second);
            m.remove(*j as usize);
            Ok(1)
        }
        Call::JoinChains(p, q) => {
            chain_at(m, p)?;
            let second = chain_at(m, q)?.residues.clone();
            other(p, q)?;
            chain_at(m, p)?.residues.extend(second);
            remove_at(&mut at(m, q[0])?.chains, q[1])
        }
        Call::JoinResidues(p, q) => {
            residue_at(m, p)?;
            let second = residue_at(m, q)?.conformers.clone();
            other(p, q)?;
            residue_at(m, p)?.conformers.extend(second);
            remove_at(&mut chain_at(m, q)?.residues, q[2])
        }
        Call::JoinConformers(p, q) => {
            conformer_at(m, p)?;
            let second = conformer_at(m, q)?.atoms.clone();
            other(p, q)?;
            conformer_at(m, p)?.atoms.extend(second);
            remove_at(&mut residue_at(m, q)?.conformers, q[3])
        }
        Call::SetElement(p, element) => {
            let atom = at(&mut conformer_at(m, p)?.atoms, p[4])?;
            match (element, atom.values.element) {
                (0 | 119.., _) => Err(7),
                (_, 0) => {
                    atom.values.element = *element;
                    Ok(1)
                }
                _ => Ok(0),
            }
        }
    }
}

fn other(p: &[u64], q: &[u64]) -> Result<(), u64> {
    if p == q { Err(9) } else { Ok(()) }
}

pub fn edit(m: &mut Machine, length: usize, call: &Call) -> Edit {
    let before = m.clone();
    match step(m, length, call) {
        Ok(found) => Edit { result: 0, found, removed: atoms(&before).saturating_sub(atoms(m)) },
        Err(result) => {
            *m = before;
            Edit { result, found: 0, removed: 0 }
        }
    }
}

// ---- trees

#[derive(Clone, Debug)]
pub enum Tree {
    Term(u64, u64, u64),
    Ops(u64, Box<Tree>, Box<Tree>),
    Not(Box<Tree>),
    Known(bool),
}

fn is_packed(word: u64) -> bool {
    let text = text_of(word);
    good(&text)
}

fn good_node(code: u64, p: u64, q: u64) -> bool {
    match code {
        1 | 5 | 12 | 16 | 18 => q == 0,
        2 | 6 | 13 | 17 | 19 => true,
        3 | 7 | 9 | 10 | 14 => is_packed(p) && q == 0,
        4 | 11 => is_packed(p) && is_packed(q),
        8 => is_packed(q),
        15 => (1..=118).contains(&p) && q == 0,
        20..=28 => p == 0 && q == 0,
        _ => false,
    }
}

pub fn read_tree(words: &[u64]) -> Result<Tree, u64> {
    if words.len() < 3 || words.len() > 381 || words.len() % 3 != 0 {
        return Err(3);
    }
    if words.chunks(3).any(|n| !good_node(n[0], n[1], n[2])) {
        return Err(4);
    }
    let mut stack = Vec::new();
    for n in words.chunks(3) {
        let tree = match n[0] {
            23..=25 => {
                let b = stack.pop().ok_or(3u64)?;
                let a = stack.pop().ok_or(3u64)?;
                Tree::Ops(n[0], Box::new(a), Box::new(b))
            }
            26 => Tree::Not(Box::new(stack.pop().ok_or(3u64)?)),
            27 | 28 => Tree::Known(n[0] == 28),
            _ => Tree::Term(n[0], n[1], n[2]),
        };
        stack.push(tree);
    }
    let tree = stack.pop().ok_or(3u64)?;
    if stack.is_empty() { Ok(tree) } else { Err(3) }
}

// Kleene's tables.
pub fn value(tree: &Tree, term: &dyn Fn((u64, u64, u64)) -> Option<bool>) -> Option<bool> {
    match tree {
        Tree::Term(c, p, q) => term((*c, *p, *q)),
        Tree::Known(b) => Some(*b),
        Tree::Not(a) => value(a, term).map(|b| !b),
        Tree::Ops(o, a, b) => match (o, value(a, term), value(b, term)) {
            (23, Some(false), _) | (23, _, Some(false)) => Some(false),
            (23, Some(true), Some(true)) => Some(true),
            (24, Some(true), _) | (24, _, Some(true)) => Some(true),
            (24, Some(false), Some(false)) => Some(false),
            (25, Some(a), Some(b)) => Some(a != b),
            _ => None,
        },
    }
}

const AMINO_ACIDS: [&str; 31] = [
    "ALA", "ARG", "ASH", "ASN", "ASP", "ASX", "CYS", "CYX", "GLH", "GLN", "GLU", "GLY", "HID", "HIE", "HIM", "HIP", "HIS", "ILE",
    "LEU", "LYN", "LYS", "MET", "PHE", "PRO", "SER", "THR", "TRP", "TYR", "VAL", "SEC", "PYL",
];
const BACKBONE_NAMES: [&str; 11] = ["N", "CA", "C", "O", "H", "H1", "H2", "H3", "HA", "HA2", "HA3"];

fn among(names: &[&str], word: u64) -> bool {
    names.iter().any(|n| pack(n.as_bytes()) == word)
}

pub fn is_amino_acid(name: u64) -> bool {
    among(&AMINO_ACIDS, name)
}

fn close(bits: u64, q: u64) -> bool {
    (f64::from_bits(bits) - f64::from_bits(q)).abs() < 2f64.powi(-52)
}

fn between_floats(low: u64, high: u64, bits: u64) -> bool {
    let x = f64::from_bits(bits);
    f64::from_bits(low) <= x && x <= f64::from_bits(high)
}

fn atom_term((code, p, q): (u64, u64, u64), a: &Atom) -> Option<bool> {
    let v = &a.values;
    match code {
        12 => Some(v.serial == p),
        13 => Some(p <= v.serial && v.serial <= q),
        14 => Some(a.name == p),
        15 if v.element == 0 => None,
        15 => Some(v.element == p),
        16 => Some(close(v.b_factor, p)),
        17 => Some(between_floats(p, q, v.b_factor)),
        18 => Some(close(v.occupancy, p)),
        19 => Some(between_floats(p, q, v.occupancy)),
        // Change request §8: "Hetero goes first".
        20 | 21 if v.hetero == 1 => Some(false),
        20 => Some(among(&BACKBONE_NAMES, a.name)),
        21 => Some(!among(&BACKBONE_NAMES, a.name)),
        22 => Some(v.hetero == 1),
        _ => None,
    }
}

// From a start of so many indexes. Change request §4: "Terms of the start's own level and above stay undecided". From a conformer its name
// isn't looked at, so Backbone and SideChain go by the atom alone.
fn term(t: (u64, u64, u64), start: usize, m: &Model, c: &Chain, r: &Residue, f: &Conformer, a: &Atom) -> Option<bool> {
    let (code, p, q) = t;
    let serial = r.serial as i64;
    match code {
        1 | 2 if start >= 1 => None,
        3 | 4 if start >= 2 => None,
        5..=8 if start >= 3 => None,
        9..=11 if start >= 4 => None,
        1 => Some(m.serial == p),
        2 => Some(p <= m.serial && m.serial <= q),
        3 => Some(c.id == p),
        4 => Some(p <= c.id && c.id <= q),
        5 => Some(serial == p as i64),
        6 => Some(p as i64 <= serial && serial <= q as i64),
        7 => Some(r.code == p),
        8 => Some(serial == p as i64 && r.code == q),
        9 => Some(f.name == p),
        10 => Some(f.location == p),
        11 => Some(f.name == p && f.location == q),
        20 | 21 if start < 4 && !is_amino_acid(f.name) => Some(false),
        _ => atom_term(t, a),
    }
}

// The four indexes above each stored atom, its five record numbers, and its place.
fn each_atom(m: &Machine, mut visit: impl FnMut([u64; 4], [u64; 5], &Model, &Chain, &Residue, &Conformer, &Atom)) {
    let mut n = 0;
    let mut next = || {
        n += 1;
        n - 1
    };
    for (m, model) in (0..).zip(m) {
        let i = next();
        for (c, chain) in (0..).zip(&model.chains) {
            let j = next();
            for (r, residue) in (0..).zip(&chain.residues) {
                let k = next();
                for (f, conformer) in (0..).zip(&residue.conformers) {
                    let l = next();
                    for atom in &conformer.atoms {
                        visit([m, c, r, f], [i, j, k, l, next()], model, chain, residue, conformer, atom);
                    }
                }
            }
        }
    }
}

// Every position of so many indexes, from the model down.
pub fn positions(m: &Machine, indexes: usize) -> Vec<Vec<u64>> {
    let mut all = vec![vec![]];
    for (i, model) in (0..).zip(m) {
        all.push(vec![i]);
        for (j, chain) in (0..).zip(&model.chains) {
            all.push(vec![i, j]);
            for (k, residue) in (0..).zip(&chain.residues) {
                all.push(vec![i, j, k]);
                all.extend((0..).zip(&residue.conformers).map(|(l, _)| vec![i, j, k, l]));
            }
        }
    }
    all.retain(|p| p.len() == indexes);
    all
}

// How many parts stand right below a position of none to three indexes.
pub fn children(m: &Machine, parent: &[u64]) -> u64 {
    positions(m, parent.len() + 1).iter().filter(|p| p.starts_with(parent)).count() as u64
}

fn hits(m: &Machine, start: &[u64], tree: &[u64]) -> Result<Vec<u64>, u64> {
    if positions(m, start.len()).iter().all(|p| p != start) {
        return Err(5);
    }
    let tree = read_tree(tree)?;
    let mut hits = Vec::new();
    each_atom(m, |above, at, m, c, r, f, a| {
        if above.starts_with(start) && value(&tree, &|t| term(t, start.len(), m, c, r, f, a)) != Some(false) {
            hits.extend(at);
        }
    });
    Ok(hits)
}

// A refusal has no hits and leaves the output.
pub fn find(m: &Machine, start: &[u64], tree: &[u64], out: &mut [u64]) -> Find {
    match hits(m, start, tree) {
        Err(result) => Find { result, hits: 0 },
        Ok(hits) if hits.len() > out.len() => Find { result: 10, hits: 0 },
        Ok(hits) => {
            out[..hits.len()].copy_from_slice(&hits);
            Find { result: 0, hits: hits.len() as u64 / 5 }
        }
    }
}

// ---- lookup

fn spans<'a>(serial: u64, mut atoms: impl DoubleEndedIterator<Item = &'a Atom>) -> bool {
    match (atoms.next().map(|a| a.values.serial), atoms.next_back().map(|a| a.values.serial)) {
        (None, _) => false,
        (Some(first), last) => first <= serial && serial <= last.unwrap_or(first),
    }
}

fn lookup_in(model: &Model, serial: u64, o: &Optional) -> Option<[u64; 5]> {
    let mut number = 1;
    let chain = model.chains.iter().find(|c| {
        let here = spans(serial, c.residues.iter().flat_map(|r| &r.conformers).flat_map(|f| &f.atoms));
        if !here {
            number += 1 + c.residues.iter().map(|r| 1 + r.conformers.iter().map(|f| 1 + f.atoms.len()).sum::<usize>()).sum::<usize>();
        }
        here
    })?;
    let chain_number = number;
    number += 1;
    let residue = chain.residues.iter().find(|r| {
        let here = spans(serial, r.conformers.iter().flat_map(|f| &f.atoms));
        if !here {
            number += 1 + r.conformers.iter().map(|f| 1 + f.atoms.len()).sum::<usize>();
        }
        here
    })?;
    let residue_number = number;
    number += 1;
    let conformer = residue.conformers.iter().find(|f| {
        let here = matches_optional(o, f.location) && spans(serial, f.atoms.iter()) && f.atoms.iter().any(|a| a.values.serial == serial);
        if !here {
            number += 1 + f.atoms.len();
        }
        here
    })?;
    let atom = number + 1 + conformer.atoms.iter().position(|a| a.values.serial == serial)?;
    Some([0, chain_number as u64, residue_number as u64, number as u64, atom as u64])
}

pub fn lookup(m: &Machine, serial: u64, o: &Optional) -> Lookup {
    if let Err(result) = flag(o, 15) {
        return Lookup { result, found: 0, at: [0; 5] };
    }
    match m.first().and_then(|model| lookup_in(model, serial, o)) {
        Some(at) => Lookup { result: 0, found: 1, at },
        None => Lookup { result: 0, found: 0, at: [0; 5] },
    }
}
