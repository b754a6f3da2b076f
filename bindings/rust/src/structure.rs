// The words of a store read out: pdbtbx lends its parts and their texts for as long as the structure lives, and a packed word can't be
// lent as a text.
use crate::store::RECORD;
use crate::{Atom, Chain, Conformer, Hit, Model, Residue};

pub struct Structure {
    pub models: Vec<Model>,
    places: Vec<Place>,
}

// Of a record, by its number: the record that it stands under, and its index there. "at most 100,000 records"
#[derive(Clone, Copy)]
struct Place {
    parent: u32,
    index: u32,
}

// What a model stands under.
const NO_RECORD: u32 = u32::MAX;

impl Structure {
    // The words are a good store's: the library has checked their layout, and nothing but its edits has changed them since. Words of a
    // caller's own type, which lends others each time, can make this panic, and no more.
    pub fn read(words: &[u64]) -> Self {
        let records = &words[..words[words.len() - 1] as usize];
        Structure { models: models(records), places: places(records) }
    }

    pub fn hit(&self, records: [u32; 5]) -> Hit<'_> {
        let position = records.map(|r| self.places[r as usize].index);
        let model = &self.models[position[0] as usize];
        let chain = &model.chains[position[1] as usize];
        let residue = &chain.residues[position[2] as usize];
        let conformer = &residue.conformers[position[3] as usize];
        let atom = &conformer.atoms[position[4] as usize];
        Hit { records, position, model, chain, residue, conformer, atom }
    }

    pub fn hits(&self) -> impl DoubleEndedIterator<Item = Hit<'_>> + '_ {
        (0..self.places.len() as u32).filter_map(|record| Some(self.hit(self.records(record)?)))
    }

    // Of an atom, from the model down. Only an atom stands four records below a model.
    fn records(&self, atom: u32) -> Option<[u32; 5]> {
        let above = |record: u32| Some(self.places[record as usize].parent).filter(|parent| *parent != NO_RECORD);
        let conformer = above(atom)?;
        let residue = above(conformer)?;
        let chain = above(residue)?;
        Some([above(chain)?, chain, residue, conformer, atom])
    }
}

// From the last record to the first, so that all children of a record are known where it is met, and each list is made as long as it is.
fn models(records: &[u64]) -> Vec<Model> {
    let (mut models, mut chains, mut residues, mut conformers) = (Vec::new(), Vec::new(), Vec::new(), Vec::new());
    let mut behind = records.len();
    for start in (0..records.len()).step_by(RECORD).rev() {
        let record = &records[start..start + RECORD];
        match record[0] {
            1 => models.push(Model::read(record, in_order(&mut chains))),
            2 => chains.push(Chain::read(record, in_order(&mut residues))),
            3 => residues.push(Residue::read(record, in_order(&mut conformers))),
            4 => conformers.push(Conformer::read(record, atoms(&records[start + RECORD..behind]))),
            _ => continue,
        }
        behind = start;
    }
    in_order(&mut models)
}

fn in_order<T>(met: &mut Vec<T>) -> Vec<T> {
    met.drain(..).rev().collect()
}

fn atoms(records: &[u64]) -> Vec<Atom> {
    records.chunks_exact(RECORD).map(Atom::read).collect()
}

// By kind: the record last met, and how many there were under the parent last met.
fn places(records: &[u64]) -> Vec<Place> {
    let (mut last, mut met) = ([NO_RECORD; 6], [0; 7]);
    let place = |(record, number): (&[u64], u32)| {
        let kind = record[0] as usize;
        let place = Place { parent: last[kind - 1], index: met[kind] };
        last[kind] = number;
        met[kind] += 1;
        met[kind + 1] = 0;
        place
    };
    records.chunks_exact(RECORD).zip(0..).map(place).collect()
}
