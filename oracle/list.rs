// A call as the words of a list of edits (docs/FORMATS.md).
use super::port::Call;

pub fn words(call: &Call) -> Vec<u64> {
    let bytes = |t: &[u8]| t.iter().map(|b| *b as u64).collect::<Vec<_>>();
    let (code, numbers, parts): (u64, Vec<u64>, Vec<Vec<u64>>) = match call {
        Call::AddModel(serial) => (1, vec![*serial], vec![]),
        Call::AddAtom { model, chain, residue, code, conformer, location, name, values: v } => (
            2,
            vec![
                *model, *residue, code.flag, location.flag, v.serial, v.x, v.y, v.z, v.occupancy, v.b_factor, v.element, v.charge, v.hetero,
            ],
            vec![bytes(chain), bytes(&code.text), bytes(conformer), bytes(&location.text), bytes(name)],
        ),
        Call::RemoveChain(p) => (3, p.to_vec(), vec![]),
        Call::RemoveResidue(p) => (4, p.to_vec(), vec![]),
        Call::RemoveConformer(p) => (5, p.to_vec(), vec![]),
        Call::RemoveAtom(p) => (6, p.to_vec(), vec![]),
        Call::RemoveChainById(i, id) => (7, vec![*i], vec![bytes(id)]),
        Call::RemoveResidueById(p, serial, o) => (8, vec![p[0], p[1], *serial, o.flag], vec![bytes(&o.text)]),
        Call::RemoveConformerById(p, name, o) => (9, vec![p[0], p[1], p[2], o.flag], vec![bytes(name), bytes(&o.text)]),
        Call::RemoveAtomBySerialNumber(p, serial) => (10, [&p[..], &[*serial]].concat(), vec![]),
        Call::RemoveAtomsBy(i, tree) => (11, vec![*i], vec![tree.clone()]),
        Call::RemoveEmpty(i) => (12, vec![*i], vec![]),
        Call::JoinModels(i, j) => (13, vec![*i, *j], vec![]),
        Call::JoinChains(p, q) => (14, [*p, *q].concat(), vec![]),
        Call::JoinResidues(p, q) => (15, [*p, *q].concat(), vec![]),
        Call::JoinConformers(p, q) => (16, [*p, *q].concat(), vec![]),
        Call::SetElement(p, element) => (17, [&p[..], &[*element]].concat(), vec![]),
    };
    let parts = parts.iter().flat_map(|p| std::iter::once(p.len() as u64).chain(p.iter().copied()));
    let body: Vec<u64> = numbers.iter().copied().chain(parts).collect();
    [&[code, body.len() as u64][..], &body].concat()
}
