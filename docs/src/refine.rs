//! Refine: takes a stored mesh and a selection and writes the refined one.

use crate::check::{hanging_edge, judge};
use crate::deliver;
use crate::mesh::{u16_at, u32_at, Mesh, Pairs, Record, Vertex, MOST_RECORDS, MOST_VERTICES};
use crate::piece::{children, ends};

/// "Selection: `TMS` at 0, version 1 at 3, job at 5, round at 9, count n (u16) at 11, then n record
/// numbers (u16)." More than 65,535 numbers have no count and give bytes that 11 refuses.
pub fn selection(job: u32, round: u16, numbers: &[u16]) -> Vec<u8> {
    let mut bytes = Vec::with_capacity(13 + 2 * numbers.len());
    bytes.extend(b"TMS");
    bytes.extend(1u16.to_le_bytes());
    bytes.extend(job.to_le_bytes());
    bytes.extend(round.to_le_bytes());
    bytes.extend((numbers.len() as u16).to_le_bytes());
    bytes.extend(numbers.iter().flat_map(|number| number.to_le_bytes()));
    bytes
}

/// "Refine gives 1 to 20", and 22 and 23 as check does. "Refine and build return the number alone, 0 on
/// acceptance."
pub fn refine(mesh: &[u8], selection: &[u8], out: &mut [u8]) -> u32 {
    deliver(refine_vec(mesh, selection), out)
}

/// "Pass one cuts the selected records; each later pass cuts every leaf that has a hanging edge
/// when the pass begins; it ends when there is none. Within a pass records go in rising number."
/// Refuses with 1 to 19, 22 and 23; the result is as long as it has to be.
pub fn refine_vec(mesh: &[u8], selection: &[u8]) -> Result<Vec<u8>, u32> {
    let (mut mesh, mut pairs) = judge(mesh).map_err(|refusal| refusal.number as u32)?;
    let selected = selected(&mesh, selection)?;
    // "The round rises by 1, also for an empty selection, which cuts nothing." 18: "the round is
    // 65,535".
    mesh.round = mesh.round.checked_add(1).ok_or(18u32)?;

    let mut pass = selected;
    while !pass.is_empty() {
        for number in pass {
            cut(&mut mesh, &mut pairs, number)?;
        }
        pass = mesh
            .leaves()
            .filter(|(_, leaf)| hanging_edge(leaf, &pairs).is_some())
            .map(|(number, _)| number)
            .collect();
    }
    Ok(mesh.bytes())
}

/// The selected records, in rising number, by the rules 11 to 17. Each rule is tried over the whole
/// selection before the next.
fn selected(mesh: &Mesh, selection: &[u8]) -> Result<Vec<usize>, u32> {
    let named = named(mesh, selection)?;
    // "a named record is already cut"
    if named.iter().any(|(_, record)| !record.is_leaf()) {
        return Err(16);
    }
    // "a named record has generation 15"
    if named.iter().any(|(_, record)| record.generation == 15) {
        return Err(17);
    }
    Ok(named.into_iter().map(|(number, _)| number).collect())
}

/// The named records with their numbers, in rising number, by the rules 11 to 15. Each rule is tried
/// over the whole selection before the next.
pub(crate) fn named<'a>(mesh: &'a Mesh, selection: &[u8]) -> Result<Vec<(usize, &'a Record)>, u32> {
    let count = usize::from(u16_at(selection, 11));
    // "selection under 13 bytes, or length not 13 + 2n"
    if selection.len() < 13 || selection.len() != 13 + 2 * count {
        return Err(11);
    }
    // "selection's mark or version wrong"
    if !selection.starts_with(b"TMS") || u16_at(selection, 3) != 1 {
        return Err(12);
    }
    // "another job"
    if u32_at(selection, 5) != mesh.job {
        return Err(13);
    }
    // "another round: the selection has expired"
    if u16_at(selection, 9) != mesh.round {
        return Err(14);
    }
    let numbers: Vec<usize> = (0..count)
        .map(|place| usize::from(u16_at(selection, 13 + 2 * place)))
        .collect();
    // "numbers not strictly rising, or one not below the record count"
    if !numbers.windows(2).all(|two| two[0] < two[1]) {
        return Err(15);
    }
    let record = |number: usize| Some((number, mesh.records.get(number)?));
    let named: Option<Vec<_>> = numbers.into_iter().map(record).collect();
    named.ok_or(15)
}

/// "A cut uses the vertex with that parent pair if there is one, else appends it; then appends its
/// two children and enters the first one's number in the cut record." 19: "the closed result
/// exceeds 1,024 vertices or 3,072 records".
fn cut(mesh: &mut Mesh, pairs: &mut Pairs, number: usize) -> Result<(), u32> {
    // Nothing is ever missing in an accepted mesh; if it were, rule 9 would be the broken one.
    let parent = *mesh.records.get(number).ok_or(9u32)?;
    let ends = ends(&parent, parent.edge).ok_or(9u32)?;
    let w = match pairs.get(&ends) {
        Some(&vertex) => vertex,
        None => {
            if mesh.vertices.len() >= MOST_VERTICES {
                return Err(19);
            }
            let vertex = mesh.vertices.len() as u16;
            mesh.vertices.push(midpoint(mesh, ends).ok_or(9u32)?);
            pairs.insert(ends, vertex);
            vertex
        }
    };
    if mesh.records.len() + 2 > MOST_RECORDS {
        return Err(19);
    }
    let first_child = mesh.records.len() as u16;
    mesh.records.extend(children(&parent, w).ok_or(9u32)?);
    if let Some(record) = mesh.records.get_mut(number) {
        record.first_child = first_child;
    }
    Ok(())
}

/// "A made vertex records its two parents and stands exactly halfway between them." "Halving then
/// never meets an odd sum."
fn midpoint(mesh: &Mesh, (p, q): (u16, u16)) -> Option<Vertex> {
    let (one, other) = (mesh.place(p)?, mesh.place(q)?);
    Some(Vertex {
        place: [0, 1, 2].map(|axis| ((i32::from(one[axis]) + i32::from(other[axis])) / 2) as i16),
        parents: [p, q],
    })
}
