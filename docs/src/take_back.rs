//! Taking cuts back: takes a stored mesh and a request and writes the mesh without the cuts that the
//! request can take back.

use crate::check::judge;
use crate::deliver;
use crate::mesh::{Mesh, Record, Vertex, NO_NUMBER};
use crate::piece::ends;
use crate::refine::named;
use std::collections::HashMap;

/// The number alone, 0 on acceptance: "1 to 15, 18 and 20 as in refine, and 30 for a named record that
/// is uncut, in 16's place"; among refine's are 22 and 23.
pub fn take_back(mesh: &[u8], request: &[u8], out: &mut [u8]) -> u32 {
    deliver(take_back_vec(mesh, request), out)
}

/// "The request names cut records in the selection's layout." Refuses with 1 to 15, 22, 23, 30
/// and 18; the result is as long as it has to be.
pub fn take_back_vec(mesh: &[u8], request: &[u8]) -> Result<Vec<u8>, u32> {
    let (mut mesh, _) = judge(mesh).map_err(|refusal| refusal.number as u32)?;
    let named = named(&mesh, request)?;
    // "a named record that is uncut"
    if named.iter().any(|(_, record)| record.is_leaf()) {
        return Err(30);
    }
    let mut is_named = vec![false; mesh.records.len()];
    for (number, _) in named {
        is_named[number] = true;
    }
    // "The round rises by 1." 18: "the round is 65,535".
    mesh.round = mesh.round.checked_add(1).ok_or(18u32)?;
    let goes = taken_away(&mesh, &is_named);
    Ok(closed_up(mesh, &goes).ok_or(9u32)?.bytes())
}

/// What goes: a mark for each vertex and for each record.
struct Goes {
    vertices: Vec<bool>,
    records: Vec<bool>,
}

/// "A made vertex is taken away exactly when every record cut at it has two leaves as children and all
/// those records are named". With it go both children of each of them. All is judged on the mesh as
/// given.
fn taken_away(mesh: &Mesh, is_named: &[bool]) -> Goes {
    // A record is cut at the vertex that has the ends of its refinement edge as parents.
    let mut cut_at: HashMap<(u16, u16), Vec<usize>> = HashMap::new();
    for (number, record) in mesh.records.iter().enumerate() {
        if let (false, Some(ends)) = (record.is_leaf(), ends(record, record.edge)) {
            cut_at.entry(ends).or_default().push(number);
        }
    }
    let mut goes = Goes {
        vertices: vec![false; mesh.vertices.len()],
        records: vec![false; mesh.records.len()],
    };
    let made = mesh.vertices.iter().enumerate().skip(mesh.base_vertices);
    for (vertex, Vertex { parents, .. }) in made {
        // By rule 9 there is one at least.
        let Some(cut) = cut_at.get(&(*parents).into()) else {
            continue;
        };
        let may_go = |&number: &usize| is_named[number] && children(mesh, number).all(is_leaf);
        if cut.iter().all(may_go) {
            goes.vertices[vertex] = true;
            for &number in cut {
                children(mesh, number).for_each(|(child, _)| goes.records[child] = true);
            }
        }
    }
    goes
}

/// "The second child is the next record": the two of a cut record, with their numbers.
fn children(mesh: &Mesh, number: usize) -> impl Iterator<Item = (usize, &Record)> {
    let first = usize::from(mesh.records[number].first_child);
    mesh.records.iter().enumerate().skip(first).take(2)
}

fn is_leaf((_, record): (usize, &Record)) -> bool {
    record.is_leaf()
}

/// "Records and vertices that remain close up in their order": corners, parents and first children by
/// their new numbers; a record whose children go is uncut. Nothing if what remains refers to a vertex
/// that goes, which can't be.
fn closed_up(mesh: Mesh, goes: &Goes) -> Option<Mesh> {
    let (vertices, records) = (new_numbers(&goes.vertices), new_numbers(&goes.records));
    let vertex = |old: u16| vertices.get(usize::from(old)).copied().flatten();
    let mut closed = Mesh {
        vertices: Vec::with_capacity(mesh.vertices.len()),
        records: Vec::with_capacity(mesh.records.len()),
        ..mesh
    };
    for (number, &old) in mesh.vertices.iter().enumerate() {
        if goes.vertices[number] {
            continue;
        }
        let [p, q] = old.parents;
        let parents = match number < mesh.base_vertices {
            true => old.parents,
            false => [vertex(p)?, vertex(q)?],
        };
        closed.vertices.push(Vertex { parents, ..old });
    }
    for (number, &old) in mesh.records.iter().enumerate() {
        if goes.records[number] {
            continue;
        }
        let [zero, one, two, three] = old.corners.map(vertex);
        let first_child = records.get(usize::from(old.first_child)).copied();
        closed.records.push(Record {
            corners: [zero?, one?, two?, three?],
            first_child: first_child.flatten().unwrap_or(NO_NUMBER),
            ..old
        });
    }
    Some(closed)
}

/// The number that each has when those that go are gone; nothing for these.
fn new_numbers(goes: &[bool]) -> Vec<Option<u16>> {
    let mut next = 0..;
    let number = |&goes: &bool| if goes { None } else { next.next() };
    goes.iter().map(number).collect()
}
