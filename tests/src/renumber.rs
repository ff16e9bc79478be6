//! Other numberings of a mesh. Any with parents below their made vertex and children, in adjacent
//! pairs, above their parent is accepted.

use crate::random::Random;
use second::mesh::{Mesh, Record, Vertex, NO_NUMBER};
use second::piece::ends;

/// The same mesh with its vertices and records in another random order. The number that check gives
/// and the three figures stay as they are.
pub fn renumbered(mesh: &Mesh, random: &mut Random) -> Mesh {
    let vertices = vertex_order(mesh, random);
    let records = record_order(mesh, &inverse(&vertices), random);
    reordered(mesh, &vertices, &records)
}

/// The made vertices in any order: parents may be above them, and all else is right.
pub fn with_any_vertex_order(mesh: &Mesh, random: &mut Random) -> Mesh {
    let mut vertices: Vec<usize> = (0..mesh.vertices.len()).collect();
    random.shuffle(&mut vertices[mesh.base_vertices..]);
    let records = record_order(mesh, &inverse(&vertices), random);
    reordered(mesh, &vertices, &records)
}

/// The pairs of children in any order: they may be below their parent, and all else is right.
pub fn with_any_pair_order(mesh: &Mesh, random: &mut Random) -> Mesh {
    let vertices: Vec<usize> = (0..mesh.vertices.len()).collect();
    let records = record_order(mesh, &inverse(&vertices), random);
    let (base, beyond) = records.split_at(mesh.base_records);
    let mut pairs: Vec<&[usize]> = beyond.chunks(2).collect();
    random.shuffle(&mut pairs);
    let records = [base, &pairs.concat()].concat();
    reordered(mesh, &vertices, &records)
}

/// The mesh with its vertices and records in a new order, given by their old numbers.
fn reordered(mesh: &Mesh, vertices: &[usize], records: &[usize]) -> Mesh {
    let (new_vertices, new_records) = (inverse(vertices), inverse(records));
    let number_of = |old: u16| new_vertices[usize::from(old)];
    let vertex = |&old: &usize| {
        let Vertex { place, parents } = mesh.vertices[old];
        let mut parents = match old < mesh.base_vertices {
            true => parents,
            false => parents.map(number_of),
        };
        parents.sort_unstable();
        Vertex { place, parents }
    };
    let record = |&old: &usize| {
        let before = mesh.records[old];
        let first_child = match before.first_child {
            NO_NUMBER => NO_NUMBER,
            first => new_records[usize::from(first)].min(new_records[usize::from(first) + 1]),
        };
        Record {
            corners: before.corners.map(number_of),
            first_child,
            ..before
        }
    };
    Mesh {
        vertices: vertices.iter().map(vertex).collect(),
        records: records.iter().map(record).collect(),
        ..mesh.clone()
    }
}

/// The new number of each old one, from the old numbers in their new order.
fn inverse(order: &[usize]) -> Vec<u16> {
    let mut numbers = vec![0; order.len()];
    for (new, &old) in order.iter().enumerate() {
        numbers[old] = new as u16;
    }
    numbers
}

/// The old vertex numbers in a new order: base vertices first, a made vertex once both its parents
/// are there.
fn vertex_order(mesh: &Mesh, random: &mut Random) -> Vec<usize> {
    let mut order: Vec<usize> = (0..mesh.base_vertices).collect();
    random.shuffle(&mut order);
    let mut there = vec![false; mesh.vertices.len()];
    there[..mesh.base_vertices].fill(true);
    let mut waiting: Vec<usize> = (mesh.base_vertices..mesh.vertices.len()).collect();
    while !waiting.is_empty() {
        let ready = |&at: &usize| {
            let parents = mesh.vertices[waiting[at]].parents;
            parents.iter().all(|&parent| there[usize::from(parent)])
        };
        let ready: Vec<usize> = (0..waiting.len()).filter(ready).collect();
        let at = random.pick(&ready).expect("parents are below");
        let next = waiting.swap_remove(at);
        there[next] = true;
        order.push(next);
    }
    order
}

/// The old record numbers in a new order: base records first, a pair of children once their parent
/// is there.
fn record_order(mesh: &Mesh, numbers: &[u16], random: &mut Random) -> Vec<usize> {
    let mut order: Vec<usize> = (0..mesh.base_records).collect();
    random.shuffle(&mut order);
    let mut ready: Vec<usize> = order.clone();
    ready.retain(|&number| !mesh.records[number].is_leaf());
    while !ready.is_empty() {
        let parent = ready.swap_remove(random.below(ready.len()));
        let record = &mesh.records[parent];
        let first = usize::from(record.first_child);
        let (u, v) = ends(record, record.edge).expect("an edge code");
        // "The first child has w in v's slot": where the ends' order turned, so does the children's.
        let turned = numbers[usize::from(u)] > numbers[usize::from(v)];
        let pair = match turned {
            false => [first, first + 1],
            true => [first + 1, first],
        };
        order.extend(pair);
        ready.extend(pair.iter().filter(|&&child| !mesh.records[child].is_leaf()));
    }
    order
}
