//! Build: marks a plain mesh and stores it.

use crate::check::{rule_23_holds, rule_4_holds, rule_5_holds, rule_7_holds, rule_8_holds};
use crate::deliver;
use crate::mesh::{counts_hold, Mesh, Record, Vertex, NO_NUMBER};
use crate::piece::{ends, on_face};
use std::cmp::Reverse;

/// "Build takes a job number, i16 coordinates and u16 corners." "Refine and build return the number
/// alone, 0 on acceptance."
pub fn build(job: u32, coordinates: &[i16], corners: &[u16], out: &mut [u8]) -> u32 {
    deliver(build_vec(job, coordinates, corners), out)
}

/// "Build tries 21, then 3, 4, 5, 7, 8, 20", and 23 "before 20": all but 20, since the result is as
/// long as it has to be.
pub fn build_vec(job: u32, coordinates: &[i16], corners: &[u16]) -> Result<Vec<u8>, u32> {
    if !coordinates.len().is_multiple_of(3) || !corners.len().is_multiple_of(4) {
        return Err(21);
    }
    // Counts are natural numbers: 70,000 vertices get 3.
    let (vertices, records) = (coordinates.len() / 3, corners.len() / 4);
    if !counts_hold(vertices, vertices, records, records) {
        return Err(3);
    }
    let mut mesh = Mesh {
        job,
        // "Flags are 0, generations 0, the round 0."
        round: 0,
        base_vertices: vertices,
        base_records: records,
        vertices: coordinates.chunks_exact(3).map(base_vertex).collect(),
        records: corners.chunks_exact(4).map(unmarked).collect(),
    };
    if !rule_4_holds(&mesh, &mesh.pairs()) {
        return Err(4);
    }
    if !rule_5_holds(&mesh) {
        return Err(5);
    }
    mesh.records = mesh
        .records
        .iter()
        .map(|record| marked(&mesh, &right_handed(&mesh, record)))
        .collect();
    if !rule_7_holds(&mesh) {
        return Err(7);
    }
    if !rule_8_holds(&mesh) {
        return Err(8);
    }
    if !rule_23_holds(&mesh) {
        return Err(23);
    }
    Ok(mesh.bytes())
}

/// "Base vertices come first and have 65,535 for both parents."
fn base_vertex(coordinates: &[i16]) -> Vertex {
    let mut place = [0; 3];
    place.copy_from_slice(coordinates);
    Vertex {
        place,
        parents: [NO_NUMBER; 2],
    }
}

/// "Flags are 0, generations 0": a piece that is not marked yet.
fn unmarked(numbers: &[u16]) -> Record {
    let mut corners = [0; 4];
    corners.copy_from_slice(numbers);
    Record {
        corners,
        edge: 0,
        marks: [0; 4],
        flag: 0,
        generation: 0,
        first_child: NO_NUMBER,
    }
}

/// "Build takes a left-handed piece by exchanging its last two corners before marking."
fn right_handed(mesh: &Mesh, record: &Record) -> Record {
    let mut record = *record;
    if mesh.is_left_handed(&record) {
        record.corners.swap(2, 3);
    }
    record
}

/// "The refinement edge is the first-ranked of the piece, a face's mark the first-ranked of the
/// face."
fn marked(mesh: &Mesh, record: &Record) -> Record {
    let mut ranked = [0, 1, 2, 3, 4, 5].map(|code| (rank(mesh, record, code), code));
    ranked.sort_unstable();
    // The six codes, first-ranked first.
    let codes = ranked.map(|(_, code)| code);
    let first_on = |face| codes.into_iter().find(|&code| on_face(code, face));
    Record {
        edge: codes[0],
        marks: [0, 1, 2, 3].map(|face| first_on(face).unwrap_or(0)),
        ..*record
    }
}

/// "Edges are ranked by squared length, longest first; of equal lengths the one with the smaller
/// lower vertex number ranks first, then the one with the smaller higher number."
fn rank(mesh: &Mesh, record: &Record, code: u8) -> Option<(Reverse<i64>, u16, u16)> {
    let (lower, higher) = ends(record, code)?;
    let (p, q) = (mesh.place(lower)?, mesh.place(higher)?);
    let squared_length = (0..3)
        .map(|axis| (i64::from(p[axis]) - i64::from(q[axis])).pow(2))
        .sum();
    Some((Reverse(squared_length), lower, higher))
}
