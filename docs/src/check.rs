//! Check: judges a stored mesh by the rules 1 to 10, 22 and 23.

use crate::mesh::{Mesh, Pairs, Record, MOST_VERTICES, NO_NUMBER};
use crate::piece::{children, ends, properly_marked};
use std::collections::{HashMap, HashSet};
use std::ops::RangeInclusive;

/// "On acceptance it returns number 0, leaves, greatest leaf generation and summed sixfold volume
/// of the leaves; with a refusal these three are 0." "With 10 it also returns the first leaf edge
/// found hanging, by record and then edge code; with any other answer both are 0."
#[derive(Debug, Default, PartialEq, Eq, Clone, Copy)]
pub struct Report {
    pub number: u64,
    pub leaves: u64,
    pub deepest: u64,
    pub sixfold: u64,
    pub record: u64,
    pub edge: u64,
}

/// "Check judges a stored mesh": "Check gives 1 to 10", document 02's 22 and 23, or 0.
pub fn check(mesh: &[u8]) -> Report {
    match judge(mesh) {
        Err(refusal) => refusal,
        Ok((mesh, _)) => {
            let leaves = || mesh.leaves().map(|(_, leaf)| leaf);
            Report {
                number: 0,
                leaves: leaves().count() as u64,
                deepest: leaves()
                    .map(|leaf| leaf.generation.into())
                    .max()
                    .unwrap_or(0),
                // "Every place that sums volumes takes the absolute value itself." At most 3,072
                // leaves, each below 6 times 2^48: the sum fits 64 bits.
                sixfold: leaves()
                    .filter_map(|leaf| mesh.signed(leaf))
                    .map(i64::unsigned_abs)
                    .sum(),
                record: 0,
                edge: 0,
            }
        }
    }
}

/// A refusal that returns no place.
fn refused(number: u32) -> Report {
    Report {
        number: number.into(),
        ..Report::default()
    }
}

/// "The first rule broken, in the order of the numbers, names the refusal"; 22 is "tried after 5 and
/// before 6", 23 "after 8 and before 9". An accepted mesh comes back with its made vertices by parent
/// pair.
pub(crate) fn judge(bytes: &[u8]) -> Result<(Mesh, Pairs), Report> {
    let mesh = Mesh::read(bytes).map_err(refused)?;
    let pairs = mesh.pairs();
    if !rule_4_holds(&mesh, &pairs) {
        return Err(refused(4));
    }
    if !rule_5_holds(&mesh) {
        return Err(refused(5));
    }
    if !rule_22_holds(&mesh) {
        return Err(refused(22));
    }
    if !rule_6_holds(&mesh) {
        return Err(refused(6));
    }
    if !rule_7_holds(&mesh) {
        return Err(refused(7));
    }
    if !rule_8_holds(&mesh) {
        return Err(refused(8));
    }
    if !rule_23_holds(&mesh) {
        return Err(refused(23));
    }
    if !rule_9_holds(&mesh, &pairs) {
        return Err(refused(9));
    }
    if let Some((record, edge)) = first_hanging(&mesh, &pairs) {
        return Err(Report {
            number: 10,
            record,
            edge,
            ..Report::default()
        });
    }
    Ok((mesh, pairs))
}

/// 4: "base coordinate off the grid, base parent not 65,535, two base vertices at one place; made
/// vertex without p < q < its own number, not exactly halfway, or a parent pair used twice".
pub(crate) fn rule_4_holds(mesh: &Mesh, pairs: &Pairs) -> bool {
    let mut base_places = HashSet::with_capacity(mesh.base_vertices);
    let base_holds = mesh.vertices.iter().take(mesh.base_vertices).all(|vertex| {
        vertex.place.into_iter().all(on_grid)
            && vertex.parents == [NO_NUMBER; 2]
            // Places are compared between base vertices only.
            && base_places.insert(vertex.place)
    });
    let made = || (0..).zip(&mesh.vertices).skip(mesh.base_vertices);
    base_holds
        && made().all(|(number, vertex)| {
            let [p, q] = vertex.parents;
            p < q && q < number && stands_halfway(mesh, vertex.place, p, q)
        })
        // A pair used twice has only one place in the map.
        && pairs.len() == made().count()
}

/// "Base coordinates are multiples of 32 from -32,736 to 32,736."
fn on_grid(coordinate: i16) -> bool {
    coordinate % 32 == 0 && (-32_736..=32_736).contains(&coordinate)
}

/// "A made vertex records its two parents and stands exactly halfway between them."
fn stands_halfway(mesh: &Mesh, place: [i16; 3], p: u16, q: u16) -> bool {
    match (mesh.place(p), mesh.place(q)) {
        (Some(p), Some(q)) => {
            (0..3).all(|axis| 2 * i32::from(place[axis]) == i32::from(p[axis]) + i32::from(q[axis]))
        }
        _ => false,
    }
}

/// The base records: "Base records come first."
fn base(mesh: &Mesh) -> impl Iterator<Item = &Record> {
    mesh.records.iter().take(mesh.base_records)
}

/// 5: "base record with equal corners, a corner not in the base, sixfold volume 0, generation or
/// flag not 0".
pub(crate) fn rule_5_holds(mesh: &Mesh) -> bool {
    base(mesh).all(|record| {
        let equal_corners = (0..6).any(|code| ends(record, code).is_some_and(|(p, q)| p == q));
        let in_base = |corner: u16| usize::from(corner) < mesh.base_vertices;
        !equal_corners
            && record.corners.into_iter().all(in_base)
            && mesh.signed(record).is_some_and(|value| value != 0)
            && record.generation == 0
            && record.flag == 0
    })
}

/// 22: "a base record with a negative value". Later records have their base record's sign: "a child's
/// signed value is exactly half of its parent's".
fn rule_22_holds(mesh: &Mesh) -> bool {
    !base(mesh).any(|record| mesh.is_left_handed(record))
}

/// 6: "base record with an edge code above 5, a mark not on its face, or a refinement face not
/// marked with the refinement edge".
fn rule_6_holds(mesh: &Mesh) -> bool {
    base(mesh).all(properly_marked)
}

/// 7: "a face in three base records, two base records with the same four corners, or a shared face
/// with two marks". Marks are compared by their two vertices, not by their codes.
pub(crate) fn rule_7_holds(mesh: &Mesh) -> bool {
    let mut pieces = HashSet::with_capacity(mesh.base_records);
    // Four faces a record at most, since faces are shared: the map never grows.
    let mut faces = HashMap::with_capacity(4 * mesh.base_records);
    base(mesh).all(|record| {
        let mut corners = record.corners;
        corners.sort_unstable();
        pieces.insert(corners)
            && (0..4).zip(record.marks).all(|(slot, mark)| {
                let mark = ends(record, mark);
                let (count, first_mark) = faces.entry(face(record, slot)).or_insert((0, mark));
                *count += 1;
                *count < 3 && *first_mark == mark
            })
    })
}

/// "Face i is the face without slot i": its three corners as a set.
fn face(record: &Record, slot: usize) -> [u16; 3] {
    let [zero, one, two, three] = record.corners;
    let mut corners = match slot {
        0 => [one, two, three],
        1 => [zero, two, three],
        2 => [zero, one, three],
        _ => [zero, one, two],
    };
    corners.sort_unstable();
    corners
}

/// 8: "a base vertex in no base record". "For rule 8 keep one count for each of the 1,024 possible
/// vertices."
pub(crate) fn rule_8_holds(mesh: &Mesh) -> bool {
    let mut uses = [0u32; MOST_VERTICES];
    for corner in base(mesh).flat_map(|record| record.corners) {
        if let Some(count) = uses.get_mut(usize::from(corner)) {
            *count += 1;
        }
    }
    uses.iter().take(mesh.base_vertices).all(|&count| count > 0)
}

/// 23: "Document 002 has a vertex hang on a piece if it lies in the closed piece and isn't one of its
/// corners. For base meshes that meaning holds from now on, by exact determinants. Pieces that overlap
/// with no vertex inside one another stay unjudged." The plain way: every base vertex against every base
/// record.
pub(crate) fn rule_23_holds(mesh: &Mesh) -> bool {
    base(mesh).all(|record| {
        let reach = reach(mesh, record);
        // What lies in a piece lies in its box; most vertices don't, and need no determinant.
        let in_box = |place: [i16; 3]| (0..3).all(|axis| reach[axis].contains(&place[axis]));
        let mut base_vertices = (0..).zip(&mesh.vertices).take(mesh.base_vertices);
        !base_vertices.any(|(number, vertex)| {
            !record.corners.contains(&number)
                && in_box(vertex.place)
                && lies_in(mesh, number, record)
        })
    })
}

/// The box of a piece: along each axis from its least corner to its greatest. By rule 5 there are four.
fn reach(mesh: &Mesh, record: &Record) -> [RangeInclusive<i16>; 3] {
    let places = record.corners.map(|corner| mesh.place(corner));
    [0, 1, 2].map(|axis| {
        let along = || places.iter().flatten().map(|place| place[axis]);
        along().min().unwrap_or(0)..=along().max().unwrap_or(0)
    })
}

/// Whether a vertex "lies in the closed piece", "by exact determinants": of the four with one corner
/// replaced by the vertex none has the sign opposite to the piece's own, which is not 0 by rule 5.
fn lies_in(mesh: &Mesh, vertex: u16, record: &Record) -> bool {
    let sign = |corners: [u16; 4]| {
        let value = mesh.signed(&Record { corners, ..*record });
        value.map_or(0, i64::signum)
    };
    let own = sign(record.corners);
    (0..4).all(|slot| {
        let mut corners = record.corners;
        corners[slot] = vertex;
        sign(corners) != -own
    })
}

/// 9: "a cut record whose children aren't what cutting gives, or don't have greater numbers; a
/// record beyond the base that isn't the child of exactly one; a made vertex that is the midpoint
/// of no cut record's refinement edge; a generation above 15".
fn rule_9_holds(mesh: &Mesh, pairs: &Pairs) -> bool {
    let mut child_of = vec![0u32; mesh.records.len()];
    let mut is_midpoint = vec![false; mesh.vertices.len()];
    for (number, record) in mesh.records.iter().enumerate() {
        if record.generation > 15 {
            return false;
        }
        if record.is_leaf() {
            continue;
        }
        let first = usize::from(record.first_child);
        let Some([first_child, second_child]) = mesh.records.get(first..first + 2) else {
            return false;
        };
        let Some((w, [first_given, second_given])) = cutting_gives(record, pairs) else {
            return false;
        };
        if first <= number
            || !same_piece(first_child, &first_given)
            || !same_piece(second_child, &second_given)
        {
            return false;
        }
        for child in child_of.iter_mut().skip(first).take(2) {
            *child += 1;
        }
        if let Some(seen) = is_midpoint.get_mut(usize::from(w)) {
            *seen = true;
        }
    }
    child_of
        .iter()
        .skip(mesh.base_records)
        .all(|&count| count == 1)
        && is_midpoint
            .iter()
            .skip(mesh.base_vertices)
            .all(|&seen| seen)
}

/// "Let w be the midpoint of the refinement edge": the vertex with that parent pair, and the two
/// children by it; nothing if there is no such vertex or the codes are no piece's.
fn cutting_gives(record: &Record, pairs: &Pairs) -> Option<(u16, [Record; 2])> {
    let w = *pairs.get(&ends(record, record.edge)?)?;
    Some((w, children(record, w)?))
}

/// "What cutting gives": corners in their slots, edge, marks, flag and generation. The number of
/// the stored record's own first child is free.
fn same_piece(stored: &Record, given: &Record) -> bool {
    Record {
        first_child: given.first_child,
        ..*stored
    } == *given
}

/// "An edge hangs if it is an edge of a leaf and some made vertex has its two ends as parents":
/// the first hanging edge code of a record.
pub(crate) fn hanging_edge(record: &Record, pairs: &Pairs) -> Option<u8> {
    (0..6).find(|&code| ends(record, code).is_some_and(|ends| pairs.contains_key(&ends)))
}

/// 10: "a hanging edge": "the first leaf edge found hanging, by record and then edge code".
fn first_hanging(mesh: &Mesh, pairs: &Pairs) -> Option<(u64, u64)> {
    mesh.leaves()
        .find_map(|(number, leaf)| Some((number as u64, hanging_edge(leaf, pairs)?.into())))
}
