//! Where a place stands to a closed piece, by another way than the two programs': the weights of its corners
//! whose mean the place is are solved for, and no corner is replaced. And places to try it on.

use crate::random::Random;
use second::mesh::Mesh;

pub type Place = [i16; 3];

/// Where in a closed piece.
#[derive(Clone, Copy, Debug, PartialEq, Eq, PartialOrd, Ord)]
pub enum Within {
    Inside,
    Face,
    Edge,
    Corner,
}

pub const HANGING: [Within; 3] = [Within::Inside, Within::Face, Within::Edge];

/// Where in the closed piece the place is; nothing if it is outside, or if the piece is flat. The weights are
/// solved for without fractions: whole numbers, all over one.
pub fn within([a, b, c, d]: [Place; 4], place: Place) -> Option<Within> {
    // A row for each axis: the ways from the first corner to the others, and the way to the place.
    let mut rows = [0, 1, 2].map(|axis| {
        let way = |to: Place| i128::from(to[axis]) - i128::from(a[axis]);
        [way(b), way(c), way(d), way(place)]
    });
    let mut whole = 1;
    for column in 0..3 {
        let found = (column..3).find(|&row| rows[row][column] != 0)?;
        rows.swap(column, found);
        let chosen = rows[column];
        for row in (0..3).filter(|&row| row != column) {
            let taken = rows[row][column];
            // The division leaves nothing over.
            rows[row] = [0, 1, 2, 3]
                .map(|at| (chosen[column] * rows[row][at] - taken * chosen[at]) / whole);
        }
        whole = chosen[column];
    }
    let [of_b, of_c, of_d] = rows.map(|row| row[3]);
    let weights = [whole - of_b - of_c - of_d, of_b, of_c, of_d];
    let signs = weights.map(|weight| weight.signum() * whole.signum());
    if signs.contains(&-1) {
        return None;
    }
    Some(match signs.iter().filter(|&&sign| sign == 0).count() {
        0 => Within::Inside,
        1 => Within::Face,
        2 => Within::Edge,
        _ => Within::Corner,
    })
}

/// The base vertices that hang: each with the base record it hangs on, and where. The base records have four
/// corners in the base.
pub fn hanging(mesh: &Mesh) -> impl Iterator<Item = (usize, usize, Within)> + '_ {
    let base = mesh.records[..mesh.base_records].iter().enumerate();
    base.flat_map(move |(record, piece)| {
        let corners = piece
            .corners
            .map(|corner| mesh.vertices[usize::from(corner)].place);
        let vertices = mesh.vertices[..mesh.base_vertices].iter().enumerate();
        let others = vertices.filter(move |(vertex, _)| !piece.corners.contains(&(*vertex as u16)));
        others.filter_map(move |(vertex, at)| Some((vertex, record, within(corners, at.place)?)))
    })
}

/// A place so far from another in steps of 32; nothing if it is out of range.
pub fn moved(place: Place, steps: [i32; 3]) -> Option<Place> {
    let mut there = place;
    for axis in 0..3 {
        let coordinate = i32::from(place[axis]) + 32 * steps[axis];
        there[axis] = i16::try_from(coordinate)
            .ok()
            .filter(|c| c.unsigned_abs() <= 32_736)?;
    }
    Some(there)
}

/// How far it is from one place to another, in steps of 32.
pub fn steps(from: Place, to: Place) -> [i32; 3] {
    [0, 1, 2].map(|axis| (i32::from(to[axis]) - i32::from(from[axis])) / 32)
}

/// The greatest common divisor.
fn divisor(one: i32, other: i32) -> i32 {
    match other {
        0 => one.abs(),
        _ => divisor(other, one % other),
    }
}

/// A place of the grid in a closed piece, but at no corner; nothing where none is found.
pub fn place_in(mut corners: [Place; 4], wanted: Within, random: &mut Random) -> Option<Place> {
    random.shuffle(&mut corners);
    let [a, b, c, d] = corners;
    let ways = [b, c, d].map(|corner| steps(a, corner));
    let used = match wanted {
        Within::Corner => return None,
        Within::Edge => 1,
        Within::Face => 2,
        Within::Inside => 3,
    };
    (0..20).find_map(|_| {
        // On an edge every place of the grid can be met; elsewhere what isn't whole is cut off.
        let parts = match wanted {
            Within::Edge => ways[0].into_iter().fold(0, divisor).max(1),
            _ => 2 + random.below(9) as i32,
        };
        let mut gone = [0; 3];
        for gone in &mut gone[..used] {
            *gone = random.below(parts as usize) as i32;
        }
        let along = |axis: usize| (0..3).map(|way| gone[way] * ways[way][axis]).sum::<i32>();
        let place = moved(a, [0, 1, 2].map(|axis| along(axis) / parts))?;
        (within(corners, place) == Some(wanted)).then_some(place)
    })
}

pub fn all_four<T>([a, b, c, d]: [Option<T>; 4]) -> Option<[T; 4]> {
    Some([a?, b?, c?, d?])
}

/// A small piece with its first corner in the closed piece, on an edge, in a face or inside, and all of its corners
/// at free places; nothing where none is found.
pub fn hanging_piece(
    corners: [Place; 4],
    free: impl Fn(Place) -> bool,
    random: &mut Random,
) -> Option<[Place; 4]> {
    (0..40).find_map(|_| {
        let place = place_in(corners, HANGING[random.below(3)], random)?;
        let [x, y, z] = [0; 3].map(|_| (1 + random.below(9) as i32) * [1, -1][random.below(2)]);
        let ways = [[0, 0, 0], [x, 0, 0], [0, y, 0], [0, 0, z]];
        let places = all_four(ways.map(|way| moved(place, way)))?;
        places.into_iter().all(&free).then_some(places)
    })
}
