//! Writes the samples plate.txt and pipe.txt into the folder that is named: plain meshes, as `tmb help
//! build` describes them. Their vertices stand in rings round an axis; between rings stand hexahedra, each
//! as six pieces round one diagonal.

use std::collections::BTreeMap;
use std::f64::consts::TAU;
use std::fs;
use std::path::Path;
use std::process::ExitCode;

/// Vertices in a ring, and so hexahedra between rings; a multiple of 8, so that a square has its corners
/// among them.
const ROUND: usize = 24;

/// A solid of rings, counted from the hole outward and by height, and layers of hexahedra between them.
struct Solid {
    /// What the sample shows, and where in it things stand.
    about: &'static str,
    /// The heights of the rings: one more than there are layers.
    heights: &'static [i16],
    /// For each layer, how many hexahedra it has from the hole outward.
    outward: &'static [usize],
    /// Where a ring has a vertex: by the ring's number and the vertex's.
    point: fn(usize, usize) -> [f64; 2],
}

const PLATE: Solid = Solid {
    about: "\
# A square plate with a round hole: in a plate that is pulled the stress is highest at the hole, so the mesh is
# finest there, and there it will be refined first.
# Rings are counted from the hole outward.
",
    heights: &[0, 800, 1_600],
    outward: &[3, 3],
    point: |ring, number| {
        let (circle, square) = (on_circle(3_200.0, number), on_square(9_600.0, number));
        // The steps outward are as 1, 2 and 3.
        let share = [0.0, 1.0 / 6.0, 1.0 / 2.0, 1.0][ring];
        [0, 1].map(|axis| circle[axis] + share * (square[axis] - circle[axis]))
    },
};

const PIPE: Solid = Solid {
    about: "\
# A pipe with a flange at either end: a casing whose mesh closes up round its bore, and which will crack where a
# flange meets the wall, so that is where it will be refined first.
# Rings are counted from the bore outward: the wall stands between rings 0 and 1, the flanges between rings 1
# and 2 in the first layer and in the last.
",
    heights: &[0, 1_280, 3_200, 5_120, 7_040, 8_320],
    outward: &[2, 1, 1, 1, 2],
    point: |ring, number| on_circle([3_200.0, 4_480.0, 7_040.0][ring], number),
};

fn on_circle(radius: f64, number: usize) -> [f64; 2] {
    let angle = TAU * number as f64 / ROUND as f64;
    [radius * angle.cos(), radius * angle.sin()]
}

/// On the square with this half side, in equal steps.
fn on_square(half: f64, number: usize) -> [f64; 2] {
    let from_corner = (number + ROUND / 8) % ROUND;
    let (side, step) = (from_corner / (ROUND / 4), from_corner % (ROUND / 4));
    let along = half * (step as f64 / (ROUND / 8) as f64 - 1.0);
    match side {
        0 => [half, along],
        1 => [-along, half],
        2 => [-half, -along],
        _ => [along, -half],
    }
}

/// "Base coordinates are multiples of 32": the nearest one.
fn on_grid(coordinate: f64) -> i16 {
    32 * (coordinate / 32.0).round() as i16
}

/// The pieces of a hexahedron: the six ways along its edges from corner 0 to corner 7. Bit 0 of a corner's
/// number is a step round, bit 1 one outward, bit 2 one up. All hexahedra have them alike, so faces fit.
const PIECES: [[usize; 4]; 6] = [
    [0, 1, 3, 7],
    [0, 1, 5, 7],
    [0, 2, 3, 7],
    [0, 2, 6, 7],
    [0, 4, 5, 7],
    [0, 4, 6, 7],
];

fn text(solid: &Solid) -> String {
    let mut lines = vec![solid.about.to_string()];
    let mut rings = BTreeMap::new();
    for (height, z) in solid.heights.iter().enumerate() {
        // As far out as the layer below or the layer above.
        let layers = &solid.outward[height.saturating_sub(1)..solid.outward.len().min(height + 1)];
        for ring in 0..=layers.iter().copied().max().unwrap_or(0) {
            let first = ROUND * rings.len();
            let last = first + ROUND - 1;
            lines.push(format!(
                "# height {z}, ring {ring}: vertices {first} to {last}\n"
            ));
            lines.extend((0..ROUND).map(|number| {
                let [x, y] = (solid.point)(ring, number).map(on_grid);
                format!("v {x} {y} {z}\n")
            }));
            rings.insert((ring, height), first);
        }
    }
    let mut first = 0;
    for (layer, &outward) in solid.outward.iter().enumerate() {
        for ring in 0..outward {
            let last = first + 6 * ROUND - 1;
            let (inner, outer) = (ring, ring + 1);
            lines.push(format!(
                "# layer {layer}, between rings {inner} and {outer}: pieces {first} to {last}\n"
            ));
            for number in 0..ROUND {
                let corner = |corner: usize| {
                    let (round, outward, up) = (corner & 1, corner >> 1 & 1, corner >> 2);
                    rings[&(ring + outward, layer + up)] + (number + round) % ROUND
                };
                lines.extend(PIECES.map(|piece| {
                    let [a, b, c, d] = piece.map(corner);
                    format!("p {a} {b} {c} {d}\n")
                }));
            }
            first = last + 1;
        }
    }
    lines.concat()
}

fn main() -> ExitCode {
    let arguments: Vec<_> = std::env::args_os().skip(1).collect();
    let [folder] = arguments.as_slice() else {
        eprintln!("usage: samples FOLDER");
        return ExitCode::from(2);
    };
    for (name, solid) in [("plate.txt", PLATE), ("pipe.txt", PIPE)] {
        let path = Path::new(folder).join(name);
        if let Err(error) = fs::write(&path, text(&solid)) {
            eprintln!("samples: {}: {error}", path.display());
            return ExitCode::from(2);
        }
    }
    ExitCode::SUCCESS
}
