//! List: prints the pieces.

use crate::check::check;
use crate::mesh::{Mesh, LARGEST_MESH};
use crate::piece::ends;

/// What `list_into` gives back: the number, and how long the text is that the buffer holds.
#[derive(Clone, Copy, Debug, PartialEq, Eq)]
pub struct Listed {
    pub number: u64,
    pub length: u64,
}

/// The lines of a stored mesh.
pub fn list(mesh: &[u8]) -> Vec<u8> {
    listing(mesh).1
}

/// The same into a buffer, which is zero past the text. 20: the buffer is shorter than the text; then,
/// whatever the number, no byte of the text is left in it.
pub fn list_into(mesh: &[u8], out: &mut [u8]) -> Listed {
    let (number, text) = listing(mesh);
    out.fill(0);
    if text.len() > out.len() {
        return Listed {
            number: if number == 0 { 20 } else { number },
            length: 0,
        };
    }
    out[..text.len()].copy_from_slice(&text);
    Listed {
        number,
        length: text.len() as u64,
    }
}

/// "Refused: one line, `refused ` and the number; input longer than the largest mesh is refused
/// with 1 here. Every line ends with a line feed." The number, and the text.
fn listing(mesh: &[u8]) -> (u64, Vec<u8>) {
    let refused = |number: u64| (number, format!("refused {number}\n").into_bytes());
    if mesh.len() > LARGEST_MESH {
        return refused(1);
    }
    let report = check(mesh);
    match Mesh::read(mesh) {
        Ok(mesh) if report.number == 0 => {
            let mut lines = format!(
                "job {} round {} vertices {} records {} leaves {} deepest {} sixfold {}\n",
                mesh.job,
                mesh.round,
                mesh.vertices.len(),
                mesh.records.len(),
                report.leaves,
                report.deepest,
                report.sixfold
            );
            lines.extend(mesh.leaves().map(|(number, leaf)| {
                let [zero, one, two, three] = leaf.corners;
                let (lower, higher) = ends(leaf, leaf.edge).unwrap_or((0, 0));
                let generation = leaf.generation;
                // "each leaf in rising record number: its number, four corners, its refinement
                // edge's lower and higher vertex, its generation"
                format!(
                    "{number} {zero} {one} {two} {three} edge {lower} {higher} gen {generation}\n"
                )
            }));
            (0, lines.into_bytes())
        }
        _ => refused(report.number),
    }
}
