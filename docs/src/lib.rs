//! The second program: build, check, refine, take back and list, written from documents 01 and 02
//! alone, to be compared with the proved services on many meshes.
//!
//! Every byte string and every length of buffer gets an answer. No number or code read from bytes
//! is used as an index before it is tested.

pub mod build;
pub mod check;
pub mod list;
pub mod mesh;
pub mod piece;
pub mod refine;
pub mod take_back;

pub use build::{build, build_vec};
pub use check::{check, Report};
pub use list::{list, list_into, Listed};
pub use mesh::{LARGEST_MESH, MOST_RECORDS, MOST_VERTICES};
pub use refine::{refine, refine_vec, selection};
pub use take_back::{take_back, take_back_vec};

/// "After a refusal the output buffer is zero throughout; after acceptance it is zero past the
/// result." 20: "the output buffer is shorter than the result".
fn deliver(result: Result<Vec<u8>, u32>, out: &mut [u8]) -> u32 {
    out.fill(0);
    match result {
        Err(number) => number,
        Ok(bytes) => match out.get_mut(..bytes.len()) {
            None => 20,
            Some(place) => {
                place.copy_from_slice(&bytes);
                0
            }
        },
    }
}

/// "Numbers we give back": the row of the table for each number, and document 02's 22, 23 and 30, in
/// their own words.
pub fn reason(number: u32) -> &'static str {
    match number {
        0 => "accepted",
        1 => "under 20 bytes, or length is not 20 + 10·vertices + 17·records",
        2 => "wrong mark or version, or byte 19 not 0",
        3 => "a count beyond its bounds, or base above all",
        4 => {
            "base coordinate off the grid, base parent not 65,535, two base vertices at one \
             place; made vertex without p < q < its own number, not exactly halfway, or a parent \
             pair used twice"
        }
        5 => {
            "base record with equal corners, a corner not in the base, sixfold volume 0, \
             generation or flag not 0"
        }
        6 => {
            "base record with an edge code above 5, a mark not on its face, or a refinement face \
             not marked with the refinement edge"
        }
        7 => {
            "a face in three base records, two base records with the same four corners, or a \
             shared face with two marks"
        }
        8 => "a base vertex in no base record",
        9 => {
            "a cut record whose children aren't what cutting gives, or don't have greater \
             numbers; a record beyond the base that isn't the child of exactly one; a made vertex \
             that is the midpoint of no cut record's refinement edge; a generation above 15"
        }
        10 => "a hanging edge",
        11 => "selection under 13 bytes, or length not 13 + 2n",
        12 => "selection's mark or version wrong",
        13 => "another job",
        14 => "another round: the selection has expired",
        15 => "numbers not strictly rising, or one not below the record count",
        16 => "a named record is already cut",
        17 => "a named record has generation 15",
        18 => "the round is 65,535",
        19 => "the closed result exceeds 1,024 vertices or 3,072 records",
        20 => "the output buffer is shorter than the result",
        21 => "build: coordinates not three a vertex, or corners not four a piece",
        22 => "a base record with a negative value",
        23 => "a base vertex that lies in a closed base piece and isn't one of its corners",
        30 => "a named record that is uncut",
        _ => "no such number",
    }
}
