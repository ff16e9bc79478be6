//! How a run that was not accepted ends: refused, with a number and its sentence, or not carried out.

use std::fmt;
use std::io;

/// "Numbers we give back": the row of the table for each number, and document 02's 22, 23 and 30, in their
/// own words.
pub const SENTENCES: [(u32, &str); 25] = [
    (0, "accepted"),
    (1, "under 20 bytes, or length is not 20 + 10·vertices + 17·records"),
    (2, "wrong mark or version, or byte 19 not 0"),
    (3, "a count beyond its bounds, or base above all"),
    (4, "base coordinate off the grid, base parent not 65,535, two base vertices at one place; made vertex \
     without p < q < its own number, not exactly halfway, or a parent pair used twice"),
    (5, "base record with equal corners, a corner not in the base, sixfold volume 0, generation or flag \
     not 0"),
    (6, "base record with an edge code above 5, a mark not on its face, or a refinement face not marked \
     with the refinement edge"),
    (7, "a face in three base records, two base records with the same four corners, or a shared face with \
     two marks"),
    (8, "a base vertex in no base record"),
    (9, "a cut record whose children aren't what cutting gives, or don't have greater numbers; a record \
     beyond the base that isn't the child of exactly one; a made vertex that is the midpoint of no cut \
     record's refinement edge; a generation above 15"),
    (10, "a hanging edge"),
    (11, "selection under 13 bytes, or length not 13 + 2n"),
    (12, "selection's mark or version wrong"),
    (13, "another job"),
    (14, "another round: the selection has expired"),
    (15, "numbers not strictly rising, or one not below the record count"),
    (16, "a named record is already cut"),
    (17, "a named record has generation 15"),
    (18, "the round is 65,535"),
    (19, "the closed result exceeds 1,024 vertices or 3,072 records"),
    (20, "the output buffer is shorter than the result"),
    (21, "build: coordinates not three a vertex, or corners not four a piece"),
    (22, "a base record with a negative value"),
    (23, "a base vertex that lies in a closed base piece and isn't one of its corners"),
    (30, "a named record that is uncut"),
];

/// The sentence of a number.
pub fn sentence(number: u32) -> &'static str {
    let mut sentences = SENTENCES.iter();
    let found = sentences.find(|(given, _)| *given == number);
    found.map_or("no such number", |(_, sentence)| sentence)
}

/// The ending of a run that was not accepted.
#[derive(Debug)]
pub enum Ending {
    /// A service refused: its number, and what explains it where that is plain.
    Refused { number: u32, why: Option<String> },
    /// The command can't be carried out as given.
    Wrong(String),
}

impl Ending {
    /// The exit status.
    pub fn status(&self) -> u8 {
        match self {
            Ending::Refused { .. } => 1,
            Ending::Wrong(_) => 2,
        }
    }
}

impl fmt::Display for Ending {
    fn fmt(&self, out: &mut fmt::Formatter) -> fmt::Result {
        match self {
            Ending::Refused { number, why } => {
                write!(out, "tmb: refused {number}: {}", sentence(*number))?;
                why.iter().try_for_each(|why| write!(out, " ({why})"))
            }
            Ending::Wrong(message) => write!(out, "tmb: {message}"),
        }
    }
}

/// A file, by the name that is shown, that can't be read or written.
pub fn wrong(shown: &str, error: &io::Error) -> Ending {
    Ending::Wrong(format!("{shown}: {}", words(error)))
}

/// An error in words, without the system's number.
pub fn words(error: &io::Error) -> String {
    let text = error.to_string();
    text.split(" (os error ").next().unwrap_or("").to_string()
}
