//! The text form of a plain mesh, as `tmb help build` describes it.

use std::str::FromStr;

/// A text longer than this is not read on: 16 MiB.
pub const LONGEST_TEXT: usize = 16 << 20;

/// Coordinates, three a vertex, and corners, four a piece, and the line that each vertex and each
/// piece stands on, counted from 1.
#[derive(Default)]
pub struct Plain {
    pub coordinates: Vec<i16>,
    pub corners: Vec<u16>,
    pub vertex_lines: Vec<usize>,
    pub piece_lines: Vec<usize>,
}

/// Reads a text, or gives the number of the first line that is none of a plain mesh.
pub fn read(text: &[u8]) -> Result<Plain, usize> {
    let mut plain = Plain::default();
    for (line, number) in text.split(|&byte| byte == b'\n').zip(1..) {
        plain.line(line, number).ok_or(number)?;
    }
    Ok(plain)
}

impl Plain {
    /// The places of the vertices.
    pub fn places(&self) -> Vec<[i16; 3]> {
        let places = self.coordinates.chunks_exact(3);
        places.map(|place| [place[0], place[1], place[2]]).collect()
    }

    /// The corners of the pieces.
    pub fn pieces(&self) -> Vec<[u16; 4]> {
        let pieces = self.corners.chunks_exact(4);
        pieces
            .map(|piece| [piece[0], piece[1], piece[2], piece[3]])
            .collect()
    }

    fn line(&mut self, line: &[u8], number: usize) -> Option<()> {
        let before_comment = std::str::from_utf8(line).ok()?.split('#').next()?;
        let words: Vec<&str> = before_comment.split_whitespace().collect();
        match words.as_slice() {
            [] => {}
            ["v", place @ ..] => {
                self.coordinates.extend(numbers::<i16, 3>(place)?);
                self.vertex_lines.push(number);
            }
            ["p", piece @ ..] => {
                self.corners.extend(numbers::<u16, 4>(piece)?);
                self.piece_lines.push(number);
            }
            _ => return None,
        }
        Some(())
    }
}

/// So many numbers, all within bounds.
fn numbers<N: FromStr, const COUNT: usize>(words: &[&str]) -> Option<[N; COUNT]> {
    let numbers: Option<Vec<N>> = words.iter().map(|word| word.parse().ok()).collect();
    numbers?.try_into().ok()
}
