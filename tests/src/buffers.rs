//! The output buffers that both programs are given: filled with junk before the call, guard bytes on both
//! sides.

use crate::random::Random;
use std::fmt::Debug;

/// Bytes on both sides of the output buffer.
const GUARD: usize = 64;

/// Calls both with an output buffer of so many bytes. The answers and every byte must be the same, and the
/// guard bytes stay. Gives the answer and the buffer, or what is different.
pub fn both<A: PartialEq + Debug>(
    room: usize,
    random: &mut Random,
    proved: impl FnOnce(&mut [u8]) -> A,
    second: impl FnOnce(&mut [u8]) -> A,
) -> Result<(A, Vec<u8>), String> {
    // Not always at the same alignment.
    let before = GUARD + random.below(8);
    let part = before..before + room;
    let whole = junk(random, part.end + GUARD);
    let (mut given, mut wanted) = (whole.clone(), whole.clone());
    let answer = proved(&mut given[part.clone()]);
    let other = second(&mut wanted[part.clone()]);
    if answer != other || given != wanted {
        let at = (0..whole.len()).find(|&at| given[at] != wanted[at]);
        return Err(format!(
            "{room} bytes: proved {answer:?}, second {other:?}, first different byte {:?} (guard bytes are \
             below 0 or from {room})",
            at.map(|at| at as i64 - before as i64)
        ));
    }
    // Also without the second program.
    assert_eq!(given[..before], whole[..before], "guard bytes");
    assert_eq!(given[part.end..], whole[part.end..], "guard bytes");
    Ok((answer, given[part].to_vec()))
}

/// Bytes of any kind.
fn junk(random: &mut Random, length: usize) -> Vec<u8> {
    let mut bytes = Vec::with_capacity(length + 8);
    while bytes.len() < length {
        bytes.extend(random.number().to_le_bytes());
    }
    bytes.truncate(length);
    bytes
}
