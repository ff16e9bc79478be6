//! What explains a refusal, read off the files where it is plain. A service has given the number
//! before; nothing here decides it.

use crate::hanging::Hanging;
use crate::plain::Plain;
use crate::station;
use crate::stored::{
    self, job, named, round, two, Counts, Record, LARGEST_MESH, LONGEST_MESH, LONGEST_SELECTION,
};

/// 1 to 10, 22 and 23, of a stored mesh.
pub fn mesh(number: u32, mesh: &[u8]) -> Option<String> {
    match number {
        1 | 2 if mesh.starts_with(b"TMS") => Some("this is a selection, not a mesh".to_string()),
        1 => Some(mesh_length(mesh)),
        2 => Some(
            mark_or_version(mesh, "TMB").unwrap_or(format!("byte 19 is {}", two(mesh, 19) & 255)),
        ),
        3 => Some(counts(mesh)),
        10 => Some(hanging_edge(mesh)),
        22 => left_handed(mesh),
        23 => hanging_vertex(mesh),
        _ => None,
    }
}

/// 1 to 10, 22 and 23 of the mesh, 11 to 19 of the selection for it.
pub fn refinement(number: u32, mesh: &[u8], selection: &[u8]) -> Option<String> {
    match number {
        16 => named_where(mesh, selection, |record| record.is_cut())
            .map(|cut| format!("record {cut} is cut: tmb list shows the leaves")),
        17 => named_where(mesh, selection, |record| record.generation == 15)
            .map(|last| format!("leave record {last} out")),
        18 => Some("this mesh can't be refined any more".to_string()),
        19 => {
            let Counts {
                vertices, records, ..
            } = Counts::of(mesh);
            Some(format!(
                "the mesh has {vertices} vertices and {records} records: name fewer"
            ))
        }
        _ => SELECTION.explained(number, mesh, selection),
    }
}

/// 1 to 10, 22 and 23 of the mesh, 11 to 15, 30 and 18 of the request for it.
pub fn taking_back(number: u32, mesh: &[u8], request: &[u8]) -> Option<String> {
    match number {
        18 => Some("no cut of this mesh can be taken back any more".to_string()),
        30 => named_where(mesh, request, |record| !record.is_cut())
            .map(|leaf| format!("record {leaf} is a leaf: tmb cuts shows the cut records")),
        _ => REQUEST.explained(number, mesh, request),
    }
}

/// What names records, and the command that writes it.
struct Choice {
    name: &'static str,
    command: &'static str,
}

const SELECTION: Choice = Choice {
    name: "selection",
    command: "tmb select",
};
const REQUEST: Choice = Choice {
    name: "request",
    command: "tmb select --back",
};

impl Choice {
    /// 1 to 10, 22 and 23 of the mesh, and 11 to 15, which are the same of both.
    fn explained(&self, number: u32, mesh: &[u8], choice: &[u8]) -> Option<String> {
        match number {
            11 | 12 if choice.starts_with(b"TMB") => {
                Some(format!("this is a mesh, not a {}", self.name))
            }
            11 => Some(self.length(choice)),
            12 => mark_or_version(choice, "TMS"),
            13 => Some(self.another("job", job(choice), job(mesh))),
            14 => Some(self.another("round", round(choice).into(), round(mesh).into())),
            15 => bad_number(mesh, choice),
            _ => self::mesh(number, mesh),
        }
    }

    fn length(&self, choice: &[u8]) -> String {
        let (name, length, count) = (self.name, choice.len(), two(choice, 11));
        if length < 13 {
            format!("the {name} has {length} bytes")
        } else if length > LONGEST_SELECTION {
            format!("longer than any {name}")
        } else {
            let right = 13 + 2 * usize::from(count);
            format!("the {name} has {length} bytes; {count} numbers make {right}")
        }
    }

    /// 13 and 14: what it is of, and what the mesh.
    fn another(&self, what: &str, chosen: u32, now: u32) -> String {
        let Choice { name, command } = self;
        format!(
            "the {name} is of {what} {chosen} and the mesh of {what} {now}: choose again with \
             {command}"
        )
    }
}

fn mesh_length(mesh: &[u8]) -> String {
    let (length, counts) = (mesh.len(), Counts::of(mesh));
    if length < 20 {
        format!("the mesh has {length} bytes")
    } else if length > LONGEST_MESH {
        "longer than any mesh".to_string()
    } else if length != counts.length() {
        let (vertices, records, right) = (counts.vertices, counts.records, counts.length());
        format!(
            "the mesh has {length} bytes; {vertices} vertices and {records} records make {right}"
        )
    } else {
        // "Input longer than the largest mesh is refused with 1 here": by the listing alone.
        format!("the mesh has {length} bytes, the largest mesh {LARGEST_MESH}")
    }
}

fn mark_or_version(bytes: &[u8], mark: &str) -> Option<String> {
    let version = two(bytes, 3);
    if !bytes.starts_with(mark.as_bytes()) {
        Some(format!("it does not begin with {mark}"))
    } else if version != 1 {
        Some(format!(
            "its version is {version}, and version 1 is the one known here"
        ))
    } else {
        None
    }
}

fn counts(mesh: &[u8]) -> String {
    let counts = Counts::of(mesh);
    format!(
        "base vertices {}, all vertices {}, base records {}, all records {}",
        counts.base_vertices, counts.vertices, counts.base_records, counts.records
    )
}

/// Refine and the listing give 10 alone; check also says where.
fn hanging_edge(mesh: &[u8]) -> String {
    let report = station::check(mesh);
    let corners = Record::of(mesh, report.record as usize).corners;
    // "Edge codes by slots: 0 is 01, 1 is 02, 2 is 03, 3 is 12, 4 is 13, 5 is 23."
    let [one, other] = match report.edge {
        0 => [0, 1],
        1 => [0, 2],
        2 => [0, 3],
        3 => [1, 2],
        4 => [1, 3],
        _ => [2, 3],
    }
    .map(|slot: usize| corners[slot]);
    let (record, lower, higher) = (report.record, one.min(other), one.max(other));
    format!("record {record}, the edge of vertices {lower} and {higher}")
}

/// 22: the first base record with which check gives it, asked of check itself.
fn left_handed(mesh: &[u8]) -> Option<String> {
    let gives = |records: usize| station::check(&stored::base_of(mesh, records)).number == 22;
    let record = first_of(Counts::of(mesh).base_records.into(), gives)?;
    Some(format!(
        "record {record} is left-handed: this mesh was made elsewhere or earlier; build it anew, since \
         tmb build exchanges corners by itself"
    ))
}

/// 23: the first base vertex that hangs on a base record.
fn hanging_vertex(mesh: &[u8]) -> Option<String> {
    let found = Hanging::first(&stored::base_places(mesh), &stored::base_corners(mesh))?;
    let (vertex, lies) = (found.vertex, found.lies(&format!("record {}", found.piece)));
    Some(format!(
        "vertex {vertex} {lies}: this mesh was made elsewhere or earlier; in its plain mesh {}, and build it \
         anew",
        found.mend()
    ))
}

/// The first one with which a number is given: the first so many give it or not, and all of them do.
fn first_of(all: usize, gives: impl Fn(usize) -> bool) -> Option<usize> {
    // So many don't, so many do.
    let (mut good, mut bad) = (0, all);
    while bad - good > 1 {
        let half = (good + bad) / 2;
        *(if gives(half) { &mut bad } else { &mut good }) = half;
    }
    bad.checked_sub(1)
}

/// 15: the first number that does not rise, or is too high.
fn bad_number(mesh: &[u8], selection: &[u8]) -> Option<String> {
    let (numbers, records) = (named(selection), Counts::of(mesh).records);
    for (place, &number) in numbers.iter().enumerate() {
        match numbers[..place].last() {
            Some(before) if number <= *before => {
                return Some(format!("{number} stands after {before}"));
            }
            _ if number >= records => {
                return Some(format!(
                    "{number} is named, and the mesh has {records} records"
                ));
            }
            _ => {}
        }
    }
    None
}

/// The first named record that is so.
fn named_where(mesh: &[u8], selection: &[u8], is_so: fn(Record) -> bool) -> Option<u16> {
    let mut numbers = named(selection).into_iter();
    numbers.find(|&number| is_so(Record::of(mesh, number.into())))
}

/// What build gives, of a plain mesh: which line.
pub fn plain(number: u32, plain: &Plain) -> Option<String> {
    match number {
        3 => Some(format!(
            "{} vertices and {} pieces; at least 4 and 1, at most 1,024 and 3,072",
            plain.vertex_lines.len(),
            plain.piece_lines.len()
        )),
        4 => bad_vertex(plain),
        5 => bad_piece(plain, 5, piece_alone),
        7 => bad_piece(plain, 7, piece_before),
        8 => {
            let is_used = |vertex: usize| plain.corners.iter().any(|&c| usize::from(c) == vertex);
            let unused = (0..plain.vertex_lines.len()).find(|&vertex| !is_used(vertex))?;
            Some(format!(
                "line {}: vertex {unused}",
                plain.vertex_lines[unused]
            ))
        }
        23 => hanging_given(plain),
        _ => None,
    }
}

/// 4: the first vertex that is off the grid or where another is.
fn bad_vertex(plain: &Plain) -> Option<String> {
    let off_grid = |x: &i16| x % 32 != 0 || x.unsigned_abs() > 32_736;
    let places = plain.places();
    for (vertex, (place, line)) in places.iter().zip(&plain.vertex_lines).enumerate() {
        if let Some(x) = place.iter().find(|x| off_grid(x)) {
            return Some(format!(
                "line {line}: vertex {vertex} has {x}; coordinates are multiples of 32 from -32,736 \
                 to 32,736"
            ));
        }
        if let Some(other) = places[..vertex].iter().position(|other| other == place) {
            return Some(format!(
                "line {line}: vertex {vertex} is where vertex {other} is"
            ));
        }
    }
    None
}

/// 5 and 7: the first piece with which build gives the number, asked of build itself.
fn bad_piece(plain: &Plain, number: u32, why: fn(&Plain, usize) -> String) -> Option<String> {
    let gives = |pieces: usize| {
        let corners = &plain.corners[..4 * pieces];
        station::build(0, &plain.coordinates, corners, &mut []) == number
    };
    let piece = first_of(plain.piece_lines.len(), gives)?;
    let line = plain.piece_lines[piece];
    Some(format!("line {line}: piece {piece} {}", why(plain, piece)))
}

/// 23: the first vertex that hangs on a piece.
fn hanging_given(plain: &Plain) -> Option<String> {
    let found = Hanging::first(&plain.places(), &plain.pieces())?;
    let Hanging { vertex, piece, .. } = found;
    let name = format!("piece {piece} on line {}", plain.piece_lines[piece]);
    Some(format!(
        "line {}: vertex {vertex} {}: {}",
        plain.vertex_lines[vertex],
        found.lies(&name),
        found.mend()
    ))
}

fn corners_of(plain: &Plain, piece: usize) -> Vec<u16> {
    let mut corners = plain.corners[4 * piece..4 * piece + 4].to_vec();
    corners.sort_unstable();
    corners
}

fn piece_alone(plain: &Plain, piece: usize) -> String {
    let corners = corners_of(plain, piece);
    let missing = |&&corner: &&u16| usize::from(corner) >= plain.vertex_lines.len();
    if let Some(twice) = corners.windows(2).find(|two| two[0] == two[1]) {
        format!("names vertex {} twice", twice[0])
    } else if let Some(corner) = corners.iter().find(missing) {
        format!("names vertex {corner}, which is not there")
    } else {
        "is flat".to_string()
    }
}

fn piece_before(plain: &Plain, piece: usize) -> String {
    match (0..piece).find(|&other| corners_of(plain, other) == corners_of(plain, piece)) {
        Some(other) => format!("has the corners of piece {other}"),
        None => "has a face that two pieces before it have".to_string(),
    }
}
