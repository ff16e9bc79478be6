//! Stored mesh, version 1: the layout, and the rules 1 to 3 that reading it needs.

use std::collections::HashMap;

/// "65,535 for both parents", "65,535 if uncut".
pub const NO_NUMBER: u16 = 65_535;
/// "At most 1,024 vertices and 3,072 records".
pub const MOST_VERTICES: usize = 1_024;
/// "At most 1,024 vertices and 3,072 records".
pub const MOST_RECORDS: usize = 3_072;
/// "The largest mesh is 62,484 bytes."
pub const LARGEST_MESH: usize = HEADER + VERTEX * MOST_VERTICES + RECORD * MOST_RECORDS;

/// "Header, 20 bytes".
const HEADER: usize = 20;
/// "Vertex, 10 bytes".
const VERTEX: usize = 10;
/// "Record, 17 bytes".
const RECORD: usize = 17;

/// "Vertex, 10 bytes: x, y, z (i16), parents p, q (u16)."
#[derive(Debug, PartialEq, Eq, Clone, Copy)]
pub struct Vertex {
    pub place: [i16; 3],
    pub parents: [u16; 2],
}

/// "Record, 17 bytes: four corners (u16), refinement edge (u8), marks of faces 0 to 3 (u8 each),
/// flag, generation, number of the first child (u16; 65,535 if uncut)."
#[derive(Debug, PartialEq, Eq, Clone, Copy)]
pub struct Record {
    pub corners: [u16; 4],
    pub edge: u8,
    pub marks: [u8; 4],
    pub flag: u8,
    pub generation: u8,
    pub first_child: u16,
}

impl Record {
    /// "A leaf is a record that is not cut."
    pub fn is_leaf(&self) -> bool {
        self.first_child == NO_NUMBER
    }
}

/// "Base vertices come first", "Base records come first".
#[derive(Debug, PartialEq, Eq, Clone)]
pub struct Mesh {
    pub job: u32,
    pub round: u16,
    pub base_vertices: usize,
    pub base_records: usize,
    pub vertices: Vec<Vertex>,
    pub records: Vec<Record>,
}

/// The made vertices by parent pair.
pub type Pairs = HashMap<(u16, u16), u16>;

/// "Numbers are little-endian": one byte; 0 past the end, where nothing is ever read.
pub(crate) fn byte_at(bytes: &[u8], at: usize) -> u8 {
    bytes.get(at).copied().unwrap_or(0)
}

/// "Numbers are little-endian": a u16.
pub(crate) fn u16_at(bytes: &[u8], at: usize) -> u16 {
    u16::from_le_bytes([byte_at(bytes, at), byte_at(bytes, at + 1)])
}

/// "Numbers are little-endian": a u32.
pub(crate) fn u32_at(bytes: &[u8], at: usize) -> u32 {
    u32::from(u16_at(bytes, at)) | u32::from(u16_at(bytes, at + 2)) << 16
}

/// "Coordinates in two's complement."
fn i16_at(bytes: &[u8], at: usize) -> i16 {
    i16::from_le_bytes([byte_at(bytes, at), byte_at(bytes, at + 1)])
}

/// 3: "a count beyond its bounds, or base above all", by "At most 1,024 vertices and 3,072 records;
/// at least 4 base vertices and 1 base record."
pub(crate) fn counts_hold(
    base_vertices: usize,
    vertices: usize,
    base_records: usize,
    records: usize,
) -> bool {
    (4..=vertices).contains(&base_vertices)
        && (1..=records).contains(&base_records)
        && vertices <= MOST_VERTICES
        && records <= MOST_RECORDS
}

impl Mesh {
    /// Reads by the layout of "Stored mesh, version 1", or gives the number of the first of the
    /// rules 1 to 3 that is broken.
    pub fn read(bytes: &[u8]) -> Result<Mesh, u32> {
        let base_vertices = usize::from(u16_at(bytes, 11));
        let vertices = usize::from(u16_at(bytes, 13));
        let base_records = usize::from(u16_at(bytes, 15));
        let records = usize::from(u16_at(bytes, 17));
        let records_start = HEADER + VERTEX * vertices;

        // "under 20 bytes, or length is not 20 + 10·vertices + 17·records", whatever the counts.
        if bytes.len() < HEADER || bytes.len() != records_start + RECORD * records {
            return Err(1);
        }
        // "wrong mark or version, or byte 19 not 0"
        if !bytes.starts_with(b"TMB") || u16_at(bytes, 3) != 1 || byte_at(bytes, 19) != 0 {
            return Err(2);
        }
        if !counts_hold(base_vertices, vertices, base_records, records) {
            return Err(3);
        }
        Ok(Mesh {
            job: u32_at(bytes, 5),
            round: u16_at(bytes, 9),
            base_vertices,
            base_records,
            vertices: (0..vertices)
                .map(|number| read_vertex(bytes, HEADER + VERTEX * number))
                .collect(),
            records: (0..records)
                .map(|number| read_record(bytes, records_start + RECORD * number))
                .collect(),
        })
    }

    /// Writes by the layout of "Stored mesh, version 1".
    pub fn bytes(&self) -> Vec<u8> {
        let length = HEADER + VERTEX * self.vertices.len() + RECORD * self.records.len();
        let mut bytes = Vec::with_capacity(length);
        bytes.extend(b"TMB");
        bytes.extend(1u16.to_le_bytes());
        bytes.extend(self.job.to_le_bytes());
        bytes.extend(self.round.to_le_bytes());
        for count in [
            self.base_vertices,
            self.vertices.len(),
            self.base_records,
            self.records.len(),
        ] {
            bytes.extend((count as u16).to_le_bytes());
        }
        bytes.push(0);
        for vertex in &self.vertices {
            bytes.extend(vertex.place.into_iter().flat_map(i16::to_le_bytes));
            bytes.extend(vertex.parents.into_iter().flat_map(u16::to_le_bytes));
        }
        for record in &self.records {
            bytes.extend(record.corners.into_iter().flat_map(u16::to_le_bytes));
            bytes.push(record.edge);
            bytes.extend(record.marks);
            bytes.push(record.flag);
            bytes.push(record.generation);
            bytes.extend(record.first_child.to_le_bytes());
        }
        bytes
    }

    /// The made vertices by parent pair: "A made vertex records its two parents".
    pub fn pairs(&self) -> Pairs {
        (0..)
            .zip(&self.vertices)
            .skip(self.base_vertices)
            .map(|(number, vertex)| (vertex.parents.into(), number))
            .collect()
    }

    /// The place of a vertex; nothing if there is no vertex of that number.
    pub fn place(&self, number: u16) -> Option<[i16; 3]> {
        Some(self.vertices.get(usize::from(number))?.place)
    }

    /// "A leaf is a record that is not cut": the leaves with their numbers, in rising number.
    pub fn leaves(&self) -> impl Iterator<Item = (usize, &Record)> {
        self.records
            .iter()
            .enumerate()
            .filter(|(_, record)| record.is_leaf())
    }

    /// "The volume service must return the signed determinant, positive for right-handed": the
    /// "determinant of three differences of three coordinates each (corners 1, 2, 3 less corner 0)".
    /// Its absolute value is the sixfold volume. Nothing if a corner is no vertex.
    pub fn signed(&self, record: &Record) -> Option<i64> {
        let [origin, one, two, three] = record.corners.map(|corner| self.place(corner));
        let origin = origin?;
        let less_origin = |place: [i16; 3]| -> [i64; 3] {
            [0, 1, 2].map(|axis| i64::from(place[axis]) - i64::from(origin[axis]))
        };
        Some(determinant([
            less_origin(one?),
            less_origin(two?),
            less_origin(three?),
        ]))
    }

    /// "A negative value".
    pub fn is_left_handed(&self, record: &Record) -> bool {
        self.signed(record).is_some_and(|value| value < 0)
    }
}

/// "Determinant of three differences of three coordinates each". Each difference is below 2^16, so
/// the six products together stay below 6 times 2^48.
fn determinant([a, b, c]: [[i64; 3]; 3]) -> i64 {
    a[0] * (b[1] * c[2] - b[2] * c[1]) - a[1] * (b[0] * c[2] - b[2] * c[0])
        + a[2] * (b[0] * c[1] - b[1] * c[0])
}

/// "Vertex, 10 bytes: x, y, z (i16), parents p, q (u16)."
fn read_vertex(bytes: &[u8], at: usize) -> Vertex {
    Vertex {
        place: [0, 2, 4].map(|offset| i16_at(bytes, at + offset)),
        parents: [6, 8].map(|offset| u16_at(bytes, at + offset)),
    }
}

/// "Record, 17 bytes: four corners (u16), refinement edge (u8), marks of faces 0 to 3 (u8 each),
/// flag, generation, number of the first child (u16; 65,535 if uncut)."
fn read_record(bytes: &[u8], at: usize) -> Record {
    Record {
        corners: [0, 2, 4, 6].map(|offset| u16_at(bytes, at + offset)),
        edge: byte_at(bytes, at + 8),
        marks: [9, 10, 11, 12].map(|offset| byte_at(bytes, at + offset)),
        flag: byte_at(bytes, at + 13),
        generation: byte_at(bytes, at + 14),
        first_child: u16_at(bytes, at + 15),
    }
}
