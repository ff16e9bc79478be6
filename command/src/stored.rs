//! "Stored mesh, version 1" and "Selection": what stands where. Read off only to be said, never to be
//! judged. A byte past the end is 0.

/// "The largest mesh is 62,484 bytes."
pub const LARGEST_MESH: usize = 62_484;
/// No listing is longer: 3,072 lines and a heading, of 128 bytes each.
pub const LARGEST_LISTING: usize = 128 * 3_073;
/// No header's counts account for more bytes: 65,535 vertices and 65,535 records.
pub const LONGEST_MESH: usize = 20 + 27 * 65_535;
/// No selection's count accounts for more bytes: 65,535 numbers.
pub const LONGEST_SELECTION: usize = 13 + 2 * 65_535;
/// "65,535 if uncut".
const UNCUT: u16 = 65_535;

/// "Numbers are little-endian": a u16.
pub fn two(bytes: &[u8], at: usize) -> u16 {
    u16::from_le_bytes([byte(bytes, at), byte(bytes, at + 1)])
}

fn byte(bytes: &[u8], at: usize) -> u8 {
    bytes.get(at).copied().unwrap_or(0)
}

/// The job, which a mesh and a selection have at the same place.
pub fn job(bytes: &[u8]) -> u32 {
    u32::from(two(bytes, 5)) | u32::from(two(bytes, 7)) << 16
}

/// The round, which a mesh and a selection have at the same place.
pub fn round(bytes: &[u8]) -> u16 {
    two(bytes, 9)
}

/// The counts of a mesh's header.
pub struct Counts {
    pub base_vertices: u16,
    pub vertices: u16,
    pub base_records: u16,
    pub records: u16,
}

impl Counts {
    pub fn of(mesh: &[u8]) -> Counts {
        Counts {
            base_vertices: two(mesh, 11),
            vertices: two(mesh, 13),
            base_records: two(mesh, 15),
            records: two(mesh, 17),
        }
    }

    /// Where the records begin.
    fn records_at(&self) -> usize {
        20 + 10 * usize::from(self.vertices)
    }

    /// "20 + 10·vertices + 17·records"
    pub fn length(&self) -> usize {
        self.records_at() + 17 * usize::from(self.records)
    }
}

/// The base vertices of a mesh and its first so many base records, as a mesh by themselves.
pub fn base_of(mesh: &[u8], records: usize) -> Vec<u8> {
    let counts = Counts::of(mesh);
    let vertices = counts.base_vertices;
    let part = |at: usize, length: usize| mesh.iter().skip(at).take(length).copied();
    let mut base: Vec<u8> = part(0, 11).collect();
    for count in [vertices, vertices, records as u16, records as u16] {
        base.extend(count.to_le_bytes());
    }
    base.push(0);
    base.extend(part(20, 10 * usize::from(vertices)));
    base.extend(part(counts.records_at(), 17 * records));
    base
}

/// The places of the base vertices.
pub fn base_places(mesh: &[u8]) -> Vec<[i16; 3]> {
    // "Coordinates in two's complement."
    let coordinate = |at: usize| two(mesh, at) as i16;
    let place = |vertex: usize| [0, 2, 4].map(|offset| coordinate(20 + 10 * vertex + offset));
    let vertices = Counts::of(mesh).base_vertices.into();
    (0..vertices).map(place).collect()
}

/// The corners of the base records.
pub fn base_corners(mesh: &[u8]) -> Vec<[u16; 4]> {
    let records = Counts::of(mesh).base_records.into();
    (0..records)
        .map(|number| Record::of(mesh, number).corners)
        .collect()
}

/// What is said of a record.
pub struct Record {
    pub corners: [u16; 4],
    pub generation: u8,
    /// None if it is uncut.
    pub first_child: Option<u16>,
}

impl Record {
    pub fn of(mesh: &[u8], number: usize) -> Record {
        let at = Counts::of(mesh).records_at() + 17 * number;
        Record {
            corners: [0, 2, 4, 6].map(|offset| two(mesh, at + offset)),
            generation: byte(mesh, at + 14),
            first_child: Some(two(mesh, at + 15)).filter(|&first| first != UNCUT),
        }
    }

    pub fn is_cut(&self) -> bool {
        self.first_child.is_some()
    }
}

/// The numbers of the cut records.
pub fn cut_records(mesh: &[u8]) -> Vec<u16> {
    let all = 0..Counts::of(mesh).records;
    all.filter(|&number| Record::of(mesh, number.into()).is_cut())
        .collect()
}

/// A selection for a job and a round; the caller has at most 65,535 numbers.
pub fn selection(job: u32, round: u16, numbers: &[u16]) -> Vec<u8> {
    let mut bytes = b"TMS\x01\x00".to_vec();
    bytes.extend(job.to_le_bytes());
    bytes.extend(round.to_le_bytes());
    bytes.extend((numbers.len() as u16).to_le_bytes());
    bytes.extend(numbers.iter().flat_map(|number| number.to_le_bytes()));
    bytes
}

/// The numbers that a selection names, as they stand.
pub fn named(selection: &[u8]) -> Vec<u16> {
    let count = usize::from(two(selection, 11));
    (0..count).map(|n| two(selection, 13 + 2 * n)).collect()
}
