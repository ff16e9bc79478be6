//! What the tests share: the layout of a stored mesh decoded once more, small meshes, a naive
//! refine that can also go the four wrong ways, a naive take-back, and a small source of random
//! numbers.
#![allow(dead_code)]

use std::collections::{BTreeMap, BTreeSet};

/// "65,535 if uncut", "65,535 for both parents".
pub const NONE: u16 = 65_535;
/// "The largest mesh is 62,484 bytes."
pub const FULL: usize = 62_484;
/// "Edge codes by slots: 0 is 01, 1 is 02, 2 is 03, 3 is 12, 4 is 13, 5 is 23."
pub const CODES: [(usize, usize); 6] = [(0, 1), (0, 2), (0, 3), (1, 2), (1, 3), (2, 3)];

#[derive(Clone, Copy, Debug, PartialEq, Eq)]
pub struct Vertex {
    pub place: [i16; 3],
    pub parents: [u16; 2],
}

#[derive(Clone, Copy, Debug, PartialEq, Eq)]
pub struct Record {
    pub corners: [u16; 4],
    pub edge: u8,
    pub marks: [u8; 4],
    pub flag: u8,
    pub generation: u8,
    pub first_child: u16,
}

#[derive(Clone, Debug, PartialEq, Eq)]
pub struct Stored {
    pub job: u32,
    pub round: u16,
    pub base_vertices: u16,
    pub base_records: u16,
    pub vertices: Vec<Vertex>,
    pub records: Vec<Record>,
}

fn two(bytes: &[u8], at: usize) -> u16 {
    bytes[at] as u16 + 256 * bytes[at + 1] as u16
}

/// Decodes by the layout; for meshes that are known to be whole.
pub fn decode(bytes: &[u8]) -> Stored {
    assert_eq!(&bytes[..5], b"TMB\x01\x00");
    assert_eq!(bytes[19], 0);
    let (vertices, records) = (two(bytes, 13) as usize, two(bytes, 17) as usize);
    assert_eq!(bytes.len(), 20 + 10 * vertices + 17 * records);
    let start = 20 + 10 * vertices;
    Stored {
        job: two(bytes, 5) as u32 + 65_536 * two(bytes, 7) as u32,
        round: two(bytes, 9),
        base_vertices: two(bytes, 11),
        base_records: two(bytes, 15),
        vertices: (0..vertices)
            .map(|n| &bytes[20 + 10 * n..30 + 10 * n])
            .map(|v| Vertex {
                place: [two(v, 0) as i16, two(v, 2) as i16, two(v, 4) as i16],
                parents: [two(v, 6), two(v, 8)],
            })
            .collect(),
        records: (0..records)
            .map(|n| &bytes[start + 17 * n..start + 17 * n + 17])
            .map(|r| Record {
                corners: [two(r, 0), two(r, 2), two(r, 4), two(r, 6)],
                edge: r[8],
                marks: [r[9], r[10], r[11], r[12]],
                flag: r[13],
                generation: r[14],
                first_child: two(r, 15),
            })
            .collect(),
    }
}

impl Stored {
    /// Encodes by the layout, whatever the fields say.
    pub fn bytes(&self) -> Vec<u8> {
        let mut bytes = b"TMB\x01\x00".to_vec();
        bytes.extend(self.job.to_le_bytes());
        bytes.extend(self.round.to_le_bytes());
        bytes.extend(self.base_vertices.to_le_bytes());
        bytes.extend((self.vertices.len() as u16).to_le_bytes());
        bytes.extend(self.base_records.to_le_bytes());
        bytes.extend((self.records.len() as u16).to_le_bytes());
        bytes.push(0);
        for v in &self.vertices {
            for coordinate in v.place {
                bytes.extend(coordinate.to_le_bytes());
            }
            for parent in v.parents {
                bytes.extend(parent.to_le_bytes());
            }
        }
        for r in &self.records {
            for corner in r.corners {
                bytes.extend(corner.to_le_bytes());
            }
            bytes.push(r.edge);
            bytes.extend(r.marks);
            bytes.extend([r.flag, r.generation]);
            bytes.extend(r.first_child.to_le_bytes());
        }
        bytes
    }

    /// The numbers of the leaves, rising.
    pub fn leaves(&self) -> Vec<u16> {
        (0..self.records.len() as u16)
            .filter(|&n| self.records[n as usize].first_child == NONE)
            .collect()
    }

    /// The numbers of the cut records, rising.
    pub fn cut_records(&self) -> Vec<u16> {
        (0..self.records.len() as u16)
            .filter(|&n| self.records[n as usize].first_child != NONE)
            .collect()
    }

    /// The numbers of the records cut at a made vertex, rising.
    pub fn cut_at(&self, vertex: u16) -> Vec<u16> {
        let [p, q] = self.vertices[vertex as usize].parents;
        let mut cut = self.cut_records();
        cut.retain(|&n| self.refinement_ends(n as usize) == (p, q));
        cut
    }

    /// Whether both children of a cut record are leaves.
    pub fn ready(&self, number: u16) -> bool {
        let first = self.records[number as usize].first_child as usize;
        let mut children = self.records[first..first + 2].iter();
        children.all(|child| child.first_child == NONE)
    }

    /// The signed value of a record, by another formula than the program's: the four-by-four
    /// determinant with a column of ones.
    pub fn signed(&self, number: usize) -> i64 {
        let rows: Vec<[i128; 3]> = self.records[number]
            .corners
            .iter()
            .map(|&c| self.vertices[c as usize].place.map(|x| x as i128))
            .collect();
        let three = |a: [i128; 3], b: [i128; 3], c: [i128; 3]| {
            a[0] * b[1] * c[2] + a[1] * b[2] * c[0] + a[2] * b[0] * c[1]
                - a[2] * b[1] * c[0]
                - a[1] * b[0] * c[2]
                - a[0] * b[2] * c[1]
        };
        let (a, b, c, d) = (rows[0], rows[1], rows[2], rows[3]);
        let value = three(b, c, d) - three(a, c, d) + three(a, b, d) - three(a, b, c);
        value as i64
    }

    /// Sixfold volume of a record.
    pub fn sixfold(&self, number: usize) -> u64 {
        self.signed(number).unsigned_abs()
    }

    /// The two ends of a record's refinement edge, lower first.
    pub fn refinement_ends(&self, number: usize) -> Pair {
        let r = &self.records[number];
        ends(r, r.edge)
    }
}

/// Two vertex numbers, lower first.
pub type Pair = (u16, u16);

pub fn pair(a: u16, b: u16) -> Pair {
    (a.min(b), a.max(b))
}

pub fn ends(r: &Record, code: u8) -> Pair {
    let (i, j) = CODES[code as usize];
    pair(r.corners[i], r.corners[j])
}

/// The code of an edge given by its two vertices.
pub fn code_of(corners: [u16; 4], edge: Pair) -> u8 {
    (0..6)
        .find(|&k| pair(corners[CODES[k].0], corners[CODES[k].1]) == edge)
        .expect("an edge of the piece") as u8
}

/// The same piece in the other hand: two of its corners exchanged, edge and marks along.
pub fn turned(r: &Record, one: usize, other: usize) -> Record {
    let mut turned = *r;
    turned.corners.swap(one, other);
    turned.marks.swap(one, other);
    for code in turned.marks.iter_mut().chain([&mut turned.edge]) {
        *code = code_of(turned.corners, ends(r, *code));
    }
    turned
}

/// The three corners of face i as a set.
pub fn face_set(corners: [u16; 4], i: usize) -> [u16; 3] {
    let mut rest: Vec<u16> = (0..4).filter(|&j| j != i).map(|j| corners[j]).collect();
    rest.sort_unstable();
    [rest[0], rest[1], rest[2]]
}

// ---------------------------------------------------------------------------------------------
// Small meshes.

pub const K_COORDINATES: [i16; 12] = [0, 0, 0, 64, 0, 0, 64, 64, 0, 64, 64, 64];

/// K of "A piece worked by hand".
pub fn k() -> Vec<u8> {
    second::build_vec(7, &K_COORDINATES, &[0, 1, 2, 3]).expect("K is a mesh")
}

pub const CUBE_CORNERS: [u16; 24] = [
    0, 1, 3, 7, 0, 1, 5, 7, 0, 2, 3, 7, 0, 2, 6, 7, 0, 4, 5, 7, 0, 4, 6, 7,
];

/// The corners of a cube: bit 0 of the number is x, bit 1 is y, bit 2 is z.
pub fn cube_coordinates(side: i16) -> Vec<i16> {
    (0..8i16)
        .flat_map(|n| [n & 1, n >> 1 & 1, n >> 2 & 1].map(|bit| bit * side))
        .collect()
}

/// The cube of side 64 as six pieces round the diagonal.
pub fn cube() -> Vec<u8> {
    second::build_vec(1, &cube_coordinates(64), &CUBE_CORNERS).expect("the cube is a mesh")
}

/// "A vertex in the middle of a neighbour's edge": K of job 7 and round 0, and a piece that has vertex 4
/// in the middle of K's edge 0-3, or as far from there as given. Each is cut at slots 0 and 1 first.
pub fn on_an_edge_of_k(off: [i16; 3]) -> Stored {
    let place = off.map(|x| 32 + x);
    let mut places: Vec<[i16; 3]> = K_COORDINATES
        .chunks(3)
        .map(|p| [p[0], p[1], p[2]])
        .collect();
    places.extend([place, [-64, 64, 0], [-64, 128, 0], [-64, 64, 64]]);
    let stored = of_type_o(&places, &[[0, 3, 1, 2], [4, 5, 6, 7]]);
    Stored { job: 7, ..stored }
}

/// A selection for the mesh's own job and round.
pub fn choose(mesh: &[u8], numbers: &[u16]) -> Vec<u8> {
    let stored = decode(mesh);
    second::selection(stored.job, stored.round, numbers)
}

/// Refines by a selection for the mesh's own job and round.
pub fn refined(mesh: &[u8], numbers: &[u16]) -> Vec<u8> {
    second::refine_vec(mesh, &choose(mesh, numbers)).expect("an accepted refinement")
}

/// Takes cuts back by a request for the mesh's own job and round.
pub fn taken_back(mesh: &[u8], numbers: &[u16]) -> Vec<u8> {
    second::take_back_vec(mesh, &choose(mesh, numbers)).expect("an accepted request")
}

/// Refines the deepest leaf (the first of them) until it has the wanted generation.
pub fn deepen(mut mesh: Vec<u8>, generation: u8) -> Vec<u8> {
    loop {
        let leaf = deepest_leaf(&mesh);
        if decode(&mesh).records[leaf as usize].generation >= generation {
            return mesh;
        }
        mesh = refined(&mesh, &[leaf]);
    }
}

/// The first of the deepest leaves.
pub fn deepest_leaf(mesh: &[u8]) -> u16 {
    let stored = decode(mesh);
    let leaves = stored.leaves();
    let generation = |n: &u16| stored.records[*n as usize].generation;
    let deepest = leaves.iter().map(generation).max().expect("a leaf");
    *leaves
        .iter()
        .find(|n| generation(n) == deepest)
        .expect("a leaf")
}

/// Places on the grid that are all different, from number 0 on: far apart and never repeated.
pub fn grid_place(number: u16) -> [i16; 3] {
    let (x, y, z) = (number % 11, number / 11 % 10, number / 110);
    [
        32 * (x as i16 * 20 + (y * y % 7) as i16),
        32 * (y as i16 * 20 + (x * x % 5) as i16),
        32 * (z as i16 * 20 + (x * y % 3) as i16),
    ]
}

/// A plain mesh of single pieces that share nothing, 4 vertices each.
pub fn separate(pieces: u16) -> (Vec<i16>, Vec<u16>) {
    let mut coordinates = Vec::new();
    for n in 0..pieces {
        let [x, y, z] = [n % 16, n / 16 % 16, n / 256].map(|m| 256 * m as i16);
        coordinates.extend([
            x,
            y,
            z,
            x + 64,
            y,
            z,
            x + 64,
            y + 64,
            z,
            x + 64,
            y + 64,
            z + 64,
        ]);
    }
    (coordinates, (0..4 * pieces).collect())
}

// ---------------------------------------------------------------------------------------------
// A naive refine, by vertex pairs instead of slots and codes, without limits.

/// The right way, and the four easy ways to go wrong.
#[derive(Clone, Copy, Debug, PartialEq, Eq)]
pub enum Way {
    Right,
    /// "Closing only across a cut piece's faces."
    OnlyAcrossFaces,
    /// "Giving the two neighbours of a split edge a midpoint each."
    MidpointEach,
    /// "Setting the flag from the child's own type, not from the parent's."
    FlagFromTheChild,
    /// "Testing only the refinement edge for hanging".
    OnlyTheRefinementEdge,
}

/// Whether a piece is of type P, by vertex pairs: the marks of the two faces that don't contain the
/// refinement edge share a corner off that edge, and neither is the edge opposite to it.
pub fn shared_corner_of_p(r: &Record) -> Option<u16> {
    let edge = ends(r, r.edge);
    let on_edge = |x: u16| x == edge.0 || x == edge.1;
    let others: Vec<Pair> = (0..4)
        .filter(|&i| on_edge(r.corners[i]))
        .map(|i| ends(r, r.marks[i]))
        .collect();
    let (first, second) = (others[0], others[1]);
    let opposite = |m: Pair| !on_edge(m.0) && !on_edge(m.1);
    if opposite(first) || opposite(second) {
        return None;
    }
    let off = |m: Pair| if on_edge(m.0) { m.1 } else { m.0 };
    (off(first) == off(second)).then(|| off(first))
}

/// The two children of a record, corner by corner and face by face.
pub fn bisect(parent: &Record, w: u16, way: Way) -> [Record; 2] {
    let (u, v) = ends(parent, parent.edge);
    let shared = shared_corner_of_p(parent);
    [v, u].map(|gone| {
        let corners = parent.corners.map(|c| if c == gone { w } else { c });
        let mut inherited = None;
        let marks: Vec<Pair> = (0..4)
            .map(|i| {
                let face = face_set(corners, i);
                let rest: Vec<u16> = face.iter().copied().filter(|&c| c != w).collect();
                if rest.len() == 3 {
                    // The inherited face: the parent's face with the same three corners.
                    let old = (0..4)
                        .find(|&j| face_set(parent.corners, j) == face)
                        .expect("an inherited face is the parent's");
                    inherited = Some(ends(parent, parent.marks[old]));
                    ends(parent, parent.marks[old])
                } else if rest.contains(&u) || rest.contains(&v) {
                    pair(rest[0], rest[1])
                } else {
                    match shared {
                        Some(corner) if parent.flag == 1 => pair(w, corner),
                        _ => pair(rest[0], rest[1]),
                    }
                }
            })
            .collect();
        let mut child = Record {
            corners,
            edge: code_of(corners, inherited.expect("one face is inherited")),
            marks: [0, 1, 2, 3].map(|i| code_of(corners, marks[i])),
            flag: u8::from(shared.is_some() && parent.flag == 0),
            generation: parent.generation + 1,
            first_child: NONE,
        };
        if way == Way::FlagFromTheChild {
            child.flag = u8::from(shared_corner_of_p(&child).is_some());
        }
        child
    })
}

/// Cuts one record and closes nothing.
pub fn cut_one(stored: &mut Stored, number: u16, way: Way) {
    let parent = stored.records[number as usize];
    let (p, q) = ends(&parent, parent.edge);
    let known = stored.vertices.iter().position(|v| v.parents == [p, q]);
    let w = match known {
        Some(vertex) if way != Way::MidpointEach => vertex,
        _ => {
            let (one, other) = (stored.vertices[p as usize], stored.vertices[q as usize]);
            let place = [0, 1, 2].map(|i| {
                let sum = one.place[i] as i32 + other.place[i] as i32;
                assert_eq!(sum % 2, 0, "halving meets no odd sum");
                (sum / 2) as i16
            });
            stored.vertices.push(Vertex {
                place,
                parents: [p, q],
            });
            stored.vertices.len() - 1
        }
    };
    stored.records[number as usize].first_child = stored.records.len() as u16;
    let children = bisect(&parent, w as u16, way);
    stored.records.extend(children);
}

/// The made vertices by parent pair.
pub fn split_edges(stored: &Stored) -> BTreeMap<Pair, u16> {
    let made = stored.vertices[stored.base_vertices as usize..].iter();
    made.zip(stored.base_vertices..)
        .map(|(v, n)| ((v.parents[0], v.parents[1]), n))
        .collect()
}

/// The leaves that have a hanging edge, rising.
pub fn hanging_leaves(stored: &Stored, way: Way) -> Vec<u16> {
    let split = split_edges(stored);
    let mut cut_faces = BTreeSet::new();
    if way == Way::OnlyAcrossFaces {
        let cut = stored.records.iter().filter(|r| r.first_child != NONE);
        cut_faces.extend(cut.flat_map(|r| [0, 1, 2, 3].map(|i| face_set(r.corners, i))));
    }
    let mut hanging = stored.leaves();
    hanging.retain(|&n| {
        let r = &stored.records[n as usize];
        (0..6).any(|code| {
            let edge = ends(r, code);
            split.contains_key(&edge)
                && match way {
                    Way::OnlyTheRefinementEdge => code == r.edge,
                    Way::OnlyAcrossFaces => (0..4).any(|i| {
                        let face = face_set(r.corners, i);
                        face.contains(&edge.0)
                            && face.contains(&edge.1)
                            && cut_faces.contains(&face)
                    }),
                    _ => true,
                }
        })
    });
    hanging
}

/// Refines in passes, without limits.
pub fn naive_refine(mesh: &[u8], selected: &[u16], way: Way) -> Stored {
    let mut stored = decode(mesh);
    stored.round += 1;
    let mut pass = selected.to_vec();
    while !pass.is_empty() {
        for number in pass {
            cut_one(&mut stored, number, way);
            assert!(stored.records.len() < 60_000, "closing ends");
        }
        pass = hanging_leaves(&stored, way);
    }
    stored
}

// ---------------------------------------------------------------------------------------------
// A naive take-back: vertex by vertex, and every number above what goes is lowered each time.

/// What goes is judged on the mesh as given.
pub fn naive_take_back(mesh: &[u8], named: &[u16]) -> Stored {
    let mut stored = decode(mesh);
    let goes = |&vertex: &u16| {
        let mut cut = stored.cut_at(vertex).into_iter();
        cut.all(|n| named.contains(&n) && stored.ready(n))
    };
    let made = stored.base_vertices..stored.vertices.len() as u16;
    let away: Vec<u16> = made.filter(goes).collect();
    stored.round += 1;
    // The last first: those that are still to go keep their numbers.
    for vertex in away.into_iter().rev() {
        while let Some(&n) = stored.cut_at(vertex).first() {
            uncut(&mut stored, n);
        }
        stored.vertices.remove(vertex as usize);
        let made = stored.vertices[stored.base_vertices as usize..].iter_mut();
        let parents = made.flat_map(|v| &mut v.parents);
        let corners = stored.records.iter_mut().flat_map(|r| &mut r.corners);
        for number in parents.chain(corners) {
            assert_ne!(*number, vertex, "nothing that stays refers to it");
            *number -= u16::from(*number > vertex);
        }
    }
    stored
}

/// Makes a cut record a leaf and takes its two children out.
fn uncut(stored: &mut Stored, number: u16) {
    let first = stored.records[number as usize].first_child;
    stored.records[number as usize].first_child = NONE;
    stored.records.drain(first as usize..first as usize + 2);
    for r in &mut stored.records {
        if r.first_child != NONE && r.first_child > first {
            r.first_child -= 2;
        }
    }
}

// ---------------------------------------------------------------------------------------------
// Random numbers.

/// A small source of random numbers (xorshift with a multiplication).
pub struct Random(pub u64);

impl Random {
    pub fn next(&mut self) -> u64 {
        self.0 ^= self.0 >> 12;
        self.0 ^= self.0 << 25;
        self.0 ^= self.0 >> 27;
        self.0.wrapping_mul(0x2545_F491_4F6C_DD1D)
    }

    /// A number below the bound.
    pub fn below(&mut self, bound: usize) -> usize {
        (self.next() >> 16) as usize % bound
    }

    pub fn shuffle<T>(&mut self, items: &mut [T]) {
        for i in (1..items.len()).rev() {
            items.swap(i, self.below(i + 1));
        }
    }
}

// ---------------------------------------------------------------------------------------------
// Larger meshes, and what is expected of refusals.

/// A plain mesh of that many vertices and records: cubes of six pieces each between the places of the
/// grid, some pieces left out, every vertex used. The cubes are bent a little and still fill their space
/// side by side, so no vertex lies in a piece that it isn't a corner of.
pub fn crowded(vertices: u16, records: usize, seed: u64) -> (Vec<i16>, Vec<u16>) {
    let mut random = Random(seed);
    // Columns and rows 0 and 1 change places: so each vertex is in a piece with lower ones.
    let first_two = |n: u16| if n < 2 { 1 - n } else { n };
    let number = |n: u16| first_two(n % 11) + 11 * first_two(n / 11 % 10) + n / 110 * 110;
    let coordinates: Vec<i16> = (0..vertices).map(number).flat_map(grid_place).collect();
    let mut pieces: Vec<[u16; 4]> = Vec::new();
    let last_column_or_row = |n: u16| n % 11 == 10 || n / 11 % 10 == 9;
    for low in (0..vertices).filter(|&n| !last_column_or_row(n)) {
        for piece in CUBE_CORNERS.chunks(4) {
            let corner = |c: u16| number(low + (c & 1) + 11 * (c >> 1 & 1) + 110 * (c >> 2 & 1));
            pieces.push([0, 1, 2, 3].map(|slot| corner(piece[slot])));
        }
    }
    pieces.retain(|piece| piece.iter().all(|&corner| corner < vertices));
    random.shuffle(&mut pieces);
    // First pieces that use a vertex more, then any others.
    let mut unused: BTreeSet<u16> = (0..vertices).collect();
    let uses_more = |piece: &[u16; 4]| piece.map(|c| unused.remove(&c)).contains(&true);
    let (mut chosen, others): (Vec<_>, Vec<_>) = pieces.into_iter().partition(uses_more);
    assert!(unused.is_empty() && chosen.len() <= records);
    chosen.extend(others);
    assert!(chosen.len() >= records);
    chosen.truncate(records);
    random.shuffle(&mut chosen);
    chosen.iter_mut().for_each(|piece| random.shuffle(piece));
    (coordinates, chosen.concat())
}

/// Lengths of output buffers that no refusal but 20 may depend on.
pub const LENGTHS: [usize; 6] = [0, 1, 19, 120, FULL, FULL + 1_000];

/// Check, refine, take-back and list all refuse the mesh with that number; all that is returned and
/// written besides is zero, and the inputs stand as they were.
pub fn mesh_refused(name: &str, mesh: &[u8], number: u32) {
    mesh_refused_at(name, mesh, number, (0, 0));
}

/// The same with the place that 10 returns.
pub fn mesh_refused_at(name: &str, mesh: &[u8], number: u32, place: (u64, u64)) {
    let wanted = second::Report {
        number: number as u64,
        leaves: 0,
        deepest: 0,
        sixfold: 0,
        record: place.0,
        edge: place.1,
    };
    assert_eq!(second::check(mesh), wanted, "{name}");
    let (mut job, mut round) = (0, 0);
    if mesh.len() >= 20 {
        job = two(mesh, 5) as u32 + 65_536 * two(mesh, 7) as u32;
        round = two(mesh, 9);
    }
    for selection in [second::selection(job, round, &[]), vec![], vec![255; 13]] {
        refine_refused(name, mesh, &selection, number);
        take_back_refused(name, mesh, &selection, number);
    }
    let listed = if mesh.len() > FULL { 1 } else { number };
    let line = format!("refused {listed}\n");
    assert_eq!(second::list(mesh), line.as_bytes(), "{name}");
}

/// A service that takes a mesh and a selection or a request: into a buffer, and as long as it has to be.
type Into = fn(&[u8], &[u8], &mut [u8]) -> u32;
type Whole = fn(&[u8], &[u8]) -> Result<Vec<u8>, u32>;

/// Refine refuses with that number, whatever the length of the buffer; the buffer is zero
/// throughout and the inputs stand as they were.
pub fn refine_refused(name: &str, mesh: &[u8], selection: &[u8], number: u32) {
    let refine = (second::refine as Into, second::refine_vec as Whole);
    refused_by(refine, name, mesh, selection, number);
}

/// The same of take-back.
pub fn take_back_refused(name: &str, mesh: &[u8], request: &[u8], number: u32) {
    let take_back = (second::take_back as Into, second::take_back_vec as Whole);
    refused_by(take_back, name, mesh, request, number);
}

fn refused_by((into, whole): (Into, Whole), name: &str, mesh: &[u8], named: &[u8], number: u32) {
    let before = (mesh.to_vec(), named.to_vec());
    for length in LENGTHS {
        let mut out = vec![0xAA; length];
        let given = into(mesh, named, &mut out);
        assert_eq!(given, number, "{name}, buffer of {length}");
        assert!(
            out.iter().all(|&byte| byte == 0),
            "{name}, buffer of {length}"
        );
    }
    assert_eq!((mesh.to_vec(), named.to_vec()), before, "{name}");
    assert_eq!(whole(mesh, named), Err(number), "{name}");
}

/// Build refuses with that number, whatever the length of the buffer.
pub fn build_refused(name: &str, coordinates: &[i16], corners: &[u16], number: u32) {
    let before = (coordinates.to_vec(), corners.to_vec());
    for length in LENGTHS {
        let mut out = vec![0xAA; length];
        let given = second::build(7, coordinates, corners, &mut out);
        assert_eq!(given, number, "{name}, buffer of {length}");
        assert!(
            out.iter().all(|&byte| byte == 0),
            "{name}, buffer of {length}"
        );
    }
    assert_eq!((coordinates.to_vec(), corners.to_vec()), before, "{name}");
    assert_eq!(
        second::build_vec(7, coordinates, corners),
        Err(number),
        "{name}"
    );
}

/// Check accepts the mesh.
pub fn mesh_accepted(name: &str, mesh: &[u8]) {
    let report = second::check(mesh);
    assert_eq!(report.number, 0, "{name}");
    assert!(report.leaves > 0, "{name}");
    assert_eq!((report.record, report.edge), (0, 0), "{name}");
}

/// "Positive for right-handed"; "a child's signed value is exactly half of its parent's": both of every
/// record. Gives how many there are.
pub fn right_handed_by_halves(stored: &Stored) -> usize {
    for (n, r) in stored.records.iter().enumerate() {
        let value = stored.signed(n);
        assert!(value > 0, "record {n}: {value}");
        if r.first_child != NONE {
            let first = r.first_child as usize;
            let children = [first, first + 1].map(|child| stored.signed(child));
            assert_eq!(value % 2, 0, "record {n}");
            assert_eq!(children, [value / 2; 2], "record {n}");
        }
    }
    stored.records.len()
}

/// A mesh with one piece for each group of four places, marked as given: refinement edge and marks.
pub fn marked(places: &[[i16; 3]], pieces: &[([u16; 4], u8, [u8; 4])]) -> Stored {
    Stored {
        job: 3,
        round: 0,
        base_vertices: places.len() as u16,
        base_records: pieces.len() as u16,
        vertices: places
            .iter()
            .map(|&place| Vertex {
                place,
                parents: [NONE; 2],
            })
            .collect(),
        records: pieces
            .iter()
            .map(|&(corners, edge, marks)| Record {
                corners,
                edge,
                marks,
                flag: 0,
                generation: 0,
                first_child: NONE,
            })
            .collect(),
    }
}

/// The pieces by their corners, each with slots 2 and 3 exchanged if it is left-handed, and cut at slots
/// 0 and 1 first (type O). A face that two of them share has to be marked alike.
pub fn of_type_o(places: &[[i16; 3]], pieces: &[[u16; 4]]) -> Stored {
    let mut stored = marked(places, &[]);
    stored.base_records = pieces.len() as u16;
    for &corners in pieces {
        let alone = marked(places, &[(corners, 0, [5, 5, 0, 0])]);
        stored.records.push(match alone.signed(0) < 0 {
            true => turned(&alone.records[0], 2, 3),
            false => alone.records[0],
        });
    }
    stored
}

// ---------------------------------------------------------------------------------------------
// A naive check: each rule as it stands, by going through everything.

/// The number of the first rule broken, and the place that 10 returns.
pub fn naive_check(bytes: &[u8]) -> (u64, u64, u64) {
    let plain = |number| (number, 0, 0);
    if bytes.len() < 20
        || bytes.len() != 20 + 10 * two(bytes, 13) as usize + 17 * two(bytes, 17) as usize
    {
        return plain(1);
    }
    if bytes[..5] != *b"TMB\x01\x00" || bytes[19] != 0 {
        return plain(2);
    }
    let counts = [11, 13, 15, 17].map(|at| two(bytes, at));
    if counts[0] < 4
        || counts[1] > 1_024
        || counts[0] > counts[1]
        || counts[2] < 1
        || counts[3] > 3_072
        || counts[2] > counts[3]
    {
        return plain(3);
    }
    let stored = decode(bytes);
    let s = &stored;
    let (base_vertices, base_records) = (s.base_vertices as usize, s.base_records as usize);
    let rules: [(u64, &dyn Fn() -> bool); 8] = [
        (4, &|| vertices_hold(s, base_vertices)),
        (5, &|| {
            s.records[..base_records]
                .iter()
                .all(|r| base_piece_holds(s, r))
        }),
        (22, &|| (0..base_records).all(|n| s.signed(n) > 0)),
        (6, &|| s.records[..base_records].iter().all(marks_hold)),
        (7, &|| faces_hold(&s.records[..base_records])),
        (8, &|| {
            (0..s.base_vertices).all(|n| {
                s.records[..base_records]
                    .iter()
                    .any(|r| r.corners.contains(&n))
            })
        }),
        (23, &|| vertices_in_pieces(s).is_empty()),
        (9, &|| cuts_hold(s, base_vertices, base_records)),
    ];
    for (number, holds) in rules {
        if !holds() {
            return plain(number);
        }
    }
    for n in s.leaves() {
        for code in 0..6 {
            let (p, q) = ends(&s.records[n as usize], code);
            if s.vertices[base_vertices..]
                .iter()
                .any(|v| v.parents == [p, q])
            {
                return (10, n as u64, code as u64);
            }
        }
    }
    plain(0)
}

fn vertices_hold(s: &Stored, base: usize) -> bool {
    s.vertices.iter().enumerate().all(|(n, v)| {
        let earlier = &s.vertices[..n];
        if n < base {
            v.place
                .iter()
                .all(|x| x.rem_euclid(32) == 0 && x.abs_diff(0) <= 32_736)
                && v.parents == [NONE, NONE]
                && earlier.iter().all(|other| other.place != v.place)
        } else {
            let [p, q] = v.parents.map(|parent| parent as usize);
            p < q
                && q < n
                && (0..3).all(|i| {
                    let [p, q] = [p, q].map(|parent| s.vertices[parent].place[i] as i32);
                    p + q == 2 * v.place[i] as i32
                })
                && earlier[base..]
                    .iter()
                    .all(|other| other.parents != v.parents)
        }
    })
}

fn base_piece_holds(s: &Stored, r: &Record) -> bool {
    let alone = Stored {
        records: vec![*r],
        ..s.clone()
    };
    let different: BTreeSet<u16> = r.corners.into_iter().collect();
    different.len() == 4
        && r.corners.iter().all(|&c| c < s.base_vertices)
        && alone.sixfold(0) != 0
        && r.generation == 0
        && r.flag == 0
}

fn marks_hold(r: &Record) -> bool {
    let on_face = |code: u8, i: usize| {
        let (p, q) = CODES[code as usize];
        p != i && q != i
    };
    r.edge < 6
        && r.marks.iter().all(|&mark| mark < 6)
        && (0..4).all(|i| on_face(r.marks[i], i))
        && (0..4).all(|i| !on_face(r.edge, i) || r.marks[i] == r.edge)
}

fn faces_hold(base: &[Record]) -> bool {
    let corner_set = |r: &Record| r.corners.into_iter().collect::<BTreeSet<u16>>();
    let faces: Vec<([u16; 3], Pair)> = base
        .iter()
        .flat_map(|r| [0, 1, 2, 3].map(|i| (face_set(r.corners, i), ends(r, r.marks[i]))))
        .collect();
    let twice = |n: usize| {
        base[..n]
            .iter()
            .any(|r| corner_set(r) == corner_set(&base[n]))
    };
    !(0..base.len()).any(twice)
        && faces.iter().all(|(face, mark)| {
            let same = || faces.iter().filter(|(other, _)| other == face);
            same().count() < 3 && same().all(|(_, other)| other == mark)
        })
}

/// Each base vertex that lies in a closed base piece of which it isn't a corner, with the record's number.
pub fn vertices_in_pieces(s: &Stored) -> Vec<(u16, usize)> {
    let place = |n: u16| s.vertices[n as usize].place;
    let mut found = Vec::new();
    for (number, r) in s.records[..s.base_records as usize].iter().enumerate() {
        let inside = |&n: &u16| !r.corners.contains(&n) && is_mean(r.corners.map(place), place(n));
        found.extend((0..s.base_vertices).filter(inside).map(|n| (n, number)));
    }
    found
}

/// Whether a place is a mean of four others, which aren't in a plane, by weights that aren't negative.
/// The weights are found by elimination in whole numbers, without a determinant.
pub fn is_mean(of: [[i16; 3]; 4], place: [i16; 3]) -> bool {
    let [origin, others @ ..] = of;
    // An equation for each axis, all from the first place: the others, and what they have to make up.
    let mut rows = [0, 1, 2].map(|axis| {
        let [b, c, d] = others;
        [b, c, d, place].map(|p| p[axis] as i128 - origin[axis] as i128)
    });
    let mut whole = 1;
    for column in 0..3 {
        let pivot = (column..3).find(|&row| rows[row][column] != 0);
        rows.swap(column, pivot.expect("four places that aren't in a plane"));
        let chosen = rows[column];
        for row in (0..3).filter(|&row| row != column) {
            let factor = rows[row][column];
            for (entry, by) in rows[row].iter_mut().zip(chosen) {
                // Divided exactly, so that the entries stay small (Bareiss).
                *entry = (chosen[column] * *entry - factor * by) / whole;
            }
        }
        whole = chosen[column];
    }
    let [b, c, d] = rows.map(|row| row[3]);
    // Each weight is one of these over the whole.
    [whole - b - c - d, b, c, d]
        .iter()
        .all(|weight| weight.signum() * whole.signum() >= 0)
}

fn cuts_hold(s: &Stored, base_vertices: usize, base_records: usize) -> bool {
    let midpoint = |r: &Record| {
        let (p, q) = ends(r, r.edge);
        let made = base_vertices..s.vertices.len();
        made.clone().find(|&n| s.vertices[n].parents == [p, q])
    };
    let cut: Vec<usize> = (0..s.records.len())
        .filter(|&n| s.records[n].first_child != NONE)
        .collect();
    let children_hold = cut.iter().all(|&n| {
        let r = &s.records[n];
        let first = r.first_child as usize;
        let different: BTreeSet<u16> = r.corners.into_iter().collect();
        // A cut record that isn't a marked piece can't be what cutting gives.
        if first <= n || first + 1 >= s.records.len() || !marks_hold(r) || different.len() != 4 {
            return false;
        }
        let Some(w) = midpoint(r)
            .map(|w| w as u16)
            .filter(|w| !different.contains(w))
        else {
            return false;
        };
        r.generation < 15
            && bisect(r, w, Way::Right)
                .iter()
                .zip(&s.records[first..first + 2])
                .all(|(given, stored)| {
                    *given
                        == Record {
                            first_child: NONE,
                            ..*stored
                        }
                })
    });
    let times_child = |n: usize| {
        cut.iter()
            .map(|&parent| s.records[parent].first_child as usize)
            .filter(|&first| first == n || first + 1 == n)
            .count()
    };
    children_hold
        && (base_records..s.records.len()).all(|n| times_child(n) == 1)
        && (base_vertices..s.vertices.len())
            .all(|v| cut.iter().any(|&n| midpoint(&s.records[n]) == Some(v)))
        && s.records.iter().all(|r| r.generation <= 15)
}
