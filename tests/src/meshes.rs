//! Accepted meshes: plain ones, three ways to mark them, and refinement at random.

use crate::inside::within;
use crate::random::Random;
use crate::renumber::renumbered;
use second::mesh::{Mesh, Record, Vertex, NO_NUMBER};
use second::piece::{children, code, ends, on_face, slots, EDGES};
use second::{build_vec, refine_vec, selection, MOST_RECORDS, MOST_VERTICES};
use std::collections::{BTreeMap, BTreeSet};
use std::f64::consts::TAU;

/// K of "A piece worked by hand": its four places.
pub const K: [[i16; 3]; 4] = [[0, 0, 0], [64, 0, 0], [64, 64, 0], [64, 64, 64]];

/// "The cube ... as six pieces round the diagonal": bit 0 of a number is x, bit 1 is y, bit 2 is z.
const CUBE: [[u16; 4]; 6] = [
    [0, 1, 3, 7],
    [0, 1, 5, 7],
    [0, 2, 3, 7],
    [0, 2, 6, 7],
    [0, 4, 5, 7],
    [0, 4, 6, 7],
];

/// Two vertex numbers, lower first.
pub type Pair = (u16, u16);

pub fn pair(one: u16, other: u16) -> Pair {
    (one.min(other), one.max(other))
}

/// The three corners of a face as a set: "Face i is the face without slot i."
pub fn face_set(corners: [u16; 4], face: usize) -> [u16; 3] {
    let mut set = [0; 3];
    for (place, slot) in (0..4).filter(|&slot| slot != face).enumerate() {
        set[place] = corners[slot];
    }
    set.sort_unstable();
    set
}

/// The code of an edge given by its two vertices.
pub fn code_of(corners: [u16; 4], edge: Pair) -> u8 {
    (0..6)
        .zip(EDGES)
        .find(|(_, [one, other])| pair(corners[*one], corners[*other]) == edge)
        .expect("an edge of the piece")
        .0
}

/// The signed determinant of four places: the last three less the first; "positive for right-handed".
pub fn signed([a, b, c, d]: [[i16; 3]; 4]) -> i64 {
    let less = |place: [i16; 3]| [0, 1, 2].map(|axis| i64::from(place[axis]) - i64::from(a[axis]));
    let ([p, q, r], [s, t, u], [v, w, x]) = (less(b), less(c), less(d));
    p * (t * x - u * w) - q * (s * x - u * v) + r * (s * w - t * v)
}

/// The same piece with its corners in other slots, edge and marks along; nothing if its codes are no
/// piece's.
pub fn in_slots(record: &Record, order: [usize; 4]) -> Option<Record> {
    let moved = |old: u8| {
        let [one, other] = slots(old)?;
        code(order[one], order[other])
    };
    let mut other = *record;
    other.edge = moved(record.edge)?;
    for (slot, new) in order.into_iter().enumerate() {
        other.corners[new] = record.corners[slot];
        other.marks[new] = moved(record.marks[slot])?;
    }
    Some(other)
}

/// The same piece in the other hand: two of its corners exchanged, edge and marks along.
pub fn turned(record: &Record, [one, other]: [usize; 2]) -> Option<Record> {
    let mut order = [0, 1, 2, 3];
    order.swap(one, other);
    in_slots(record, order)
}

/// The four slots in every order, and whether an odd number of exchanges leads there.
pub fn orders() -> Vec<([usize; 4], bool)> {
    let order = |number: usize| [0, 2, 4, 6].map(|shift| number >> shift & 3);
    let all = (0..256).map(order);
    let pairs = |order: &[usize; 4], is_so: fn(usize, usize) -> bool| {
        let pairs = EDGES.iter().filter(|[i, j]| is_so(order[*i], order[*j]));
        pairs.count()
    };
    let different = all.filter(|order| pairs(order, |i, j| i != j) == 6);
    let orders: Vec<_> = different
        .map(|order| (order, pairs(&order, |i, j| i > j) % 2 == 1))
        .collect();
    assert_eq!(orders.len(), 24);
    orders
}

/// The same mesh with a base record in the other hand, its marks along.
pub fn with_turned(mesh: &Mesh, number: usize, slots: [usize; 2]) -> Mesh {
    let mut other = mesh.clone();
    other.records[number] = turned(&mesh.records[number], slots).expect("a piece");
    other
}

/// A plain mesh: places, and pieces by their corners.
#[derive(Clone, Default)]
pub struct Plain {
    pub places: Vec<[i16; 3]>,
    pub pieces: Vec<[u16; 4]>,
}

/// Refinement edge and marks of faces 0 to 3.
type Marking = (u8, [u8; 4]);

impl Plain {
    /// The signed determinant of a piece.
    pub fn signed(&self, piece: [u16; 4]) -> i64 {
        signed(piece.map(|corner| self.places[usize::from(corner)]))
    }

    /// A piece more that shares nothing.
    pub fn add_apart(&mut self, corners: [[i16; 3]; 4]) {
        let first = self.places.len() as u16;
        self.places.extend(corners);
        self.pieces.push([0, 1, 2, 3].map(|slot| first + slot));
    }

    /// The same pieces, all of them right-handed: of a left-handed one the two corners in these slots are
    /// exchanged.
    pub fn right_handed(mut self, mut slots: impl FnMut() -> [usize; 2]) -> Plain {
        for number in 0..self.pieces.len() {
            if self.signed(self.pieces[number]) < 0 {
                let [one, other] = slots();
                self.pieces[number].swap(one, other);
            }
        }
        self
    }

    /// Marked by build.
    pub fn built(&self, job: u32) -> Mesh {
        let bytes = build_vec(job, &self.places.concat(), &self.pieces.concat());
        Mesh::read(&bytes.expect("a plain mesh")).expect("a stored mesh")
    }

    /// Marked by hand, in the slots given: left-handed pieces stay what they are.
    pub fn marked(&self, job: u32, markings: &[Marking]) -> Mesh {
        let vertex = |&place| Vertex {
            place,
            parents: [NO_NUMBER; 2],
        };
        let record = |(&corners, &(edge, marks)): (&[u16; 4], &Marking)| Record {
            corners,
            edge,
            marks,
            flag: 0,
            generation: 0,
            first_child: NO_NUMBER,
        };
        Mesh {
            job,
            round: 0,
            base_vertices: self.places.len(),
            base_records: self.pieces.len(),
            vertices: self.places.iter().map(vertex).collect(),
            records: self.pieces.iter().zip(markings).map(record).collect(),
        }
    }

    /// Marked by a random strict order of the edges.
    pub fn marked_by_order(&self, random: &mut Random) -> Mesh {
        let salt = random.number() | 1;
        let rank = |edge: Pair| {
            let mixed = (u64::from(edge.0) << 16 | u64::from(edge.1)).wrapping_mul(salt);
            (mixed ^ mixed >> 29, edge)
        };
        let marking = |&corners: &[u16; 4]| -> Marking {
            let first = |face: Option<usize>| {
                (0u8..6)
                    .filter(|&code| face.is_none_or(|face| on_face(code, face)))
                    .min_by_key(|&code| {
                        let [one, other] = EDGES[usize::from(code)];
                        rank(pair(corners[one], corners[other]))
                    })
                    .expect("an edge")
            };
            (first(None), [0, 1, 2, 3].map(|face| first(Some(face))))
        };
        let markings: Vec<Marking> = self.pieces.iter().map(marking).collect();
        self.marked(random.number() as u32, &markings)
    }

    /// Marked freely under rules 6 and 7; nothing if the choice ran into a piece with none left.
    pub fn marked_freely(&self, random: &mut Random) -> Option<Mesh> {
        let mut marks: BTreeMap<[u16; 3], Pair> = BTreeMap::new();
        let mut markings = Vec::new();
        for &corners in &self.pieces {
            let edge_of = |code: u8| {
                let [one, other] = EDGES[usize::from(code)];
                pair(corners[one], corners[other])
            };
            let faces_with = |code: u8| {
                (0..4)
                    .filter(move |&face| on_face(code, face))
                    .map(|face| face_set(corners, face))
            };
            let mut codes = [0, 1, 2, 3, 4, 5];
            random.shuffle(&mut codes);
            let edge = codes.into_iter().find(|&code| {
                faces_with(code)
                    .all(|face| marks.get(&face).is_none_or(|&mark| mark == edge_of(code)))
            })?;
            for face in faces_with(edge) {
                marks.insert(face, edge_of(edge));
            }
            let codes = [0, 1, 2, 3].map(|face| {
                let set = face_set(corners, face);
                let at = random.below(3);
                let mark = marks
                    .entry(set)
                    .or_insert_with(|| pair(set[at], set[(at + 1) % 3]));
                code_of(corners, *mark)
            });
            markings.push((edge, codes));
        }
        Some(self.marked(random.number() as u32, &markings))
    }

    /// Marked in one of the three ways, and right-handed: by build, or by exchanging any two corners.
    pub fn marked_anyhow(&self, random: &mut Random) -> Mesh {
        let way = random.below(3);
        if way == 0 {
            return self.built(random.number() as u32);
        }
        let plain = self.clone().right_handed(|| EDGES[random.below(6)]);
        match way {
            1 => plain.marked_by_order(random),
            _ => (0..50)
                .find_map(|_| plain.marked_freely(random))
                .unwrap_or_else(|| plain.marked_by_order(random)),
        }
    }

    /// Whether build accepts the piece alone: four different corners, sixfold volume not 0.
    fn solid(&self, piece: [u16; 4]) -> bool {
        let places = piece.map(|corner| self.places[usize::from(corner)]);
        build_vec(0, &places.concat(), &[0, 1, 2, 3]).is_ok()
    }

    /// Whether a vertex lies in a piece that it is no corner of.
    fn hangs(&self, vertex: u16, piece: [u16; 4]) -> bool {
        let place = |number: u16| self.places[usize::from(number)];
        !piece.contains(&vertex) && within(piece.map(place), place(vertex)).is_some()
    }

    /// Each vertex that lies in a piece that it is no corner of, with the piece.
    pub fn hanging(&self) -> impl Iterator<Item = (usize, usize)> + '_ {
        let pairs = (0..self.pieces.len())
            .flat_map(|piece| (0..self.places.len()).map(move |vertex| (vertex, piece)));
        pairs.filter(|&(vertex, piece)| self.hangs(vertex as u16, self.pieces[piece]))
    }

    /// Whether rules 5, 7 and 23 let the piece be added.
    fn may_join(&self, piece: [u16; 4]) -> bool {
        let faces = || {
            self.pieces
                .iter()
                .flat_map(|&old| [0, 1, 2, 3].map(|face| face_set(old, face)))
        };
        let open = |face| {
            faces()
                .filter(|&other| other == face_set(piece, face))
                .count()
                < 2
        };
        let same = |&old: &[u16; 4]| BTreeSet::from(old) == BTreeSet::from(piece);
        let on_old = |&old: &[u16; 4]| piece.iter().any(|&corner| self.hangs(corner, old));
        let mut vertices = 0..self.places.len() as u16;
        self.solid(piece)
            && (0..4).all(open)
            && !self.pieces.iter().any(same)
            && !self.pieces.iter().any(on_old)
            && !vertices.any(|vertex| self.hangs(vertex, piece))
    }

    /// Another numbering of the vertices, another order of the pieces, other slots.
    pub fn mixed(mut self, random: &mut Random) -> Plain {
        let mut numbers: Vec<u16> = (0..).take(self.places.len()).collect();
        random.shuffle(&mut numbers);
        let mut places = self.places.clone();
        for (&place, &new) in self.places.iter().zip(&numbers) {
            places[usize::from(new)] = place;
        }
        random.shuffle(&mut self.pieces);
        for piece in &mut self.pieces {
            random.shuffle(piece);
            *piece = piece.map(|corner| numbers[usize::from(corner)]);
        }
        Plain {
            places,
            pieces: self.pieces,
        }
    }
}

/// Random grid places within so many steps of 32 of the origin.
fn grid_place(random: &mut Random, span: usize) -> [i16; 3] {
    [0; 3].map(|_: i16| 32 * (random.below(2 * span + 1) as i16 - span as i16))
}

/// One random piece.
pub fn one_piece(random: &mut Random) -> Plain {
    joined(random, 1)
}

/// Pieces joined at random on faces, edges, single vertices or nowhere; they may overlap, but no vertex lies in
/// a piece that it is no corner of.
pub fn joined(random: &mut Random, pieces: usize) -> Plain {
    let mut span = [3, 8, 200, 1_023][random.below(4)];
    let mut plain = Plain::default();
    let mut tries = 0;
    while plain.pieces.len() < pieces {
        // Where pieces stand close there may be no room left for another.
        tries += 1;
        if tries % 100 == 0 {
            span = (2 * span).min(1_023);
        }
        let known = plain.places.len();
        let mut piece = Vec::new();
        if let Some(mut old) = random.pick(&plain.pieces) {
            // How many corners the new piece takes from an old one.
            let kept = [3, 3, 3, 3, 2, 2, 1, 0][random.below(8)];
            random.shuffle(&mut old);
            piece.extend(&old[..kept]);
            if kept == 3 && random.one_in(3) {
                piece.push(random.below(known) as u16);
            }
        }
        while piece.len() < 4 {
            let place = grid_place(random, span);
            if !plain.places.contains(&place) {
                piece.push(plain.places.len() as u16);
                plain.places.push(place);
            }
        }
        let piece = [piece[0], piece[1], piece[2], piece[3]];
        if plain.may_join(piece) {
            plain.pieces.push(piece);
        } else {
            plain.places.truncate(known);
        }
    }
    plain.mixed(random)
}

/// A block of cubes of the given side, each as six pieces round the diagonal.
pub fn cubes(sides: [usize; 3], side: i16) -> Plain {
    let mut numbers: BTreeMap<[usize; 3], u16> = BTreeMap::new();
    let mut plain = Plain::default();
    for x in 0..sides[0] {
        for y in 0..sides[1] {
            for z in 0..sides[2] {
                for piece in CUBE {
                    plain.pieces.push(piece.map(|corner| {
                        let bit = |axis: u16| usize::from(corner >> axis & 1);
                        let at = [x + bit(0), y + bit(1), z + bit(2)];
                        *numbers.entry(at).or_insert_with(|| {
                            plain.places.push(at.map(|steps| side * steps as i16));
                            plain.places.len() as u16 - 1
                        })
                    }));
                }
            }
        }
    }
    plain
}

/// A plain mesh with only some of its pieces, so many in a hundred, and the vertices they use.
pub fn thinned(plain: Plain, random: &mut Random, percent: usize) -> Plain {
    let mut kept: Vec<[u16; 4]> = plain.pieces.clone();
    kept.retain(|_| random.below(100) < percent);
    if kept.is_empty() {
        kept.extend(random.pick(&plain.pieces));
    }
    let mut thin = Plain::default();
    let mut numbers: BTreeMap<u16, u16> = BTreeMap::new();
    for piece in kept {
        thin.pieces.push(piece.map(|corner| {
            *numbers.entry(corner).or_insert_with(|| {
                thin.places.push(plain.places[usize::from(corner)]);
                thin.places.len() as u16 - 1
            })
        }));
    }
    thin
}

/// A ladder: crossed rungs, and between each two a piece. Marked as `LADDER` says, each piece hangs as soon as
/// the one before it is cut (type O), and brings a vertex.
pub fn ladder(pieces: u16) -> Plain {
    let mut plain = Plain::default();
    for rung in 0..=pieces as i16 {
        let z = 32 * rung;
        plain.places.extend(match rung % 2 {
            0 => [[-32, 0, z], [32, 0, z]],
            _ => [[0, -32, z], [0, 32, z]],
        });
    }
    for rung in 0..pieces {
        plain.pieces.push([0, 1, 2, 3].map(|n| 2 * rung + n));
    }
    // The marks are the same either way.
    plain.right_handed(|| [0, 1])
}

/// The refinement edge and the marks of each of a ladder's pieces.
pub const LADDER: (u8, [u8; 4]) = (5, [5, 5, 0, 0]);

/// A ring: so many rungs round an axis, at least 3, and between each two that follow a piece. Marked as `RING`
/// says, each piece is cut at its own rung first (type O) and its children at the next: whichever is cut, all
/// are, twice, and no midpoint of a rung can be taken away before another is.
pub fn ring(pieces: u16) -> Plain {
    let mut plain = Plain::default();
    let on_grid = |x: f64| 32 * (x / 32.0).round() as i16;
    for rung in 0..pieces {
        let angle = TAU * f64::from(rung) / f64::from(pieces);
        let radius = 320.0 * f64::from(pieces);
        let place = [angle.cos(), angle.sin()].map(|part| on_grid(radius * part));
        // Upright and outward in turn, so that no two that follow are in one plane; the last of an odd number both.
        let outward = [angle.cos(), angle.sin()].map(|part| on_grid(64.0 * part));
        let ([x, y], z) = match (rung % 2, rung + 1 == pieces) {
            (0, false) => ([0, 0], 64),
            (0, true) => (outward, 64),
            _ => (outward, 0),
        };
        plain.places.push([place[0], place[1], 0]);
        plain.places.push([place[0] + x, place[1] + y, z]);
    }
    for rung in 0..pieces {
        let next = (rung + 1) % pieces;
        let rungs = [rung, next].map(|rung| [2 * rung, 2 * rung + 1]);
        plain
            .pieces
            .push([rungs[0][0], rungs[0][1], rungs[1][0], rungs[1][1]]);
    }
    // The marks are the same either way.
    plain.right_handed(|| [2, 3])
}

/// The refinement edge and the marks of each of a ring's pieces.
pub const RING: (u8, [u8; 4]) = (0, [5, 5, 0, 0]);

/// Three pieces round an edge that build marks so that cuts hold each other from generation 5 on: a ring too.
pub fn round_an_edge() -> Plain {
    let places = [
        [32, 64, 96],
        [32, 32, 192],
        [0, 128, 0],
        [96, 0, 32],
        [96, 96, 0],
    ];
    Plain {
        places: places.to_vec(),
        pieces: vec![[0, 1, 2, 3], [0, 1, 3, 4], [0, 1, 4, 2]],
    }
}

/// So many pieces like K that share nothing, at most 256.
pub fn separate(pieces: usize) -> Plain {
    let mut plain = Plain::default();
    for number in 0..pieces {
        let at = [number % 16, number / 16, 0].map(|steps| 256 * steps as i16);
        let corner = |place: [i16; 3]| [0, 1, 2].map(|axis| at[axis] + 2 * place[axis]);
        plain.add_apart(K.map(corner));
    }
    plain
}

/// So many vertices, from 4 to 1,024, in few pieces: some that share nothing, and for each vertex that is
/// left another piece on a face of the last.
pub fn scattered(vertices: usize) -> Plain {
    let mut plain = separate(vertices / 4);
    // On along the way that goes through K's corners: a step in x, a step in y, a step in z.
    for axis in 0..vertices % 4 {
        let new = plain.places.len();
        let mut place = plain.places[new - 1];
        place[axis] += 128;
        plain.places.push(place);
        let piece = [3, 2, 1, 0].map(|before| new as u16 - before);
        plain.pieces.push(piece);
    }
    plain
}

/// The first pieces of a block of 8 by 8 by 8 cubes, from 1 to 3,072, and the vertices they use: few for
/// so many pieces.
pub fn block(pieces: usize) -> Plain {
    first_pieces(cubes([8, 8, 8], 64), pieces)
}

/// A block of cubes, so many to each side, at least 2, without the last two cubes: so that of 8 to a side
/// too the first cube's diagonal can be cut, which brings twelve records.
pub fn cubes_but_two(side: usize) -> Plain {
    let whole = cubes([side; 3], 64);
    let pieces = whole.pieces.len() - 2 * CUBE.len();
    first_pieces(whole, pieces)
}

/// The first pieces of a mesh whose vertices are numbered as the pieces come upon them, at least one, and the
/// vertices they use.
fn first_pieces(mut plain: Plain, pieces: usize) -> Plain {
    plain.pieces.truncate(pieces);
    let last = plain.pieces.iter().flatten().max();
    let last = usize::from(*last.expect("a piece"));
    plain.places.truncate(last + 1);
    plain
}

/// Two meshes of round 0 as one: all of the other's numbers come after those of the first. The other one is
/// moved until its box meets the box of no piece of the first; they share no vertex, and none of one lies in a
/// piece of the other.
pub fn beside(one: &Mesh, other: &Mesh) -> Mesh {
    for mesh in [one, other] {
        assert_eq!(mesh.records.len(), mesh.base_records, "nothing is cut");
    }
    let places = |mesh: &Mesh| mesh.vertices.iter().map(|vertex| vertex.place).collect();
    let (used, moving): (Vec<_>, Vec<_>) = (places(one), places(other));
    let corners = |record: &Record| record.corners.map(|corner| used[usize::from(corner)]);
    let boxes: Vec<_> = one.records.iter().map(|r| reach(&corners(r))).collect();
    let whole = reach(&moving);
    // Along x first, then towards a corner of the grid.
    let ways = [
        [1, 0, 0],
        [-1, 0, 0],
        [1, 1, 1],
        [1, -1, 1],
        [-1, 1, -1],
        [-1, -1, -1],
    ];
    let moves = ways
        .into_iter()
        .flat_map(|way| (20..800).map(move |steps: i16| way.map(|part: i16| 32 * part * steps)));
    let meets = |by: &[i16; 3], taken: &[[i16; 2]; 3]| {
        (0..3).all(|axis| {
            let [low, high] = whole[axis].map(|end| end + by[axis]);
            low <= taken[axis][1] && taken[axis][0] <= high
        })
    };
    let mut free = moves.filter(|by| !boxes.iter().any(|taken| meets(by, taken)));
    let by = free.next().expect("a free place");
    let mut both = one.clone();
    let vertex = |vertex: &Vertex| Vertex {
        place: [0, 1, 2].map(|axis| vertex.place[axis] + by[axis]),
        ..*vertex
    };
    both.vertices.extend(other.vertices.iter().map(vertex));
    let first = one.vertices.len() as u16;
    let record = |record: &Record| Record {
        corners: record.corners.map(|corner| first + corner),
        ..*record
    };
    both.records.extend(other.records.iter().map(record));
    (both.base_vertices, both.base_records) = (both.vertices.len(), both.records.len());
    both
}

/// The box of some places: along each axis from the least to the greatest.
fn reach(places: &[[i16; 3]]) -> [[i16; 2]; 3] {
    [0, 1, 2].map(|axis| {
        let along = || places.iter().map(|place| place[axis]);
        [along().min(), along().max()].map(|end| end.expect("a place"))
    })
}

/// 1,024 vertices and 3,072 base records: a block of 2 by 16 by 19 cubes and one piece apart, some
/// of the block's pieces left out.
pub fn full_base(random: &mut Random) -> Plain {
    let mut plain = cubes([2, 16, 19], 64);
    let mut uses = vec![0u32; plain.places.len()];
    for &corner in plain.pieces.iter().flatten() {
        uses[usize::from(corner)] += 1;
    }
    random.shuffle(&mut plain.pieces);
    let mut superfluous = plain.pieces.len() - (MOST_RECORDS - 1);
    plain.pieces.retain(|piece| {
        let needed = piece.iter().any(|&corner| uses[usize::from(corner)] == 1);
        if superfluous == 0 || needed {
            return true;
        }
        for &corner in piece {
            uses[usize::from(corner)] -= 1;
        }
        superfluous -= 1;
        false
    });
    plain.add_apart(K.map(|[x, y, z]| [x - 640, y, z]));
    assert_eq!(
        (plain.places.len(), plain.pieces.len()),
        (MOST_VERTICES, MOST_RECORDS)
    );
    plain.mixed(random)
}

/// A single piece with each refinement edge and each pair of other marks: 54 markings, each type
/// among them. The places are random.
pub fn single_pieces(random: &mut Random) -> Vec<Mesh> {
    let mut singles = Vec::new();
    for edge in 0..6 {
        let [a, b] = slots(edge).expect("an edge code");
        let on = |face: usize| (0..6).filter(move |&code| on_face(code, face));
        for mark_a in on(a) {
            for mark_b in on(b) {
                let mut marks = [edge; 4];
                (marks[a], marks[b]) = (mark_a, mark_b);
                let plain = one_piece(random).right_handed(|| EDGES[random.below(6)]);
                singles.push(plain.marked(random.number() as u32, &[(edge, marks)]));
            }
        }
    }
    singles
}

/// A random accepted mesh of round 0: pieces joined anyhow, or cubes with some pieces left out.
pub fn random_base(random: &mut Random, most: usize) -> Mesh {
    let plain = if random.one_in(2) {
        let pieces = 1 + random.below(most);
        joined(random, pieces)
    } else {
        let sides = [0; 3].map(|_: usize| 1 + random.below(2));
        let side = 32 * [1, 2, 5, 100][random.below(4)];
        let percent = 20 + random.below(81);
        thinned(cubes(sides, side), random, percent).mixed(random)
    };
    plain.marked_anyhow(random)
}

/// A random mesh, refined for some rounds, numbered anyhow.
pub fn any_mesh(random: &mut Random, rounds: usize) -> Mesh {
    let mut mesh = random_base(random, 6);
    for _ in 0..random.below(rounds) {
        match refined_anyhow(&mesh, random) {
            Some(finer) if finer.records.len() < 200 => mesh = finer,
            _ => break,
        }
    }
    if random.one_in(3) {
        mesh = renumbered(&mesh, random);
    }
    if random.one_in(10) {
        mesh.round = 65_535;
    }
    mesh
}

/// The leaves that may be named in a selection.
pub fn open_leaves(mesh: &Mesh) -> Vec<u16> {
    let open = mesh.leaves().filter(|(_, leaf)| leaf.generation < 15);
    open.map(|(number, _)| number as u16).collect()
}

/// The records that may be named in a request.
pub fn cut_records(mesh: &Mesh) -> Vec<u16> {
    let cut = (0..).zip(&mesh.records);
    let cut = cut.filter(|(_, record)| !record.is_leaf());
    cut.map(|(number, _)| number).collect()
}

/// Refined by the second program, by a selection for the mesh's own job and round.
pub fn refined(mesh: &Mesh, numbers: &[u16]) -> Result<Mesh, u32> {
    let chosen = selection(mesh.job, mesh.round, numbers);
    let bytes = refine_vec(&mesh.bytes(), &chosen)?;
    Ok(Mesh::read(&bytes).expect("a stored mesh"))
}

/// A random choice of the leaves that may be named, in rising number: a few, a third of them, all of
/// one generation, or the deepest alone. Empty if there is none.
pub fn chosen_anyhow(mesh: &Mesh, random: &mut Random) -> Vec<u16> {
    let mut leaves = open_leaves(mesh);
    let generation = |number: u16| mesh.records[usize::from(number)].generation;
    random.shuffle(&mut leaves);
    match random.below(8) {
        0..=3 => leaves.truncate(1 + random.below(3)),
        4 => leaves.truncate(1 + leaves.len() / 3),
        5 => {
            let one = leaves.first().map(|&first| generation(first));
            leaves.retain(|&number| Some(generation(number)) == one);
        }
        _ => {
            let deepest = leaves.iter().max_by_key(|&&number| generation(number));
            leaves = deepest.copied().into_iter().collect();
        }
    }
    leaves.sort_unstable();
    leaves
}

/// Refined by a random selection. Nothing if no leaf may be named or the tables have no room.
pub fn refined_anyhow(mesh: &Mesh, random: &mut Random) -> Option<Mesh> {
    let leaves = chosen_anyhow(mesh, random);
    refined(mesh, &leaves).ok().filter(|_| !leaves.is_empty())
}

/// The first of the deepest leaves refined until it has generation 15, or as deep as the tables
/// have room for.
pub fn deepened(mut mesh: Mesh) -> Mesh {
    loop {
        let deepest = mesh.leaves().map(|(_, leaf)| leaf.generation).max();
        let leaf = mesh
            .leaves()
            .find(|(_, leaf)| Some(leaf.generation) == deepest);
        let number = leaf.expect("a leaf").0 as u16;
        match refined(&mesh, &[number]) {
            Ok(finer) => mesh = finer,
            Err(_) => return mesh,
        }
    }
}

/// The leaves whose refinement edge is no other leaf's edge: cutting them needs no closing.
fn lonely_leaves(mesh: &Mesh) -> Vec<u16> {
    let mut uses: BTreeMap<Pair, u32> = BTreeMap::new();
    for (_, leaf) in mesh.leaves() {
        for edge in (0..6).filter_map(|code| ends(leaf, code)) {
            *uses.entry(edge).or_default() += 1;
        }
    }
    let mut lonely = open_leaves(mesh);
    lonely.retain(|&number| {
        let record = &mesh.records[usize::from(number)];
        ends(record, record.edge).is_some_and(|edge| uses[&edge] == 1)
    });
    lonely
}

/// Refined at random until both tables are full, or nothing tried has room any more.
pub fn filled(mut mesh: Mesh, random: &mut Random) -> Mesh {
    // A cut without closing takes a vertex and two records, any other fewer vertices for its
    // records: the records that are to spare go first, the rest to cuts without closing.
    let to_spare = |mesh: &Mesh| {
        let records = MOST_RECORDS - mesh.records.len();
        records.checked_sub(2 * (MOST_VERTICES - mesh.vertices.len()))
    };
    let mut tries = 0;
    while tries < 100 {
        let before = to_spare(&mesh);
        let (mut leaves, wanted) = match before {
            Some(0) => (lonely_leaves(&mesh), MOST_VERTICES - mesh.vertices.len()),
            _ => (open_leaves(&mesh), if tries == 0 { 8 } else { 1 }),
        };
        random.shuffle(&mut leaves);
        leaves.truncate(wanted);
        leaves.sort_unstable();
        if leaves.is_empty() {
            break;
        }
        match refined(&mesh, &leaves) {
            Ok(finer) if before.is_none() || to_spare(&finer).is_some() => {
                (mesh, tries) = (finer, 0);
            }
            _ => tries += 1,
        }
    }
    mesh
}

/// Cuts one record and closes nothing. False if it is cut already or the tables have no room.
pub fn cut_alone(mesh: &mut Mesh, number: usize) -> bool {
    let parent = mesh.records[number];
    let Some((p, q)) = ends(&parent, parent.edge) else {
        return false;
    };
    let known = mesh.vertices[mesh.base_vertices..]
        .iter()
        .position(|vertex| vertex.parents == [p, q]);
    let w = known.map_or(mesh.vertices.len(), |place| mesh.base_vertices + place);
    let room = w < MOST_VERTICES && mesh.records.len() + 2 <= MOST_RECORDS;
    let (Some(one), Some(other)) = (mesh.place(p), mesh.place(q)) else {
        return false;
    };
    let Some(cut) = children(&parent, w as u16) else {
        return false;
    };
    if !parent.is_leaf() || !room {
        return false;
    }
    if known.is_none() {
        mesh.vertices.push(Vertex {
            place: [0, 1, 2].map(|axis| halfway(one[axis], other[axis])),
            parents: [p, q],
        });
    }
    mesh.records[number].first_child = mesh.records.len() as u16;
    mesh.records.extend(cut);
    true
}

/// Half the sum, rounded down.
pub fn halfway(one: i16, other: i16) -> i16 {
    ((i32::from(one) + i32::from(other)) >> 1) as i16
}
