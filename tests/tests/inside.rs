//! Refusal 23: "Document 002 has a vertex hang on a piece if it lies in the closed piece and isn't one of its
//! corners. For base meshes that meaning holds from now on". The proved services, through their C functions, compared
//! with the second program: every number, figure and length, and every byte of the output buffers. A third way, which
//! solves for the weights of a piece's corners, judges both where the mesh is not large. COMPARED_SEED in the
//! environment gives another seed.

use compared::answers::{any_selections, compared, tell, Answers, Given, Part, Tallied};
use compared::damage::{damaged, hang_a_piece, insert_base_record, insert_base_vertex_at, KINDS};
use compared::inside::{
    all_four, hanging, hanging_piece, moved, place_in, steps, within, Place, Within, HANGING,
};
use compared::meshes::{
    any_mesh, cubes, cut_alone, deepened, full_base, open_leaves, orders, refined, refined_anyhow,
    separate, signed, thinned, with_turned, Plain, K,
};
use compared::named::{read, seed, sum};
use compared::random::Random;
use compared::tmb_check;
use second::mesh::{Mesh, Record, NO_NUMBER};
use second::piece::EDGES;
use second::{selection, MOST_RECORDS, MOST_VERTICES};

/// The fewest inputs, the fewest of them that are random, and the fewest given 23 by check, and by build.
const FEWEST: u64 = 40_000;
const FEWEST_RANDOM: u64 = 28_000;
const FEWEST_HANGING: [u64; 2] = [6_000, 5_000];

/// The third way takes every vertex with every piece; so many pairs at the most.
const JUDGED: usize = 20_000;

/// The grid's last place along an axis, in steps of 32.
const LAST: i32 = 1_023;

/// What was compared.
#[derive(Default)]
struct Tally {
    answers: Answers,
    /// Meshes that the third way judged: no vertex hangs, one does.
    judged: [u64; 2],
    /// Those where just one vertex hangs on just one piece: inside it, in a face, on an edge.
    alone: [u64; 3],
    /// The same by the base record, and by the base vertex: the first, the last, another.
    records: [u64; 3],
    vertices: [u64; 3],
    /// Accepted with a vertex one step from where it hangs inside, in a face, on an edge.
    beside: [u64; 3],
    /// Accepted with a vertex outside, in the plane of a face and on the line of an edge.
    outside: [u64; 2],
    /// Accepted with a place inside two pieces.
    overlapping: u64,
    /// Made vertices of accepted meshes in a base piece that no record cut there descends from.
    made: u64,
    /// A vertex hangs and another rule is broken, by the number given: 4, 5, 22, 6, 7, 8; and 23 before 9, before
    /// 10.
    at_once: [u64; 8],
    /// A base vertex moved in a refined mesh: 4, 23.
    moved: [u64; 2],
    /// Small soups, and others, by accepted and given 23.
    soups: [[u64; 2]; 2],
    /// Meshes of 1,024 vertices, and of 3,072 records, by accepted and given 23.
    full: [[u64; 2]; 2],
}

impl Tally {
    /// A plain mesh: by build as it is, and stored, right-handed and marked, by the other services. They must give
    /// one number.
    fn plain(&mut self, name: &str, plain: &Plain, random: &mut Random) -> u32 {
        let given = Given::new(plain, random);
        let built = self.answers.build(name, &given, random);
        let right = plain.clone().right_handed(|| EDGES[random.below(6)]);
        let mut stored = right.marked_by_order(random);
        if random.one_in(25) {
            stored.round = 65_535;
        }
        let number = self.stored(name, &stored, random);
        match &built {
            Ok(mesh) => assert_eq!((tmb_check(&mesh.bytes()).number, number), (0, 0), "{name}"),
            Err(other) => assert_eq!(number, *other, "{name}"),
        }
        number
    }

    /// The plain mesh must get that number.
    fn given(&mut self, name: &str, plain: &Plain, number: u32, random: &mut Random) {
        assert_eq!(self.plain(name, plain, random), number, "{name}");
    }

    /// A stored mesh, with any selection and any request.
    fn stored(&mut self, name: &str, mesh: &Mesh, random: &mut Random) -> u32 {
        let [selection, request] = any_selections(mesh, random);
        self.bytes(name, &mesh.bytes(), &selection, &request, random)
    }

    /// The stored mesh must get that number.
    fn stored_given(&mut self, name: &str, mesh: &Mesh, number: u32, random: &mut Random) {
        assert_eq!(self.stored(name, mesh, random), number, "{name}");
    }

    fn bytes(
        &mut self,
        name: &str,
        mesh: &[u8],
        selection: &[u8],
        request: &[u8],
        random: &mut Random,
    ) -> u32 {
        let answered = self.answers.stored(name, mesh, selection, request, random);
        // Rules 1 to 8 and 22 hold.
        if [0, 23, 9, 10].contains(&answered.number) {
            self.judge(name, &read(mesh), answered.number == 23);
        }
        answered.number
    }

    /// By the third way.
    fn judge(&mut self, name: &str, mesh: &Mesh, hangs: bool) {
        let counts = [mesh.base_vertices, mesh.base_records];
        let full = [counts[0] == MOST_VERTICES, counts[1] == MOST_RECORDS];
        for (full, times) in full.into_iter().zip(&mut self.full) {
            times[usize::from(hangs)] += u64::from(full);
        }
        if counts[0] * counts[1] > JUDGED {
            return;
        }
        let all: Vec<_> = hanging(mesh).collect();
        assert_eq!(
            !all.is_empty(),
            hangs,
            "{name}: the third way finds {all:?}"
        );
        self.judged[usize::from(hangs)] += 1;
        if let [(vertex, record, within)] = all[..] {
            self.alone[within as usize] += 1;
            let place = |number: usize, count: usize| match number {
                0 => 0,
                _ if number + 1 == count => 1,
                _ => 2,
            };
            self.vertices[place(vertex, counts[0])] += 1;
            self.records[place(record, counts[1])] += 1;
        }
    }

    fn count_soup(&mut self, kind: usize, number: u32) {
        self.soups[kind][0] += u64::from(number == 0);
        self.soups[kind][1] += u64::from(number == 23);
    }
}

impl Tallied for Tally {
    fn answers(&mut self) -> &mut Answers {
        &mut self.answers
    }

    fn add(&mut self, other: &Tally) {
        self.answers.add(&other.answers);
        self.overlapping += other.overlapping;
        self.made += other.made;
        for (mine, theirs) in [
            (&mut self.judged[..], &other.judged[..]),
            (&mut self.alone, &other.alone),
            (&mut self.records, &other.records),
            (&mut self.vertices, &other.vertices),
            (&mut self.beside, &other.beside),
            (&mut self.outside, &other.outside),
            (&mut self.at_once, &other.at_once),
            (&mut self.moved, &other.moved),
            (self.soups.as_flattened_mut(), other.soups.as_flattened()),
            (self.full.as_flattened_mut(), other.full.as_flattened()),
        ] {
            sum(mine, theirs);
        }
    }
}

/// The parts that go through a list of inputs, and each part of random inputs with the times it is done, each time
/// with numbers of its own.
const LISTED: [Part<Tally>; 9] = [
    full_tables,
    full_vertices,
    eight_cubes,
    every_place,
    every_order,
    every_number,
    largest_pieces,
    crossed,
    long_lines,
];
const RANDOM: [(Part<Tally>, usize); 13] = [
    (round_a_vertex, 300),
    (outside_a_piece, 300),
    (overlapping, 250),
    (small_soups, 2_500),
    (soups, 400),
    (boxes, 160),
    (lattices, 160),
    (planes, 40),
    (borders, 400),
    (at_once, 250),
    (refined_meshes, 400),
    (deep, 45),
    (any_damage, 400),
];

fn any_steps(reach: i32, random: &mut Random) -> [i32; 3] {
    [0; 3].map(|_| random.below(2 * reach as usize + 1) as i32 - reach)
}

fn any_place(reach: i32, random: &mut Random) -> Place {
    any_steps(reach, random).map(|steps| 32 * steps as i16)
}

/// A piece of any shape in a box round the origin.
fn any_piece(reach: i32, random: &mut Random) -> [Place; 4] {
    until(|| {
        let corners = [0; 4].map(|_| any_place(reach, random));
        (signed(corners) != 0).then_some(corners)
    })
}

/// What is found at last.
fn until<T>(mut find: impl FnMut() -> Option<T>) -> T {
    loop {
        if let Some(found) = find() {
            return found;
        }
    }
}

/// One step each way, straight or across.
fn around() -> impl Iterator<Item = [i32; 3]> {
    let ways = (0..27).map(|number| [number % 3 - 1, number / 3 % 3 - 1, number / 9 - 1]);
    ways.filter(|&way| way != [0; 3])
}

/// The piece in slots 0 to 3 of the vertices, and another with vertex 4 there, which may share corners with it.
/// Nothing else hangs; nothing where no such piece is found.
fn with_corner_at(corners: [Place; 4], place: Place, random: &mut Random) -> Option<Plain> {
    (0..30).find_map(|_| {
        let mut plain = Plain {
            places: corners.to_vec(),
            pieces: vec![[0, 1, 2, 3]],
        };
        plain.places.push(place);
        let mut piece = vec![4];
        let mut shared = [0, 1, 2, 3];
        random.shuffle(&mut shared);
        piece.extend(&shared[..random.below(4)]);
        let reach = [1, 3, 10, 100, LAST][random.below(5)];
        while piece.len() < 4 {
            let other = moved(place, any_steps(reach, random))?;
            piece.push(plain.places.len() as u16);
            plain.places.push(other);
        }
        let piece = [piece[0], piece[1], piece[2], piece[3]];
        plain.pieces.push(piece);
        let mut places = plain.places.clone();
        places.sort_unstable();
        places.dedup();
        let free = places.len() == plain.places.len();
        (free && plain.signed(piece) != 0 && hangs_alone(&plain)).then_some(plain)
    })
}

/// Whether no vertex but vertex 4 on piece 0 hangs, if that one does.
fn hangs_alone(plain: &Plain) -> bool {
    plain.hanging().all(|found| found == (4, 0))
}

/// A piece that has the place inside, in a face or on an edge; nothing if it is flat or out of range.
fn piece_round(place: Place, wanted: Within, random: &mut Random) -> Option<[Place; 4]> {
    let reach = [1, 3, 10, 60, 300][random.below(5)];
    let [u, v, w] = [0; 3].map(|_| any_steps(reach, random));
    let mut times = || 1 + random.below(3) as i32;
    let (i, j, k) = (times(), times(), times());
    // What balances the others.
    let back = |parts: &[(i32, [i32; 3])]| {
        [0, 1, 2].map(|axis| {
            -parts
                .iter()
                .map(|(times, way)| times * way[axis])
                .sum::<i32>()
        })
    };
    let ways = match wanted {
        Within::Edge => [back(&[(-j, u)]), back(&[(i, u)]), v, w],
        Within::Face => [u, v, back(&[(i, u), (j, v)]), w],
        _ => [u, v, w, back(&[(i, u), (j, v), (k, w)])],
    };
    let corners = all_four(ways.map(|way| moved(place, way)))?;
    (within(corners, place) == Some(wanted)).then_some(corners)
}

/// A vertex inside a piece, in a face and on an edge, and one step from there.
fn round_a_vertex(tally: &mut Tally, random: &mut Random) {
    for (kind, wanted) in HANGING.into_iter().enumerate() {
        let (plain, place) = until(|| {
            let place = any_place([2, 50, LAST][random.below(3)], random);
            let corners = piece_round(place, wanted, random)?;
            Some((with_corner_at(corners, place, random)?, place))
        });
        let hung = squeezed(&plain, random).mixed(random);
        tally.given("it hangs", &hung, 23, random);
        let mut ways: Vec<[i32; 3]> = around().collect();
        random.shuffle(&mut ways);
        for step in &ways[..6] {
            let mut other = plain.clone();
            let Some(place) = moved(place, *step) else {
                continue;
            };
            other.places[4] = place;
            let other = squeezed(&other, random).mixed(random);
            let number = tally.plain("one step from there", &other, random);
            assert!([0, 4, 5, 23].contains(&number), "one step from there");
            tally.beside[kind] += u64::from(number == 0);
        }
    }
}

/// In the plane of a face, or on the line of an edge, and outside: accepted.
fn outside_a_piece(tally: &mut Tally, random: &mut Random) {
    let corners = any_piece([1, 3, 20, 200][random.below(4)], random);
    let [a, b, c, _] = corners;
    for kind in 0..2 {
        let (i, j) = (
            random.below(6) as i32 - 2,
            [random.below(6) as i32 - 2, 0][kind],
        );
        let (u, v) = (steps(a, b), steps(a, c));
        let there = moved(a, [0, 1, 2].map(|axis| i * u[axis] + j * v[axis]));
        let outside = there.filter(|&place| within(corners, place).is_none());
        let plain = outside.and_then(|place| with_corner_at(corners, place, random));
        if let Some(plain) = plain {
            let other = squeezed(&plain, random).mixed(random);
            tally.given("outside", &other, 0, random);
            tally.outside[kind] += 1;
        }
    }
}

/// The same, sheared along the axes, which keeps what lies where and makes it long and thin; then moved, some of
/// the time to the bounds of the grid.
fn squeezed(plain: &Plain, random: &mut Random) -> Plain {
    let mut all: Vec<[i32; 3]> = plain.places.iter().map(|&p| steps([0; 3], p)).collect();
    let range = |all: &[[i32; 3]], axis: usize| {
        let along = || all.iter().map(move |place| place[axis]);
        [along().min().unwrap_or(0), along().max().unwrap_or(0)]
    };
    for _ in 0..random.below(5) {
        let (axis, by) = (random.below(3), 1 + random.below(2));
        let other = (axis + by) % 3;
        let times = [1, -1, 2, -3, 17, -90][random.below(6)];
        let mut sheared = all.clone();
        for place in &mut sheared {
            place[axis] += times * place[other];
        }
        let [least, most] = range(&sheared, axis);
        if most - least <= 2 * LAST {
            let middle = (least + most) / 2;
            for place in &mut sheared {
                place[axis] -= middle;
            }
            all = sheared;
        }
    }
    for axis in 0..3 {
        let [least, most] = range(&all, axis);
        let by = match random.below(4) {
            0 => LAST - most,
            1 => -LAST - least,
            _ => 0,
        };
        for place in &mut all {
            place[axis] += by;
        }
    }
    let places = all
        .into_iter()
        .map(|place| place.map(|steps| 32 * steps as i16));
    Plain {
        places: places.collect(),
        pieces: plain.pieces.clone(),
    }
}

/// Each place of the grid in the box of a piece and one step round it: 23 in the closed piece, 4 at a corner.
fn every_place(tally: &mut Tally, random: &mut Random) {
    let shapes = [
        [[0, 0, 0], [4, 0, 0], [4, 4, 0], [4, 4, 4]],
        [[0, 0, 0], [4, 0, 0], [0, 4, 0], [0, 0, 4]],
        [[0, 0, 0], [3, 1, 0], [1, 4, 1], [2, 1, 4]],
        // Thin, with no other place of the grid in it.
        [[0, 0, 0], [1, 0, 0], [0, 1, 0], [2, 3, 4]],
        // Nearly flat.
        [[0, 0, 0], [4, 1, 0], [1, 4, 0], [2, 2, 1]],
    ];
    // Far away, so that nothing else hangs, in a plane that doesn't come near.
    let far = [[500, 707, 866], [501, 706, 866], [500, 708, 865]];
    let at = |steps: [i16; 3]| steps.map(|coordinate| 32 * coordinate);
    for shape in shapes {
        let corners = shape.map(at);
        for number in 0..343 {
            let place = at([number % 7 - 1, number / 7 % 7 - 1, number / 49 - 1]);
            let mut plain = Plain {
                places: corners.to_vec(),
                pieces: vec![[0, 1, 2, 3], [4, 5, 6, 7]],
            };
            plain.places.push(place);
            plain.places.extend(far.map(at));
            let wanted = match within(corners, place) {
                None => 0,
                Some(Within::Corner) => 4,
                Some(_) => 23,
            };
            assert!(wanted == 4 || hangs_alone(&plain), "far away");
            tally.given("every place", &plain.mixed(random), wanted, random);
        }
    }
}

/// A piece in every order of its corners, with a vertex that hangs on it and without: build doesn't see its hand.
/// Stored left-handed it gets 22.
fn every_order(tally: &mut Tally, random: &mut Random) {
    for times in [8, 511] {
        let corners = K.map(|place| place.map(|coordinate| times * coordinate));
        let apart = [-32, -32, -32];
        let places = HANGING.map(|wanted| until(|| place_in(corners, wanted, random)));
        for (place, number) in places
            .map(|place| (place, 23))
            .into_iter()
            .chain([(apart, 0)])
        {
            let plain = until(|| with_corner_at(corners, place, random));
            let plain = plain.right_handed(|| [2, 3]);
            for (order, left) in orders() {
                let mut other = plain.clone();
                other.pieces[0] = order.map(|slot| slot as u16);
                tally.given("in an order", &other, number, random);
                let stored = other.marked_by_order(random);
                let number = if left { 22 } else { number };
                tally.stored_given("in an order, stored", &stored, number, random);
            }
        }
    }
}

/// Each vertex of five pieces apart on each of the others: the first, the last and others.
fn every_number(tally: &mut Tally, random: &mut Random) {
    let plain = separate(5);
    for vertex in 0..20 {
        for piece in (0..5).filter(|&piece| piece != vertex / 4) {
            for wanted in HANGING {
                let other = moved_into(&plain, vertex, piece, wanted, random);
                tally.given("on another piece", &other, 23, random);
            }
        }
    }
}

/// Pieces apart, with a vertex of one moved into another; not so that its own is flat.
fn moved_into(
    plain: &Plain,
    vertex: usize,
    piece: usize,
    wanted: Within,
    random: &mut Random,
) -> Plain {
    until(|| {
        let mut other = plain.clone();
        other.places[vertex] = place_in(corners_of(plain, piece), wanted, random)?;
        (other.signed(other.pieces[vertex / 4]) != 0).then_some(other)
    })
}

fn corners_of(plain: &Plain, piece: usize) -> [Place; 4] {
    plain.pieces[piece].map(|corner| plain.places[usize::from(corner)])
}

/// Four corners of the largest cube of the grid, and a vertex at each place halfway between corners and at each
/// corner, or a step from there: the largest determinants.
fn largest_pieces(tally: &mut Tally, random: &mut Random) {
    let corner = |number: usize| [0, 1, 2].map(|axis| [-32_736, 32_736][number >> axis & 1]);
    let mut solid = 0;
    for bits in (0..256usize).filter(|bits| bits.count_ones() == 4) {
        let (mut ours, mut others): (Vec<usize>, Vec<usize>) =
            (0..8).partition(|number| bits >> number & 1 == 1);
        random.shuffle(&mut ours);
        random.shuffle(&mut others);
        let corners = [0, 1, 2, 3].map(|slot| corner(ours[slot]));
        if signed(corners) == 0 {
            continue;
        }
        solid += 1;
        for number in 0..27 {
            let place = [number % 3, number / 3 % 3, number / 9].map(|at| 32_736 * (at - 1));
            let step = any_steps(1, random);
            let places = [Some(place), moved(place, step)];
            for place in places.into_iter().flatten() {
                let wanted = match within(corners, place) {
                    None => 0,
                    Some(Within::Corner) => continue,
                    Some(_) => 23,
                };
                if let Some(plain) = with_corner_at(corners, place, random) {
                    tally.given("a largest piece", &plain.mixed(random), wanted, random);
                }
                // With three corners of the cube.
                let mut plain = Plain {
                    places: corners.to_vec(),
                    pieces: vec![[0, 1, 2, 3], [4, 5, 6, 7]],
                };
                plain.places.push(place);
                plain
                    .places
                    .extend([0, 1, 2].map(|slot| corner(others[slot])));
                let number = tally.plain("two largest pieces", &plain, random);
                assert!([0, 4, 5, 23].contains(&number), "two largest pieces");
            }
        }
    }
    assert_eq!(solid, 58);
}

/// The two largest pieces of a cube that share no corner, each edge of one across an edge of the other: no vertex
/// of either lies in the other. Refined, the midpoints do.
fn crossed(tally: &mut Tally, random: &mut Random) {
    for side in [64, 192, 320, 32_736] {
        let corner = |number: u16| [0, 1, 2].map(|axis| side * (number as i16 >> axis & 1));
        let plain = Plain {
            places: (0..8).map(corner).collect(),
            pieces: vec![[0, 3, 5, 6], [7, 4, 2, 1]],
        };
        for _ in 0..12 {
            let plain = plain.clone().mixed(random);
            tally.given("crossed", &plain, 0, random);
            tally.overlapping += 1;
            let mut mesh = plain.marked_anyhow(random);
            for _ in 0..4 {
                mesh = match refined(&mesh, &open_leaves(&mesh)) {
                    Ok(finer) => finer,
                    Err(_) => break,
                };
                tally.stored_given("crossed, refined", &mesh, 0, random);
                tally.made += made_in_others(&mesh);
            }
        }
        // In the middle of the cube each vertex hangs.
        for vertex in [1, 2, 4, 7] {
            let mut other = plain.clone();
            other.places[vertex] = [32 * (side / 64); 3];
            tally.given("crossed, in the middle", &other.mixed(random), 23, random);
        }
    }
}

/// How many times a made vertex lies in a base piece of which not all the base vertices that it comes from are
/// corners.
fn made_in_others(mesh: &Mesh) -> u64 {
    let mut from: Vec<Vec<u16>> = Vec::new();
    for (number, vertex) in (0..).zip(&mesh.vertices) {
        from.push(match usize::from(number) < mesh.base_vertices {
            true => vec![number],
            false => vertex
                .parents
                .map(|parent| from[usize::from(parent)].clone())
                .concat(),
        });
    }
    let mut times = 0;
    for (number, record) in mesh.records[..mesh.base_records].iter().enumerate() {
        let corners = base_corners(mesh, number);
        for (from, made) in from.iter().zip(&mesh.vertices).skip(mesh.base_vertices) {
            let own = from.iter().all(|vertex| record.corners.contains(vertex));
            times += u64::from(!own && within(corners, made.place).is_some());
        }
    }
    times
}

/// The axes in another order, some of them turned round.
fn turned_over(mut plain: Plain, random: &mut Random) -> Plain {
    let mut axes = [0, 1, 2];
    random.shuffle(&mut axes);
    let signs = [0; 3].map(|_| [1, -1][random.below(2)]);
    for place in &mut plain.places {
        *place = [0, 1, 2].map(|axis| signs[axis] * place[axes[axis]]);
    }
    plain
}

/// So many vertices on a line, at equal steps or not, and two apart: a piece for each step.
fn line(vertices: u16, random: &mut Random) -> Plain {
    let most = (2 * LAST as usize / usize::from(vertices)).min(40);
    let equal = random.one_in(2);
    let step = 1 + random.below(most);
    let mut along = -LAST;
    let mut plain = Plain::default();
    for _ in 0..vertices {
        plain.places.push([32 * along as i16, 0, 0]);
        along += if equal { step } else { 1 + random.below(most) } as i32;
    }
    plain.places.extend([[0, 320, 0], [0, 0, 320]]);
    let piece = |first| [first, first + 1, vertices, vertices + 1];
    plain.pieces.extend((0..vertices - 1).map(piece));
    plain
}

/// All vertices on a line but two: one piece in the place of two has the vertex between on its edge, and a piece
/// on the other side of the line has it for a corner.
fn long_lines(tally: &mut Tally, random: &mut Random) {
    for (vertices, times) in [(3, 20), (4, 20), (12, 20), (100, 6), (1_019, 1)] {
        for _ in 0..times {
            let whole = line(vertices, random);
            let mixed = turned_over(whole.clone(), random).mixed(random);
            tally.given("a line", &mixed, 0, random);
            let last = usize::from(vertices) - 2;
            for at in [1, last, 1 + random.below(last)] {
                let mut plain = whole.clone();
                let [before, between, after] = [at - 1, at, at + 1].map(|at| at as u16);
                let piece = [before, after, vertices, vertices + 1];
                plain.pieces.splice(at - 1..=at, [piece]);
                let unused = turned_over(plain.clone(), random).mixed(random);
                tally.given("a vertex left out", &unused, 8, random);
                let first = plain.places.len() as u16;
                let place = plain.places[at];
                let below = [[0, -1, 0], [0, 0, -1], [1, -1, -1]].map(|way| moved(place, way));
                plain.places.extend(below.into_iter().flatten());
                plain.pieces.push([between, first, first + 1, first + 2]);
                let plain = turned_over(plain, random).mixed(random);
                tally.given("a vertex left out, on an edge", &plain, 23, random);
            }
        }
    }
}

/// All vertices in a plane but one, the apex of a piece on each triangle; and then pieces on the other side.
fn planes(tally: &mut Tally, random: &mut Random) {
    let large = random.one_in(20);
    let side = |random: &mut Random| {
        if large {
            28 + random.below(4)
        } else {
            4 + random.below(4)
        }
    };
    let (width, depth) = (side(random) as u16, side(random) as u16);
    let step = 32 * (1 + random.below(30) as i16);
    let mut plain = Plain::default();
    for number in 0..width * depth {
        let at = [number % width, number / width].map(|steps| step * steps as i16);
        plain.places.push([at[0], at[1], 0]);
    }
    let number = |x: u16, y: u16| x + width * y;
    let apex = width * depth;
    plain
        .places
        .push([any_place(9, random)[0], any_place(9, random)[1], 640]);
    for (x, y) in (0..depth - 1).flat_map(|y| (0..width - 1).map(move |x| (x, y))) {
        let (right, up) = (number(x + 1, y), number(x, y + 1));
        plain.pieces.push([number(x, y), right, up, apex]);
        plain.pieces.push([number(x + 1, y + 1), right, up, apex]);
    }
    tally.given(
        "a plane",
        &turned_over(plain.clone(), random).mixed(random),
        0,
        random,
    );
    let (x, y) = (
        random.below(usize::from(width) - 3) as u16,
        random.below(usize::from(depth) - 3) as u16,
    );
    // A triangle that is there; one with vertices on its edges; one with a vertex in it, and on its edges too.
    for (reach, wanted) in [(1, 0), (2, 23), (3, 23)] {
        let mut other = plain.clone();
        other.places.push([32, 64, -640]);
        let triangle = [number(x, y), number(x + reach, y), number(x, y + reach)];
        other
            .pieces
            .push([triangle[0], triangle[1], triangle[2], apex + 1]);
        let other = turned_over(other, random).mixed(random);
        tally.given("a plane, and below", &other, wanted, random);
    }
}

/// A piece more with a corner in one that is there; nothing where no place is found.
fn hung(plain: &Plain, piece: usize, random: &mut Random) -> Option<Plain> {
    let free = |place| !plain.places.contains(&place);
    let mut other = plain.clone();
    other.add_apart(hanging_piece(corners_of(plain, piece), free, random)?);
    Some(other)
}

/// So many boxes along each axis, from a place on, a piece of any shape in each.
fn boxed(counts: [usize; 3], size: i32, from: [i32; 3], random: &mut Random) -> Plain {
    let mut plain = Plain::default();
    for number in 0..counts.iter().product() {
        let at = [
            number % counts[0],
            number / counts[0] % counts[1],
            number / counts[0] / counts[1],
        ];
        plain.add_apart(until(|| {
            let corners = [0; 4].map(|_| {
                let within = [0; 3].map(|_| random.below(size as usize) as i32);
                let steps = |axis: usize| from[axis] + size * at[axis] as i32 + within[axis];
                [0, 1, 2].map(|axis| 32 * steps(axis) as i16)
            });
            (signed(corners) != 0).then_some(corners)
        }));
    }
    plain
}

/// A piece far from most.
fn add_far(plain: &mut Plain, random: &mut Random) {
    let far = boxed([1, 1, 1], 4, [LAST - 3, -LAST, 900], random);
    plain.add_apart(corners_of(&far, 0));
}

/// Pieces in boxes, close together, in a row, in a layer or in a block, and some of the time one piece far from
/// them all; then a vertex of one in another.
fn boxes(tally: &mut Tally, random: &mut Random) {
    let rows = [[2, 1, 1], [5, 1, 1], [60, 1, 1], [200, 1, 1]];
    let layers = [[2, 2, 1], [3, 5, 1], [7, 9, 1], [15, 17, 1]];
    let blocks = [[2, 2, 2], [3, 3, 3], [4, 4, 4], [6, 6, 7]];
    let counts = [rows, layers, blocks][random.below(3)][random.below(4)];
    let size = 2 + random.below(4) as i32;
    let from = [-LAST, -500][random.below(2)];
    let mut plain = boxed(counts, size, [from, 0, from], random);
    if random.one_in(2) {
        add_far(&mut plain, random);
    }
    let all = plain.pieces.len();
    let mixed = turned_over(plain.clone(), random).mixed(random);
    tally.given("in boxes", &mixed, 0, random);
    for _ in 0..6 {
        let piece = random.below(all);
        let other = (piece + 1 + random.below(all - 1)) % all;
        let vertex = 4 * other + random.below(4);
        let corners = corners_of(&plain, piece);
        let Some(place) = place_in(corners, HANGING[random.below(3)], random) else {
            continue;
        };
        for place in [Some(place), moved(place, any_steps(1, random))]
            .into_iter()
            .flatten()
        {
            let mut other = plain.clone();
            other.places[vertex] = place;
            let mixed = turned_over(other, random).mixed(random);
            let number = tally.plain("in boxes, one moved", &mixed, random);
            let allowed: &[u32] = match within(corners, place) {
                Some(Within::Corner) => &[4],
                Some(_) => &[5, 23],
                None => &[0, 4, 5, 23],
            };
            assert!(allowed.contains(&number), "in boxes, one moved: {number}");
        }
    }
}

/// Blocks of cubes with pieces left out: every vertex stands where the block is divided into equal parts. A piece
/// with a corner in one of them; and one step from there.
fn lattices(tally: &mut Tally, random: &mut Random) {
    let sides = [
        [1, 1, 1],
        [3, 1, 1],
        [2, 2, 2],
        [7, 5, 1],
        [20, 1, 2],
        [4, 4, 3],
    ];
    let sides = match random.one_in(30) {
        true => [7, 7, 6],
        false => sides[random.below(6)],
    };
    let side = 32 * (2 + random.below(5) as i16);
    let percent = 30 + random.below(71);
    let plain = thinned(cubes(sides, side), random, percent);
    let mixed = turned_over(plain.clone(), random).mixed(random);
    tally.given("a lattice", &mixed, 0, random);
    for _ in 0..4 {
        let piece = random.below(plain.pieces.len());
        let Some(mut other) = hung(&plain, piece, random) else {
            continue;
        };
        let mixed = turned_over(other.clone(), random).mixed(random);
        tally.given("a lattice, and a corner in it", &mixed, 23, random);
        let vertex = plain.places.len();
        if let Some(place) = moved(other.places[vertex], any_steps(1, random)) {
            other.places[vertex] = place;
            let mixed = turned_over(other, random).mixed(random);
            let number = tally.plain("a lattice, and a corner near it", &mixed, random);
            assert!([0, 4, 5, 23].contains(&number), "a corner near it");
        }
    }
}

/// A row of small pieces, and where it is divided into parts of one width that cover it, ends and all, a vertex
/// just on a border: it hangs on an edge of a piece that ends there, or stands a step further.
fn borders(tally: &mut Tally, random: &mut Random) {
    let pieces = 4 + random.below(40) as i32;
    let (length, at) = until(|| {
        // Small pieces have three steps, and one more between.
        let length = 8 * pieces + random.below((2 * LAST - 8 * pieces) as usize) as i32;
        let parts = 4 * pieces - 3 + random.below(10) as i32;
        let width = 32 * length / parts + 1;
        let borders = (1..parts).map(|part| part * width);
        let on_grid = borders.filter(|border| border % 32 == 0);
        let steps = on_grid.map(|border| border / 32);
        let inner: Vec<i32> = steps.filter(|&at| 8 < at && at < length - 8).collect();
        random.pick(&inner).map(|at| (length, at))
    });
    let at_x = |x: i32, corners: [[i32; 3]; 4]| {
        corners.map(|[along, y, z]| [x + along - LAST, y, z].map(|steps| 32 * steps as i16))
    };
    let mut plain = Plain::default();
    let ends_there = [[0, 0, 0], [0, 2, 0], [-3, 0, 0], [-2, 0, 2]];
    let begins_there = [[0, 1, 0], [2, 0, 0], [2, 2, 0], [1, 1, 2]];
    plain.add_apart(at_x(at, ends_there));
    plain.add_apart(at_x(at, begins_there));
    // The first and the last, and others where there is room.
    let small = [[0, 0, 0], [2, 0, 0], [1, 2, 0], [1, 1, 2]];
    let mut free: Vec<i32> = (1..length / 4 - 1).map(|slot| 4 * slot).collect();
    free.retain(|x| (at - x - 1).abs() > 4);
    random.shuffle(&mut free);
    free.truncate(pieces as usize - 4);
    for x in free.into_iter().chain([0, length - 2]) {
        plain.add_apart(at_x(x, small));
    }
    let mixed = turned_over(plain.clone(), random).mixed(random);
    tally.given("on a border", &mixed, 23, random);
    plain.places[4][0] += 32;
    let mixed = turned_over(plain, random).mixed(random);
    tally.given("a step from a border", &mixed, 0, random);
}

/// 1,024 vertices and 3,072 pieces; the one that stands apart moved so that a corner lies in another.
fn full_tables(tally: &mut Tally, random: &mut Random) {
    let plain = full_base(random);
    tally.given("full tables", &plain, 0, random);
    let apart = |vertex: &usize| plain.places[*vertex][0] < 0;
    let apart: Vec<usize> = (0..MOST_VERTICES).filter(apart).collect();
    for piece in [0, 1_536, 3_071] {
        // The next in the block, if it is this one itself.
        let in_block = |piece: &usize| !plain.pieces[*piece].contains(&(apart[0] as u16));
        let piece = [piece, (piece + 1) % MOST_RECORDS]
            .into_iter()
            .find(in_block);
        let corners = corners_of(&plain, piece.expect("in the block"));
        // Half a cube from every vertex of the block, as all four then are.
        let place = until(|| place_in(corners, Within::Edge, random));
        let by = steps(plain.places[apart[0]], place);
        let mut other = plain.clone();
        for &vertex in &apart {
            other.places[vertex] = moved(plain.places[vertex], by).expect("in range");
        }
        tally.given("full tables, one moved", &other, 23, random);
    }
}

/// 3,072 pieces, the last with a corner in another.
fn eight_cubes(tally: &mut Tally, random: &mut Random) {
    let mut plain = cubes([8, 8, 8], 64);
    tally.given("8 by 8 by 8 cubes", &plain, 0, random);
    plain.pieces.pop();
    for piece in [0, 1_535, 3_070] {
        let other = until(|| hung(&plain, piece, random));
        assert_eq!(other.pieces.len(), MOST_RECORDS);
        tally.given("8 by 8 by 8 cubes but one", &other, 23, random);
    }
}

/// 1,024 base vertices: no leaf has room to be cut, 19; a vertex in another piece, 23.
fn full_vertices(tally: &mut Tally, random: &mut Random) {
    let plain = separate(256);
    let mesh = plain.built(2);
    for number in (0..256).step_by(8) {
        let (vertex, piece) = (4 * usize::from(number), 255 - usize::from(number));
        let other = moved_into(&plain, vertex, piece, HANGING[random.below(3)], random);
        let moved = other.right_handed(|| [2, 3]).marked_by_order(random);
        for (mesh, wanted) in [(&mesh, 0), (&moved, 23)] {
            let chosen = selection(mesh.job, mesh.round, &[number]);
            let given = tally.bytes("full vertices", &mesh.bytes(), &chosen, &chosen, random);
            assert_eq!(given, wanted, "full vertices");
        }
    }
}

/// Pieces of any shape in one box, so that some place is inside two and yet no vertex lies in another: accepted.
fn overlapping(tally: &mut Tally, random: &mut Random) {
    let plain = until(|| {
        let reach = [2, 4, 30, LAST][random.below(4)];
        let pieces = 2 + random.below(3);
        let mut plain = Plain::default();
        for _ in 0..pieces {
            plain.add_apart(any_piece(reach, random));
        }
        let shared =
            |place: &Place| plain.places.iter().filter(|other| *other == place).count() > 1;
        let apart = !plain.places.iter().any(shared) && plain.hanging().next().is_none();
        (apart && overlap(&plain, reach, random)).then_some(plain)
    });
    tally.given("overlapping", &plain.clone().mixed(random), 0, random);
    tally.overlapping += 1;
    let mut mesh = plain.mixed(random).marked_anyhow(random);
    for _ in 0..3 {
        match refined_anyhow(&mesh, random) {
            Some(finer) if finer.records.len() < 200 => mesh = finer,
            _ => break,
        }
        tally.stored_given("overlapping, refined", &mesh, 0, random);
        tally.made += made_in_others(&mesh);
    }
}

/// Whether a place is found, on the grid or not, that is inside two pieces.
fn overlap(plain: &Plain, reach: i32, random: &mut Random) -> bool {
    (0..60).any(|_| {
        let place = [0; 3].map(|_: i16| {
            let range = 32 * reach as usize;
            (random.below(2 * range + 1) as i32 - range as i32) as i16
        });
        let inside =
            |piece: &usize| within(corners_of(plain, *piece), place) == Some(Within::Inside);
        (0..plain.pieces.len()).filter(inside).count() > 1
    })
}

/// Few vertices close together, pieces of any of them.
fn small_soups(tally: &mut Tally, random: &mut Random) {
    let span = 3 + random.below(3);
    let step = 32 * [1, 2, 7, 100][random.below(4)];
    let mut plain = Plain::default();
    let wanted = 6 + random.below(7);
    while plain.places.len() < wanted {
        let place = [0; 3].map(|_: i16| step * random.below(span) as i16);
        if !plain.places.contains(&place) {
            plain.places.push(place);
        }
    }
    for _ in 0..3 + random.below(4) {
        let mut numbers: Vec<u16> = (0..wanted as u16).collect();
        random.shuffle(&mut numbers);
        let piece = [numbers[0], numbers[1], numbers[2], numbers[3]];
        if plain.signed(piece) != 0 {
            plain.pieces.push(piece);
        }
    }
    if plain.pieces.is_empty() {
        return;
    }
    // Mostly without the vertices that no piece has.
    if !random.one_in(12) {
        plain = thinned(plain, random, 100);
    }
    let plain = squeezed(&plain, random);
    let number = tally.plain("a small soup", &plain, random);
    assert!([0, 7, 8, 23].contains(&number), "a small soup");
    tally.count_soup(0, number);
}

/// Pieces that share nothing, anywhere in a region that is wide, flat or long, so large that in about half of the
/// meshes a vertex hangs; some of the time with a piece far from them all.
fn soups(tally: &mut Tally, random: &mut Random) {
    let pieces = match random.one_in(12) {
        true => 100 + random.below(155),
        false => 3 + random.below(40),
    };
    let whole = [20, 100, 500][random.below(3)] as f64;
    let mut region = [whole; 3];
    for side in &mut region[..random.below(3)] {
        *side = (whole / 10.0).max(4.0);
    }
    let room = region.iter().product::<f64>() / (pieces * pieces) as f64;
    let size = 2.5 * room.cbrt();
    let mut plain = Plain::default();
    let mut any = |most: f64| random.below(most.max(1.0) as usize + 1) as i16;
    while plain.pieces.len() < pieces {
        let from = region.map(&mut any);
        let corners = [0; 4].map(|_: i16| {
            let within = region.map(|side| any(size.min(side)));
            [0, 1, 2].map(|axis| 32 * (from[axis] + within[axis]))
        });
        if signed(corners) != 0 {
            plain.add_apart(corners);
        }
    }
    if random.one_in(3) {
        add_far(&mut plain, random);
    }
    let plain = turned_over(squeezed(&plain, random), random).mixed(random);
    let number = tally.plain("a soup", &plain, random);
    assert!([0, 4, 23].contains(&number), "a soup");
    tally.count_soup(1, number);
}

/// A vertex that hangs and another rule broken: what is tried before 23, and what after.
fn at_once(tally: &mut Tally, random: &mut Random) {
    let mesh = any_mesh(random, 4);
    let any = random.below(mesh.base_records);
    let hang = |mesh: &Mesh, random: &mut Random| {
        let mut other = mesh.clone();
        hang_a_piece(&mut other, any, random).then_some(other)
    };
    let Some(hung) = hang(&mesh, random) else {
        return;
    };
    tally.stored_given("it hangs", &hung, 23, random);
    let bad = random.below(hung.base_records);
    let mut before = |at: usize, number: u32, other: Mesh, random: &mut Random| {
        tally.stored_given("23 and another before it", &other, number, random);
        tally.at_once[at] += 1;
    };
    let mut other = hung.clone();
    other.vertices[random.below(hung.base_vertices)].place[random.below(3)] += 16;
    before(0, 4, other, random);
    let mut other = hung.clone();
    other.records[bad].flag = 1;
    before(1, 5, other, random);
    let other = with_turned(&hung, bad, EDGES[random.below(6)]);
    before(2, 22, other, random);
    let mut other = hung.clone();
    other.records[bad].marks[random.below(4)] = 6;
    before(3, 6, other, random);
    let mut other = hung.clone();
    let again = Record {
        first_child: NO_NUMBER,
        ..hung.records[bad]
    };
    assert!(insert_base_record(&mut other, again));
    before(4, 7, other, random);
    // The unused vertex itself is one that hangs.
    let place = place_in(base_corners(&mesh, any), HANGING[random.below(3)], random);
    let free = |place: &Place| !hung.vertices.iter().any(|vertex| vertex.place == *place);
    if let Some(place) = place.filter(free) {
        for mesh in [&mesh, &hung] {
            let mut other = mesh.clone();
            insert_base_vertex_at(&mut other, place).expect("there is room");
            before(5, 8, other, random);
        }
    }
    // 9: a record beyond the base that is nobody's child. 10: cut without closing.
    let mut nobodys = mesh.clone();
    nobodys.records.push(Record {
        first_child: NO_NUMBER,
        ..mesh.records[any]
    });
    let mut open = mesh.clone();
    let leaf = random.pick(&open_leaves(&mesh)).map(usize::from);
    let cut = leaf.is_some_and(|leaf| cut_alone(&mut open, leaf));
    let open = Some(open).filter(|open| cut && tmb_check(&open.bytes()).number == 10);
    for (at, number, broken) in [(6, 9, Some(nobodys)), (7, 10, open)] {
        let Some(broken) = broken else {
            continue;
        };
        tally.stored_given("9 or 10 alone", &broken, number, random);
        if let Some(other) = hang(&broken, random) {
            tally.stored_given("23 and 9 or 10", &other, 23, random);
            tally.at_once[at] += 1;
        }
    }
    built_at_once(tally, random);
}

/// The same of build, which tries 21, 3, 4, 5, 7, 8, 23.
fn built_at_once(tally: &mut Tally, random: &mut Random) {
    let plain = thinned(cubes([2, 1, 2], 128), random, 60).mixed(random);
    let piece = random.below(plain.pieces.len());
    let other = until(|| hung(&plain, piece, random));
    let given = Given::new(&other, random);
    let at = 4 * random.below(other.pieces.len());
    let coordinate = random.below(given.coordinates.len());
    let place = until(|| {
        let place = place_in(corners_of(&plain, piece), HANGING[random.below(3)], random);
        place.filter(|place| !other.places.contains(place))
    });
    let mut built = |number: u32, change: &dyn Fn(&mut Given)| {
        let mut given = given.clone();
        change(&mut given);
        let answer = tally.answers.build("23 and another", &given, random);
        assert_eq!(answer, Err(number), "23 and another");
    };
    built(23, &|_| {});
    built(21, &|given| given.coordinates.push(0));
    built(21, &|given| given.corners.push(0));
    built(3, &|given| given.coordinates.truncate(9));
    built(4, &|given| given.coordinates[coordinate] += 16);
    built(5, &|given| given.corners[at] = given.corners[at + 1]);
    built(7, &|given| given.corners.extend_from_within(at..at + 4));
    built(8, &|given| given.coordinates.extend(place));
}

/// Refined meshes, whose made vertices lie on base pieces' edges and are not judged; then a base vertex moved into
/// a base piece, or a step: 4 where a made vertex comes from it.
fn refined_meshes(tally: &mut Tally, random: &mut Random) {
    let mesh = match random.one_in(2) {
        true => any_mesh(random, 5),
        false => partly_refined(random),
    };
    tally.stored_given("refined", &mesh, 0, random);
    tally.made += made_in_others(&mesh);
    let mut hung = mesh.clone();
    if hang_a_piece(&mut hung, random.below(mesh.base_records), random) {
        tally.stored_given("refined, and it hangs", &hung, 23, random);
    }
    let made = &mesh.vertices[mesh.base_vertices..];
    for _ in 0..6 {
        let vertex = random.below(mesh.base_vertices);
        let place = mesh.vertices[vertex].place;
        let to = match random.one_in(4) {
            true => moved(place, any_steps(1, random)),
            false => {
                let corners = base_corners(&mesh, random.below(mesh.base_records));
                place_in(corners, HANGING[random.below(3)], random)
            }
        };
        let Some(to) = to.filter(|&to| to != place) else {
            continue;
        };
        let mut other = mesh.clone();
        other.vertices[vertex].place = to;
        let number = tally.stored("refined, a vertex moved", &other, random);
        let parent = made
            .iter()
            .any(|made| made.parents.contains(&(vertex as u16)));
        match parent {
            true => assert_eq!(number, 4, "refined, a vertex moved"),
            false => assert!([0, 4, 5, 22, 23].contains(&number), "a vertex moved"),
        }
        tally.moved[0] += u64::from(parent);
        tally.moved[1] += u64::from(number == 23);
    }
}

fn base_corners(mesh: &Mesh, number: usize) -> [Place; 4] {
    let corners = mesh.records[number].corners;
    corners.map(|corner| mesh.vertices[usize::from(corner)].place)
}

/// Pieces apart, one of them cut, and of its children one.
fn partly_refined(random: &mut Random) -> Mesh {
    let count = 2 + random.below(4);
    let size = 4 + random.below(20) as i32;
    let mut mesh = boxed([count, 1, 1], size, [-200, 0, 100], random).marked_anyhow(random);
    for _ in 0..1 + random.below(3) {
        let last = open_leaves(&mesh).pop().expect("a leaf");
        mesh = refined(&mesh, &[last]).expect("there is room");
    }
    mesh
}

/// A leaf of generation 15, named: 17; 23 where a vertex hangs.
fn deep(tally: &mut Tally, random: &mut Random) {
    let from = any_steps(500, random);
    let plain = boxed([2, 1, 1], 2 << random.below(7), from, random);
    let mesh = deepened(plain.marked_anyhow(random));
    let deepest = mesh.leaves().find(|(_, leaf)| leaf.generation == 15);
    let Some((number, _)) = deepest else {
        return;
    };
    let mut hung = mesh.clone();
    let hangs = hang_a_piece(&mut hung, random.below(2), random);
    // A base record more comes before it.
    for (mesh, number, wanted) in [(&mesh, number, 0), (&hung, number + 1, 23)] {
        let chosen = selection(mesh.job, mesh.round, &[number as u16]);
        if wanted == 0 || hangs {
            let given = tally.bytes("deep", &mesh.bytes(), &chosen, &chosen, random);
            assert_eq!(given, wanted, "deep");
        }
    }
}

/// Damage of any kind to a mesh in which a vertex hangs, or none; and bytes of it replaced, taken or added.
fn any_damage(tally: &mut Tally, random: &mut Random) {
    let mut mesh = any_mesh(random, 3);
    if random.one_in(2) {
        let number = random.below(mesh.base_records);
        hang_a_piece(&mut mesh, number, random);
    }
    for _ in 0..4 {
        let (name, other) = match random.one_in(2) {
            true => damaged(&mesh, random),
            false => {
                let mut other = mesh.clone();
                let (name, kind) = KINDS[random.below(KINDS.len())];
                kind(&mut other, random);
                (name.to_string(), other)
            }
        };
        let [selection, request] = any_selections(&mesh, random);
        tally.bytes(&name, &other.bytes(), &selection, &request, random);
    }
    let [selection, request] = any_selections(&mesh, random);
    for _ in 0..6 {
        let mut bytes = mesh.bytes();
        match random.below(8) {
            0 => bytes.truncate(random.below(bytes.len())),
            1 => bytes.push(random.number() as u8),
            // The mark, the version, byte 19; a count.
            2 => bytes[[0, 1, 2, 3, 4, 19][random.below(6)]] ^= 1 << random.below(8),
            3 => bytes[[11, 12, 15, 16][random.below(4)]] = random.number() as u8,
            // The places of the base vertices.
            4 | 5 => {
                let at = 20 + 10 * random.below(mesh.base_vertices) + random.below(6);
                bytes[at] ^= [32, 64, 128, 1, 2, 4][random.below(6)];
            }
            _ => {
                let at = random.below(bytes.len());
                bytes[at] =
                    [bytes[at] ^ 1 << random.below(8), random.number() as u8][random.below(2)];
            }
        }
        tally.bytes("bytes replaced", &bytes, &selection, &request, random);
    }
}

#[test]
fn the_proved_services_and_the_second_agree_on_vertices_that_hang() {
    let seed = seed();
    let tally: Tally = compared(seed, &LISTED, &RANDOM);
    let mut lines = tally.answers.lines(seed);
    lines.extend([
        format!(
            "judged by a third way: no vertex hangs, one does {:?}",
            tally.judged
        ),
        format!(
            "one vertex on one piece: inside, in a face, on an edge {:?}; on the first base record, the last, \
             another {:?}; the first base vertex, the last, another {:?}",
            tally.alone, tally.records, tally.vertices
        ),
        format!(
            "accepted: one step from inside, from a face, from an edge {:?}; outside, in the plane of a face, on \
             the line of an edge {:?}",
            tally.beside, tally.outside
        ),
        format!(
            "accepted: pieces overlap in {}; made vertices in pieces that they don't come from {}",
            tally.overlapping, tally.made
        ),
        format!(
            "a vertex hangs, and 4, 5, 22, 6, 7, 8 come before; 9, 10 come after {:?}",
            tally.at_once
        ),
        format!(
            "a base vertex of a refined mesh moved: 4, 23 {:?}",
            tally.moved
        ),
        format!(
            "accepted and given 23: small soups, soups {:?}; of 1,024 vertices, of 3,072 records {:?}",
            tally.soups, tally.full
        ),
    ]);
    tell("vertices that hang", &lines);

    tally.answers.suffice(FEWEST, FEWEST_RANDOM);
    assert!(tally.answers.check[23] >= FEWEST_HANGING[0]);
    assert!(tally.answers.build[23] >= FEWEST_HANGING[1]);
    for (times, fewest) in [
        (&tally.judged[..], 5_000),
        (&tally.alone, 500),
        (&tally.records, 500),
        (&tally.vertices, 200),
        (&tally.beside, 200),
        (&tally.outside, 100),
        (&[tally.overlapping, tally.made], 200),
        (&tally.at_once, 100),
        (&tally.moved, 80),
        (tally.soups.as_flattened(), 100),
        (tally.full.as_flattened(), 2),
    ] {
        assert!(times.iter().all(|&times| times >= fewest), "{times:?}");
    }
}
