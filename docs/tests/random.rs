//! Seeded random tests: many meshes, marked in several ways and refined for several rounds, and many
//! damaged ones. SECOND_SEED in the environment gives another seed.

mod common;
use common::*;
use second::{build_vec, check, list, refine, refine_vec, selection, take_back};
use std::collections::{BTreeMap, BTreeSet};

fn seed() -> u64 {
    let given = std::env::var("SECOND_SEED")
        .ok()
        .and_then(|text| text.parse().ok());
    given.unwrap_or(20_000_222).max(1)
}

/// A random plain mesh: places and pieces by corners.
struct Plain {
    places: Vec<[i16; 3]>,
    pieces: Vec<[u16; 4]>,
}

impl Plain {
    fn solid(&self, piece: [u16; 4]) -> bool {
        let mut different = piece.to_vec();
        different.sort_unstable();
        different.dedup();
        different.len() == 4 && self.signed(piece) != 0
    }

    fn signed(&self, piece: [u16; 4]) -> i64 {
        marked(&self.places, &[(piece, 0, [0; 4])]).signed(0)
    }

    fn face_count(&self, face: [u16; 3]) -> usize {
        let faces = self
            .pieces
            .iter()
            .flat_map(|&p| [0, 1, 2, 3].map(|i| face_set(p, i)));
        faces.filter(|&other| other == face).count()
    }

    fn may_join(&self, piece: [u16; 4]) -> bool {
        let corners = |p: [u16; 4]| BTreeSet::from(p);
        self.solid(piece)
            && (0..4).all(|i| self.face_count(face_set(piece, i)) < 2)
            && self.pieces.iter().all(|&p| corners(p) != corners(piece))
            && self.keeps_apart(piece)
    }

    /// No vertex lies in the piece, and none of its corners in another piece, but as a corner.
    fn keeps_apart(&self, piece: [u16; 4]) -> bool {
        let place = |n: u16| self.places[n as usize];
        let lies_in = |n: u16, p: [u16; 4]| !p.contains(&n) && is_mean(p.map(place), place(n));
        let mut vertices = 0..self.places.len() as u16;
        let mut others = self.pieces.iter();
        !vertices.any(|n| lies_in(n, piece))
            && !others.any(|&other| piece.iter().any(|&n| lies_in(n, other)))
    }

    /// Another numbering of the vertices, another order of the pieces, other slots.
    fn mixed(self, random: &mut Random) -> Plain {
        let mut numbers: Vec<u16> = (0..self.places.len() as u16).collect();
        random.shuffle(&mut numbers);
        let mut places = self.places.clone();
        for (old, &new) in numbers.iter().enumerate() {
            places[new as usize] = self.places[old];
        }
        let mut pieces = self.pieces;
        random.shuffle(&mut pieces);
        for piece in &mut pieces {
            random.shuffle(piece);
            *piece = piece.map(|corner| numbers[corner as usize]);
        }
        Plain { places, pieces }
    }

    /// The same pieces, all of them right-handed: of a left-handed one any two corners are exchanged.
    fn right_handed(mut self, random: &mut Random) -> Plain {
        for n in 0..self.pieces.len() {
            if self.signed(self.pieces[n]) < 0 {
                let (one, other) = CODES[random.below(6)];
                self.pieces[n].swap(one, other);
            }
        }
        self
    }

    fn coordinates(&self) -> Vec<i16> {
        self.places.concat()
    }

    fn corners(&self) -> Vec<u16> {
        self.pieces.concat()
    }
}

/// Pieces joined at random on faces, edges, corners or nowhere; they may overlap, with no vertex inside
/// one another.
fn joined(random: &mut Random, pieces: usize) -> Plain {
    let span = [3, 8, 200, 1_023][random.below(4)];
    let mut plain = Plain {
        places: Vec::new(),
        pieces: Vec::new(),
    };
    while plain.pieces.len() < pieces {
        let known = plain.places.len();
        // How many corners the new piece takes from an old one.
        let kept = if plain.pieces.is_empty() {
            0
        } else {
            [3, 3, 3, 3, 2, 2, 1, 0][random.below(8)]
        };
        let mut piece = Vec::new();
        if kept > 0 {
            let mut old = plain.pieces[random.below(plain.pieces.len())];
            random.shuffle(&mut old);
            piece.extend(&old[..kept]);
        }
        if kept == 3 && random.below(3) == 0 {
            piece.push(random.below(known) as u16);
        }
        while piece.len() < 4 {
            let place = [0; 3].map(|_: i16| 32 * (random.below(2 * span + 1) as i16 - span as i16));
            if plain.places.contains(&place) {
                continue;
            }
            piece.push(plain.places.len() as u16);
            plain.places.push(place);
        }
        let piece = [piece[0], piece[1], piece[2], piece[3]];
        if plain.may_join(piece) {
            plain.pieces.push(piece);
        } else {
            plain.places.truncate(known);
        }
    }
    plain.mixed(random)
}

/// A block of cubes of six pieces each, with some pieces left out.
fn block(random: &mut Random, sides: [usize; 3], keep: usize) -> Plain {
    let step = 32 * [1, 2, 5, 100][random.below(4)];
    let mut numbers: BTreeMap<[usize; 3], u16> = BTreeMap::new();
    let mut places = Vec::new();
    let mut pieces = Vec::new();
    for x in 0..sides[0] {
        for y in 0..sides[1] {
            for z in 0..sides[2] {
                for piece in CUBE_CORNERS.chunks(4) {
                    if random.below(100) >= keep && !pieces.is_empty() {
                        continue;
                    }
                    let mut corners = [0; 4];
                    for (slot, &c) in piece.iter().enumerate() {
                        let c = c as usize;
                        let at = [x + (c & 1), y + (c >> 1 & 1), z + (c >> 2 & 1)];
                        corners[slot] = *numbers.entry(at).or_insert_with(|| {
                            places.push(at.map(|i| step * i as i16));
                            places.len() as u16 - 1
                        });
                    }
                    pieces.push(corners);
                }
            }
        }
    }
    Plain { places, pieces }.mixed(random)
}

/// The middle of some edge of the pieces, if one is on the grid where no vertex stands.
fn middle_of_an_edge(
    random: &mut Random,
    places: &[[i16; 3]],
    pieces: &[[u16; 4]],
) -> Option<[i16; 3]> {
    let place = |corner: u16| places.get(corner as usize).map(|p| p.map(i32::from));
    let mut middles = Vec::new();
    for (piece, (one, other)) in pieces.iter().flat_map(|p| CODES.map(|code| (p, code))) {
        if let (Some(a), Some(b)) = (place(piece[one]), place(piece[other])) {
            let sum = [0, 1, 2].map(|i| a[i] + b[i]);
            let middle = sum.map(|x| (x / 2) as i16);
            if sum.iter().all(|x| x % 64 == 0) && !places.contains(&middle) {
                middles.push(middle);
            }
        }
    }
    (!middles.is_empty()).then(|| middles[random.below(middles.len())])
}

/// Marks by a random strict order of the edges.
fn marked_by_order(random: &mut Random, plain: &Plain) -> Stored {
    let salt = random.next() | 1;
    let rank = |edge: Pair| {
        let mixed = (edge.0 as u64 * 65_536 + edge.1 as u64 + 1).wrapping_mul(salt);
        (mixed ^ mixed >> 29, edge)
    };
    let pieces: Vec<_> = plain
        .pieces
        .iter()
        .map(|&corners| {
            let first = |codes: Vec<usize>| {
                codes
                    .into_iter()
                    .min_by_key(|&k| rank(pair(corners[CODES[k].0], corners[CODES[k].1])))
                    .unwrap() as u8
            };
            let face = |i| {
                (0..6)
                    .filter(|&k| CODES[k].0 != i && CODES[k].1 != i)
                    .collect()
            };
            (
                corners,
                first((0..6).collect()),
                [0, 1, 2, 3].map(|i| first(face(i))),
            )
        })
        .collect();
    marked(&plain.places, &pieces)
}

/// Marks chosen freely under rules 6 and 7; nothing if the choice ran into a piece with none left.
fn marked_freely(random: &mut Random, plain: &Plain) -> Option<Stored> {
    let mut marks: BTreeMap<[u16; 3], Pair> = BTreeMap::new();
    let mut pieces = Vec::new();
    for &corners in &plain.pieces {
        let edge_of = |k: usize| pair(corners[CODES[k].0], corners[CODES[k].1]);
        let faces_with = |k: usize| {
            (0..4)
                .filter(move |&i| CODES[k].0 != i && CODES[k].1 != i)
                .map(|i| face_set(corners, i))
        };
        let mut codes = [0, 1, 2, 3, 4, 5];
        random.shuffle(&mut codes);
        let edge = codes.into_iter().find(|&k| {
            faces_with(k).all(|face| marks.get(&face).is_none_or(|&mark| mark == edge_of(k)))
        })?;
        for face in faces_with(edge) {
            marks.insert(face, edge_of(edge));
        }
        for i in 0..4 {
            let face = face_set(corners, i);
            let at = random.below(3);
            marks
                .entry(face)
                .or_insert_with(|| pair(face[at], face[(at + 1) % 3]));
        }
        let codes = [0, 1, 2, 3].map(|i| code_of(corners, marks[&face_set(corners, i)]));
        pieces.push((corners, edge as u8, codes));
    }
    Some(marked(&plain.places, &pieces))
}

/// A random accepted mesh of round 0.
fn random_mesh(random: &mut Random, most: usize) -> Vec<u8> {
    let pieces = 1 + random.below(most);
    let plain = if random.below(2) == 0 {
        joined(random, pieces)
    } else {
        let sides = [0; 3].map(|_: usize| 1 + random.below(3));
        let keep = 20 + random.below(81);
        block(random, sides, keep)
    };
    let job = random.next() as u32;
    let way = random.below(3);
    if way == 0 {
        return build_vec(job, &plain.coordinates(), &plain.corners()).unwrap();
    }
    let plain = plain.right_handed(random);
    let stored = match way {
        1 => marked_by_order(random, &plain),
        _ => (0..50)
            .find_map(|_| marked_freely(random, &plain))
            .unwrap_or_else(|| marked_by_order(random, &plain)),
    };
    Stored { job, ..stored }.bytes()
}

/// A random selection of leaves that may be named: none, a few, many, or the deepest alone.
fn random_choice(random: &mut Random, mesh: &[u8]) -> Vec<u16> {
    let stored = decode(mesh);
    let mut leaves = stored.leaves();
    leaves.retain(|&n| stored.records[n as usize].generation < 15);
    let wanted = match random.below(8) {
        0 => return Vec::new(),
        1..=3 => {
            let generation = |n: &&u16| stored.records[**n as usize].generation;
            return leaves
                .iter()
                .max_by_key(generation)
                .copied()
                .into_iter()
                .collect();
        }
        4 => leaves.len() / 3,
        _ => 1 + random.below(3),
    };
    random.shuffle(&mut leaves);
    leaves.truncate(wanted);
    leaves.sort_unstable();
    leaves
}

/// A random request: none, all cut records, all that are cut at some vertices, all but one of those, or
/// any.
fn random_request(random: &mut Random, mesh: &[u8]) -> Vec<u16> {
    let stored = decode(mesh);
    let mut named = stored.cut_records();
    let made = stored.vertices.len() - stored.base_vertices as usize;
    match random.below(8) {
        _ if made == 0 => {}
        0 => named.clear(),
        1..=2 => {}
        3..=5 => {
            named.clear();
            for _ in 0..1 + random.below(4) {
                let vertex = stored.base_vertices + random.below(made) as u16;
                named.extend(stored.cut_at(vertex));
            }
            if random.below(3) == 0 {
                named.swap_remove(random.below(named.len()));
            }
        }
        _ => named.retain(|_| random.below(3) > 0),
    }
    named.sort_unstable();
    named.dedup();
    named
}

/// Names for vertices that don't depend on the order in which they were made.
#[derive(Default)]
struct Names(BTreeMap<(usize, usize), usize>);

impl Names {
    fn of(&mut self, stored: &Stored) -> Vec<usize> {
        let mut names = Vec::new();
        for (n, v) in stored.vertices.iter().enumerate() {
            if n < stored.base_vertices as usize {
                names.push(n);
            } else {
                let [p, q] = v.parents.map(|parent| names[parent as usize]);
                let fresh = 100_000 + self.0.len();
                names.push(*self.0.entry((p.min(q), p.max(q))).or_insert(fresh));
            }
        }
        names
    }

    /// The pieces that are leaves, and those that are cut, as sets of named corners.
    fn pieces(&mut self, stored: &Stored) -> [BTreeSet<Vec<usize>>; 2] {
        let names = self.of(stored);
        let mut sets = [BTreeSet::new(), BTreeSet::new()];
        for r in &stored.records {
            let mut piece: Vec<usize> = r.corners.iter().map(|&c| names[c as usize]).collect();
            piece.sort_unstable();
            assert!(sets[(r.first_child != NONE) as usize].insert(piece));
        }
        sets
    }
}

/// Cuts the selected records and closes, both in random order; with some cuts more at the start.
fn closed_anyhow(random: &mut Random, mesh: &[u8], selected: &[u16], more: usize) -> Stored {
    let mut stored = decode(mesh);
    let mut due = selected.to_vec();
    random.shuffle(&mut due);
    for n in due {
        cut_one(&mut stored, n, Way::Right);
    }
    for _ in 0..more {
        let mut leaves = stored.leaves();
        leaves.retain(|&n| stored.records[n as usize].generation < 12);
        if !leaves.is_empty() {
            let n = leaves[random.below(leaves.len())];
            cut_one(&mut stored, n, Way::Right);
        }
    }
    loop {
        let hanging = hanging_leaves(&stored, Way::Right);
        if hanging.is_empty() {
            return stored;
        }
        for _ in 0..1 + random.below(3) {
            let n = hanging[random.below(hanging.len())];
            if stored.records[n as usize].first_child == NONE {
                cut_one(&mut stored, n, Way::Right);
            }
        }
    }
}

/// "Shared faces carry one mark"; no face is in three leaves. Returns how many are shared.
fn shared_faces(stored: &Stored) -> usize {
    let mut faces: BTreeMap<[u16; 3], Vec<Pair>> = BTreeMap::new();
    for n in stored.leaves() {
        let r = &stored.records[n as usize];
        for i in 0..4 {
            let marks = faces.entry(face_set(r.corners, i)).or_default();
            marks.push(ends(r, r.marks[i]));
        }
    }
    let shared = faces.values().filter(|marks| marks.len() > 1);
    shared
        .inspect(|marks| assert!(marks.len() == 2 && marks[0] == marks[1]))
        .count()
}

/// Check's figures, counted once more.
fn figures_hold(mesh: &[u8]) {
    let stored = decode(mesh);
    let leaves = stored.leaves();
    let report = check(mesh);
    assert_eq!(report.number, 0);
    assert_eq!(report.leaves, leaves.len() as u64);
    let generations = leaves
        .iter()
        .map(|&n| stored.records[n as usize].generation);
    assert_eq!(report.deepest, generations.max().unwrap() as u64);
    let sum: u64 = leaves.iter().map(|&n| stored.sixfold(n as usize)).sum();
    assert_eq!(report.sixfold, sum);
    right_handed_by_halves(&stored);
    let listing = String::from_utf8(list(mesh)).unwrap();
    assert_eq!(listing.lines().count(), 1 + leaves.len());
}

#[test]
fn random_meshes_refined_for_several_rounds() {
    let seed = seed();
    println!("seed {seed}");
    let mut random = Random(seed);
    let (mut refinements, mut full, mut faces, mut cuts, mut deepest_seen) = (0, 0, 0, 0, 0);
    let meshes = 150;
    for _ in 0..meshes {
        let mut mesh = random_mesh(&mut random, 24);
        let whole = check(&mesh).sixfold;
        figures_hold(&mesh);
        for _ in 0..20 {
            let selected = random_choice(&mut random, &mesh);
            let before = decode(&mesh);
            let naive = naive_refine(&mesh, &selected, Way::Right);
            let given = refine_vec(&mesh, &choose(&mesh, &selected));
            if naive.vertices.len() > 1_024 || naive.records.len() > 3_072 {
                assert_eq!(given, Err(19));
                full += 1;
                break;
            }
            let result = given.unwrap();
            // In the order that document 01 fixes, to the byte.
            assert_eq!(result, naive.bytes());
            figures_hold(&result);
            let after = decode(&result);
            let report = check(&result);
            assert_eq!(report.sixfold, whole);

            // The depth: the least multiple of three that reaches both.
            let children = selected
                .iter()
                .map(|&n| before.records[n as usize].generation + 1);
            let reached = check(&mesh).deepest.max(children.max().unwrap_or(0) as u64);
            assert!(report.deepest <= reached.div_ceil(3) * 3);

            // What was there stays, but for the numbers of children; what was selected is cut.
            assert_eq!(after.vertices[..before.vertices.len()], before.vertices);
            for (old, new) in before.records.iter().zip(&after.records) {
                let first_child = new.first_child;
                assert!(old.first_child == NONE || old.first_child == first_child);
                assert_eq!(
                    Record {
                        first_child,
                        ..*old
                    },
                    *new
                );
            }
            let is_cut = |n: &u16| after.records[*n as usize].first_child != NONE;
            assert!(selected.iter().all(is_cut));
            faces += shared_faces(&after);
            cuts += (after.records.len() - before.records.len()) / 2;
            refinements += 1;
            deepest_seen = deepest_seen.max(report.deepest);

            // Ours is inside every other closing set, and the same as any that closes only what
            // hangs.
            if after.records.len() < 500 {
                let mut names = Names::default();
                let ours = names.pieces(&after);
                let anyhow = closed_anyhow(&mut random, &mesh, &selected, 0);
                assert_eq!(names.pieces(&anyhow), ours);
                let more = closed_anyhow(&mut random, &mesh, &selected, 2);
                assert!(names.pieces(&more)[1].is_superset(&ours[1]));
            }
            mesh = result;
            if mesh.len() > 30_000 {
                break;
            }
        }
    }
    println!(
        "{meshes} meshes, {refinements} refinements, {cuts} cuts, {full} tables full, \
         {faces} shared faces, deepest {deepest_seen}"
    );
    assert!(refinements > 1_000 && cuts > 10_000 && faces > 10_000);
    assert_eq!(deepest_seen, 15);
}

/// Refined and taken back in turn: the naive take-back's bytes, and the cuts that are left are some of
/// those that were there.
#[test]
fn random_meshes_refined_and_taken_back() {
    let seed = seed() + 6;
    println!("seed {seed}");
    let mut random = Random(seed);
    let (mut requests, mut gone, mut kept, mut stayed, mut undone) = (0, 0, 0, 0, 0);
    for _ in 0..200 {
        let mut mesh = random_mesh(&mut random, 12);
        let whole = check(&mesh).sixfold;
        for _ in 0..12 {
            let before = mesh.clone();
            let selected = random_choice(&mut random, &mesh);
            mesh = match refine_vec(&mesh, &choose(&mesh, &selected)) {
                Ok(finer) => finer,
                Err(number) => {
                    assert_eq!(number, 19);
                    break;
                }
            };
            if mesh.len() > 12_000 {
                break;
            }
            if random.below(3) == 0 {
                mesh = renumbered(&mut random, &decode(&mesh)).bytes();
            }
            for _ in 0..1 + random.below(2) {
                let named = random_request(&mut random, &mesh);
                let result = taken_back(&mesh, &named);
                assert_eq!(result, naive_take_back(&mesh, &named).bytes());
                figures_hold(&result);
                assert_eq!(check(&result).sixfold, whole);
                let (old, new) = (decode(&mesh), decode(&result));
                shared_faces(&new);
                let mut names = Names::default();
                let (old_cut, new_cut) = (&names.pieces(&old)[1], &names.pieces(&new)[1]);
                assert!(new_cut.is_subset(old_cut));
                let taken = old_cut.len() - new_cut.len();
                assert_eq!(new.records.len() + 2 * taken, old.records.len());
                assert!(taken <= named.len());
                requests += 1;
                gone += (taken > 0) as u32;
                kept += (taken > 0 && taken < named.len()) as u32;
                stayed += (taken == 0 && !named.is_empty()) as u32;
                undone += (new.records.len() > new.base_records as usize
                    && new.vertices.len() == decode(&before).vertices.len()
                    && result
                        == Stored {
                            round: new.round,
                            ..decode(&before)
                        }
                        .bytes()) as u32;
                mesh = result;
            }
        }
    }
    println!(
        "{requests} requests, cuts taken back in {gone} and others named in {kept} of them, none of \
         those named in {stayed}, the round before but for its number in {undone}"
    );
    assert!(requests > 1_500 && gone > 500 && kept > 200 && stayed > 200 && undone > 20);
}

#[test]
fn random_meshes_near_the_limits() {
    let seed = seed() + 1;
    println!("seed {seed}");
    let mut random = Random(seed);
    let (mut full, mut accepted) = (0, 0);
    for round in 0..16 {
        let mesh = if round % 2 == 0 {
            let plain = block(&mut random, [7, 7, 8], 100);
            if round % 4 == 0 {
                build_vec(1, &plain.coordinates(), &plain.corners()).unwrap()
            } else {
                let plain = plain.right_handed(&mut random);
                marked_by_order(&mut random, &plain).bytes()
            }
        } else {
            let (vertices, records) = (750 + random.below(250), 1_500 + random.below(1_500));
            let (coordinates, corners) = crowded(vertices as u16, records, random.next());
            build_vec(1, &coordinates, &corners).unwrap()
        };
        let records = decode(&mesh).records.len();
        for wanted in [1, 2, 4, 8, 20, 60, 200] {
            let mut selected: Vec<u16> =
                (0..wanted).map(|_| random.below(records) as u16).collect();
            selected.sort_unstable();
            selected.dedup();
            let naive = naive_refine(&mesh, &selected, Way::Right);
            let given = refine_vec(&mesh, &choose(&mesh, &selected));
            if naive.vertices.len() > 1_024 || naive.records.len() > 3_072 {
                assert_eq!(given, Err(19));
                full += 1;
            } else {
                let result = given.unwrap();
                assert_eq!(result, naive.bytes());
                figures_hold(&result);
                accepted += 1;
            }
        }
    }
    println!("{accepted} accepted, {full} tables full");
    assert!(full > 5 && accepted > 20);
}

/// The same mesh under another numbering: made vertices above their parents, children in adjacent
/// pairs above their parent, both otherwise at random.
fn renumbered(random: &mut Random, stored: &Stored) -> Stored {
    let base = stored.base_vertices as usize;
    // Vertices: any order in which parents come first.
    let mut order: Vec<usize> = (0..base).collect();
    let mut waiting: Vec<usize> = (base..stored.vertices.len()).collect();
    while !waiting.is_empty() {
        let ready: Vec<usize> = waiting
            .iter()
            .copied()
            .filter(|&n| {
                stored.vertices[n]
                    .parents
                    .iter()
                    .all(|&p| order.contains(&(p as usize)))
            })
            .collect();
        let next = ready[random.below(ready.len())];
        waiting.retain(|&n| n != next);
        order.push(next);
    }
    let mut number = vec![0u16; order.len()];
    for (new, &old) in order.iter().enumerate() {
        number[old] = new as u16;
    }
    let vertices = order
        .iter()
        .map(|&old| {
            let mut v = stored.vertices[old];
            if old >= base {
                let (p, q) = pair(number[v.parents[0] as usize], number[v.parents[1] as usize]);
                v.parents = [p, q];
            }
            v
        })
        .collect();
    // Records: cut in any order; the first child is the one that keeps the end of lower number.
    let base = stored.base_records as usize;
    let mut records: Vec<Record> = Vec::new();
    let renamed = |old: u16| {
        let r = stored.records[old as usize];
        Record {
            corners: r.corners.map(|c| number[c as usize]),
            first_child: NONE,
            ..r
        }
    };
    records.extend((0..base as u16).map(renamed));
    let mut old_numbers: Vec<u16> = (0..base as u16).collect();
    let mut waiting: Vec<usize> = (0..base).collect();
    while !waiting.is_empty() {
        let new = waiting.swap_remove(random.below(waiting.len()));
        let old = &stored.records[old_numbers[new] as usize];
        if old.first_child == NONE {
            continue;
        }
        let (p, q) = ends(old, old.edge);
        let turned = number[p as usize] > number[q as usize];
        records[new].first_child = records.len() as u16;
        for second in [turned, !turned] {
            let child = old.first_child + second as u16;
            waiting.push(records.len());
            old_numbers.push(child);
            records.push(renamed(child));
        }
    }
    Stored {
        vertices,
        records,
        ..stored.clone()
    }
}

#[test]
fn any_numbering_is_accepted() {
    let seed = seed() + 2;
    println!("seed {seed}");
    let mut random = Random(seed);
    let (mut numberings, mut others) = (0, 0);
    for _ in 0..60 {
        let mut mesh = random_mesh(&mut random, 6);
        for _ in 0..4 {
            let selected = random_choice(&mut random, &mesh);
            mesh = refined(&mesh, &selected);
        }
        let stored = decode(&mesh);
        if stored.records.len() > 600 {
            continue;
        }
        let other = renumbered(&mut random, &stored);
        let bytes = other.bytes();
        assert_eq!(check(&bytes), check(&mesh));
        assert_eq!(naive_check(&bytes), (0, 0, 0));
        numberings += 1;
        others += (bytes != mesh) as u32;
        // Refined alike, up to the numbering: every leaf that isn't of generation 15.
        let choice = |s: &Stored| {
            let mut leaves = s.leaves();
            leaves.retain(|&n| s.records[n as usize].generation < 15);
            leaves
        };
        let one = refine_vec(&mesh, &choose(&mesh, &choice(&stored)));
        let two = refine_vec(&bytes, &choose(&bytes, &choice(&other)));
        match (one, two) {
            (Ok(one), Ok(two)) => {
                assert_eq!(check(&one), check(&two));
                let mut names = Names::default();
                let pieces = names.pieces(&decode(&one));
                assert_eq!(names.pieces(&decode(&two)), pieces);
            }
            (one, two) => assert_eq!((one, two), (Err(19), Err(19))),
        }
    }
    println!("{numberings} numberings, {others} of them other than refine's");
    assert!(numberings > 40 && others > 20);
}

/// Damage that keeps the layout: one field gets another value, mostly a small or a likely one.
fn damage(random: &mut Random, stored: &mut Stored) {
    let (vertices, records) = (stored.vertices.len(), stored.records.len());
    let v = random.below(vertices);
    let r = random.below(records);
    let some_number = |random: &mut Random, bound: usize| match random.below(6) {
        0 => NONE,
        1 => random.next() as u16,
        _ => random.below(bound + 2) as u16,
    };
    match random.below(25) {
        0 => stored.vertices[v].place[random.below(3)] += [-32, -1, 1, 16, 32, 64][random.below(6)],
        1 => stored.vertices[v].place = stored.vertices[random.below(vertices)].place,
        2 => stored.vertices[v].parents[random.below(2)] = some_number(random, vertices),
        3 => stored.vertices[v].parents.swap(0, 1),
        4 => stored.records[r].corners[random.below(4)] = some_number(random, vertices),
        5 => stored.records[r]
            .corners
            .swap(random.below(4), random.below(4)),
        6 => stored.records[r].edge = random.below(7) as u8,
        7 | 8 => stored.records[r].marks[random.below(4)] = random.below(7) as u8,
        9 => stored.records[r].flag ^= 1,
        10 => stored.records[r].generation = random.below(17) as u8,
        11 | 12 => stored.records[r].first_child = some_number(random, records),
        13 => stored.records[r].first_child = NONE,
        14 => {
            stored.records.swap(r, random.below(records));
        }
        15 => stored
            .records
            .truncate(records - random.below(3).min(records - 1)),
        16 => stored.records.push(stored.records[r]),
        17 => stored.vertices.push(stored.vertices[v]),
        18 => {
            stored.base_vertices = (stored.base_vertices as usize + random.below(3)) as u16 - 1;
        }
        19 => stored.base_records = (stored.base_records as usize + random.below(3)) as u16 - 1,
        // A base record in the other hand, its marks along if they are marks.
        20 => {
            let r = random.below((stored.base_records as usize).clamp(1, records));
            let (one, other) = CODES[random.below(6)];
            let record = stored.records[r];
            let different = BTreeSet::from(record.corners).len() == 4;
            if different && record.edge < 6 && record.marks.iter().all(|&m| m < 6) {
                stored.records[r] = turned(&record, one, other);
            }
        }
        // A base vertex in the middle of an edge of a base record: often it hangs there.
        21 | 22 => {
            let base = (stored.base_vertices as usize).clamp(1, vertices);
            let places: Vec<[i16; 3]> = stored.vertices[..base].iter().map(|v| v.place).collect();
            let base_records = (stored.base_records as usize).min(records);
            let pieces = stored.records[..base_records].iter().map(|r| r.corners);
            let pieces: Vec<[u16; 4]> = pieces.collect();
            if let Some(middle) = middle_of_an_edge(random, &places, &pieces) {
                stored.vertices[random.below(base)].place = middle;
            }
        }
        // A cut that is not closed: often a hanging edge and nothing else.
        _ => {
            let mut leaves = stored.leaves();
            leaves.retain(|&n| {
                let r = &stored.records[n as usize];
                let different = BTreeSet::from(r.corners).len() == 4;
                r.generation < 12
                    && different
                    && r.edge < 6
                    && r.marks.iter().all(|&m| m < 6)
                    && r.corners.iter().all(|&c| (c as usize) < vertices)
            });
            let sound = second::check(&stored.bytes()).number;
            if !leaves.is_empty() && (sound == 0 || sound == 10) {
                cut_one(stored, leaves[random.below(leaves.len())], Way::Right);
            }
        }
    }
}

#[test]
fn damaged_meshes() {
    let seed = seed() + 3;
    println!("seed {seed}");
    let mut random = Random(seed);
    let mut given = [0u32; 24];
    for _ in 0..250 {
        let mut mesh = random_mesh(&mut random, 6);
        for _ in 0..random.below(4) {
            let selected = random_choice(&mut random, &mesh);
            mesh = refined(&mesh, &selected);
        }
        for _ in 0..60 {
            let mut bytes = mesh.clone();
            if random.below(4) > 0 {
                let mut stored = decode(&mesh);
                for _ in 0..[1, 1, 1, 2, 3][random.below(5)] {
                    damage(&mut random, &mut stored);
                }
                bytes = stored.bytes();
            }
            match random.below(12) {
                0 => {
                    let at = random.below(bytes.len());
                    bytes[at] = random.next() as u8;
                }
                1 => {
                    for _ in 0..random.below(8) {
                        let at = random.below(bytes.len());
                        bytes[at] ^= 1 << random.below(8);
                    }
                }
                2 => bytes.truncate(random.below(bytes.len())),
                3 => bytes.push(random.next() as u8),
                _ => {}
            }
            let report = check(&bytes);
            let place = (report.record, report.edge);
            assert_eq!((report.number, place.0, place.1), naive_check(&bytes));
            if report.number != 0 {
                assert_eq!((report.leaves, report.deepest, report.sixfold), (0, 0, 0));
            }
            if report.number != 10 {
                assert_eq!(place, (0, 0));
            }
            given[report.number as usize] += 1;
            // Refine and take-back see the same; where the mesh is accepted, no bytes are no selection.
            for service in [refine, take_back] {
                let mut out = vec![0xAA; 3_000];
                let number = service(&bytes, &[], &mut out);
                assert_eq!(
                    number as u64,
                    if report.number == 0 {
                        11
                    } else {
                        report.number
                    }
                );
                assert!(out.iter().all(|&byte| byte == 0));
            }
            let line = format!("refused {}\n", report.number);
            assert_eq!(list(&bytes) == line.as_bytes(), report.number != 0);
        }
    }
    println!("numbers given: {given:?}");
    for number in (0..=10).chain([22, 23]) {
        assert!(given[number] > 0, "{number}");
    }
}

#[test]
fn bytes_of_any_sort() {
    let seed = seed() + 4;
    println!("seed {seed}");
    let mut random = Random(seed);
    let mut given = [0u32; 24];
    for _ in 0..30_000 {
        // Headers that fit their length, so that what follows is looked at.
        let (vertices, records) = (4 + random.below(8), 1 + random.below(6));
        let mut mesh = vec![0; 20 + 10 * vertices + 17 * records];
        let kind = random.below(3);
        for byte in &mut mesh {
            *byte = match kind {
                0 => random.next() as u8,
                1 => random.below(8) as u8,
                _ => [0, 1, 2, 3, 32, 64, 255][random.below(7)],
            };
        }
        if random.below(10) > 0 {
            mesh[..5].copy_from_slice(b"TMB\x01\x00");
            if random.below(20) == 0 {
                mesh[random.below(5)] ^= 1;
            }
            mesh[19] = 0;
            for (at, count) in [
                (11, vertices.min(4)),
                (13, vertices),
                (15, 1),
                (17, records),
            ] {
                mesh[at..at + 2].copy_from_slice(&(count as u16).to_le_bytes());
            }
        }
        let report = check(&mesh);
        assert_eq!(
            (report.number, report.record, report.edge),
            naive_check(&mesh)
        );
        given[report.number as usize] += 1;
    }
    // Selections of any sort on a good mesh.
    let mesh = refined(&cube(), &[0]);
    let good = choose(&mesh, &[6, 8, 11]);
    for _ in 0..30_000 {
        let mut bytes = good.clone();
        for _ in 0..random.below(4) {
            let at = random.below(bytes.len());
            bytes[at] = [random.next() as u8, random.below(20) as u8, bytes[at]][random.below(3)];
        }
        match random.below(10) {
            0 => bytes.truncate(random.below(bytes.len() + 1)),
            1 => bytes.extend([0; 2]),
            _ => {}
        }
        let mut out = vec![0xAA; random.below(1_200)];
        let number = refine(&mesh, &bytes, &mut out);
        given[number as usize] += 1;
        if number == 0 {
            let length = 20
                + 10 * u16::from_le_bytes([out[13], out[14]]) as usize
                + 17 * u16::from_le_bytes([out[17], out[18]]) as usize;
            assert_eq!(check(&out[..length]).number, 0);
            assert!(out[length..].iter().all(|&byte| byte == 0));
        } else {
            assert!(out.iter().all(|&byte| byte == 0));
        }
    }
    // Plain meshes of any sort.
    for _ in 0..30_000 {
        let (vertices, pieces) = (3 + random.below(6), random.below(4));
        let coordinates: Vec<i16> = (0..3 * vertices + [0, 0, 0, 1][random.below(4)])
            .map(|_| match random.below(60) {
                0 => random.next() as i16,
                _ => 32 * (random.below(9) as i16 - 4),
            })
            .collect();
        let corners: Vec<u16> = (0..4 * pieces + [0, 0, 0, 1][random.below(4)])
            .map(|_| match random.below(60) {
                0 => random.next() as u16,
                _ => random.below(vertices) as u16,
            })
            .collect();
        let mut out = vec![0xAA; 60 + random.below(200)];
        let number = second::build(random.next() as u32, &coordinates, &corners, &mut out);
        given[number as usize] += 1;
        assert_ne!(number, 22, "build never gives 22");
        if [0, 20, 23].contains(&number) {
            let places: Vec<[i16; 3]> = coordinates.chunks(3).map(|p| [p[0], p[1], p[2]]).collect();
            let taken: Vec<[u16; 4]> = corners
                .chunks(4)
                .map(|p| [p[0], p[1], p[2], p[3]])
                .collect();
            let found = vertices_in_pieces(&of_type_o(&places, &taken));
            assert_eq!(found.is_empty(), number != 23);
        }
        if number == 0 {
            let length = 20 + 10 * vertices + 17 * pieces;
            assert_eq!(naive_check(&out[..length]), (0, 0, 0));
            assert!(out[length..].iter().all(|&byte| byte == 0));
        } else {
            assert!(out.iter().all(|&byte| byte == 0));
        }
    }
    println!("numbers given: {given:?}");
    // Each of these is easily reached; 17 to 19 need larger meshes.
    for number in [0, 1, 2, 3, 4, 5, 7, 8, 11, 12, 13, 14, 15, 16, 20, 21] {
        assert!(given[number] > 0, "{number}");
    }
    assert_eq!(selection(1, 1, &[6, 8, 11]), good);
}

/// Every hand of every piece gives one mesh, but for the slots of its corners: the same number, and the
/// same edges marked.
#[test]
fn build_takes_pieces_of_either_hand() {
    let seed = seed() + 7;
    println!("seed {seed}");
    let mut random = Random(seed);
    let mut given = [0u32; 24];
    for _ in 0..3_000 {
        let count = 1 + random.below(6);
        let mut plain = joined(&mut random, count);
        // Half of the time something is wrong.
        match random.below(10) {
            0 => plain.places.push([32_736, 32_736, -32_736]),
            1 => {
                let mut again = plain.pieces[random.below(count)];
                random.shuffle(&mut again);
                plain.pieces.push(again);
            }
            2 => plain.pieces[random.below(count)][3] = random.below(plain.places.len() + 1) as u16,
            3 => plain.places[0] = plain.places[1],
            // A piece more with a corner in the middle of an edge.
            4 => {
                if let Some(middle) = middle_of_an_edge(&mut random, &plain.places, &plain.pieces) {
                    let new = plain.places.len() as u16;
                    plain.places.push(middle);
                    plain.places.extend([
                        [32_736, 32_704, -32_736],
                        [32_704, 32_736, -32_736],
                        [32_736, 32_736, -32_704],
                    ]);
                    plain.pieces.push([new, new + 1, new + 2, new + 3]);
                }
            }
            _ => {}
        }
        let number = |plain: &Plain| build_vec(3, &plain.coordinates(), &plain.corners());
        let one = number(&plain);
        for piece in &mut plain.pieces {
            if random.below(2) == 0 {
                let (one, other) = CODES[random.below(6)];
                piece.swap(one, other);
            }
        }
        let two = number(&plain);
        match (one, two) {
            (Ok(one), Ok(two)) => {
                let [one, two] = [one, two].map(|bytes| decode(&bytes));
                let told = |stored: &Stored| -> Vec<_> {
                    let faces = |r: &Record| {
                        let face = |i| (face_set(r.corners, i), ends(r, r.marks[i]));
                        [0, 1, 2, 3]
                            .map(face)
                            .into_iter()
                            .collect::<BTreeMap<_, _>>()
                    };
                    let records = stored.records.iter();
                    records.map(|r| (ends(r, r.edge), faces(r))).collect()
                };
                assert_eq!(told(&one), told(&two));
                right_handed_by_halves(&one);
                right_handed_by_halves(&two);
                given[0] += 1;
            }
            (one, two) => {
                assert_eq!(one, two);
                given[one.unwrap_err() as usize] += 1;
            }
        }
    }
    println!("numbers given: {given:?}");
    for number in [0, 4, 5, 7, 8, 23] {
        assert!(given[number] > 50, "{number}: {}", given[number]);
    }
    assert_eq!(given.iter().sum::<u32>(), 3_000);
    assert_eq!(given[22], 0);
}

/// Two pieces, a corner of the one put on an edge, on a face, inside or outside of the other by weights
/// of its corners, or one step beside such a place.
#[test]
fn a_corner_about_another_piece() {
    let seed = seed() + 8;
    println!("seed {seed}");
    let mut random = Random(seed);
    let mut given = [[0u32; 2]; 5];
    for _ in 0..30_000 {
        // The corners are multiples of the weights' sum, so that the place is on the grid.
        let sum = 4 + random.below(5) as i32;
        let span = [1, 2, 10, 1_023 / sum as usize][random.below(4)];
        let mut coordinate = |_: i32| random.below(2 * span + 1) as i32 - span as i32;
        let corners = [[0; 3]; 4].map(|corner| corner.map(&mut coordinate));
        // On an edge, on a face, inside, outside; each may be left by a step.
        let kind = random.below(4);
        let mut weights = match kind {
            0 => [sum - 1, 1, 0, 0],
            1 => [sum - 2, 1, 1, 0],
            2 => [sum - 3, 1, 1, 1],
            _ => [sum, 1, -1, 0],
        };
        for _ in 0..random.below(sum as usize) {
            if weights[0] > 1 {
                weights[0] -= 1;
                weights[1 + random.below([1, 2, 3, 1][kind])] += 1;
            }
        }
        random.shuffle(&mut weights);
        let mut place = [0, 1, 2].map(|i| (0..4).map(|c| weights[c] * corners[c][i]).sum::<i32>());
        let beside = random.below(3) == 0;
        if beside {
            place[random.below(3)] += [-1, 1][random.below(2)];
        }
        if place.iter().any(|x| x.abs() > 1_023) {
            continue;
        }
        let mut places = corners.map(|corner| corner.map(|x| 32 * sum * x)).to_vec();
        places.push(place.map(|x| 32 * x));
        let far = [1_023, 2 * span * sum as usize][random.below(2)].min(1_023);
        for _ in 0..3 {
            places.push([0; 3].map(|_| 32 * (random.below(2 * far + 1) as i32 - far as i32)));
        }
        let mut pieces = vec![[0, 1, 2, 3], [4, 5, 6, 7]];
        if random.below(3) == 0 {
            // They have a corner in common.
            places.pop();
            pieces[1][3] = random.below(4) as u16;
        }
        let places: Vec<[i16; 3]> = places.iter().map(|p| p.map(|x| x as i16)).collect();
        let (first, corner) = ([0, 1, 2, 3].map(|n| places[n]), places[4]);
        let plain = Plain { places, pieces }.mixed(&mut random);
        let different = BTreeSet::from_iter(&plain.places).len() == plain.places.len();
        if !different || !plain.pieces.iter().all(|&piece| plain.solid(piece)) {
            continue;
        }
        let stored = of_type_o(&plain.places, &plain.pieces);
        let number = if vertices_in_pieces(&stored).is_empty() {
            0
        } else {
            23
        };
        // What the weights say; the other corners may lie anyhow.
        let lies_in = is_mean(first, corner);
        assert!(beside || lies_in == (kind < 3));
        assert!(!lies_in || number == 23);
        assert_eq!(check(&stored.bytes()).number, number);
        assert_eq!(naive_check(&stored.bytes()), (number, 0, 0));
        let built = build_vec(3, &plain.coordinates(), &plain.corners());
        assert_eq!(built.err().unwrap_or(0) as u64, number);
        given[if beside { 4 } else { kind }][(number != 0) as usize] += 1;
    }
    println!("on an edge, on a face, inside, outside, beside: {given:?}");
    assert!(given[..3]
        .iter()
        .all(|&[zero, twenty_three]| zero == 0 && twenty_three > 1_000));
    assert!(given[3..].iter().flatten().all(|&count| count > 500));
}

#[test]
fn marks_by_build_are_the_first_ranked() {
    let seed = seed() + 5;
    println!("seed {seed}");
    let mut random = Random(seed);
    let (mut pieces, mut ties, mut exchanged) = (0, 0, 0);
    for _ in 0..200 {
        let plain = if random.below(2) == 0 {
            joined(&mut random, 8)
        } else {
            block(&mut random, [2, 1, 2], 90)
        };
        let built = decode(&build_vec(5, &plain.coordinates(), &plain.corners()).unwrap());
        assert_eq!((built.job, built.round), (5, 0));
        assert_eq!(built.records.len(), plain.pieces.len());
        for (r, &corners) in built.records.iter().zip(&plain.pieces) {
            // "Build takes a left-handed piece by exchanging its last two corners before marking."
            let [a, b, c, d] = corners;
            let left = plain.signed(corners) < 0;
            assert_eq!(r.corners, if left { [a, b, d, c] } else { corners });
            exchanged += left as u32;
            let length = |edge: Pair| -> i128 {
                let [p, q] = [edge.0, edge.1].map(|n| plain.places[n as usize]);
                (0..3).map(|i| (p[i] as i128 - q[i] as i128).pow(2)).sum()
            };
            // No edge of the piece or of a face ranks before the one that is marked.
            let before = |one: Pair, other: Pair| {
                length(one) > length(other) || length(one) == length(other) && one < other
            };
            let chosen = ends(r, r.edge);
            assert!((0..6).all(|code| !before(ends(r, code), chosen)));
            for i in 0..4 {
                let face = face_set(r.corners, i);
                let mark = ends(r, r.marks[i]);
                assert!(face.contains(&mark.0) && face.contains(&mark.1));
                for edge in [(face[0], face[1]), (face[0], face[2]), (face[1], face[2])] {
                    assert!(!before(edge, mark));
                    ties += (edge != mark && length(edge) == length(mark)) as u32;
                }
            }
            assert_eq!((r.flag, r.generation, r.first_child), (0, 0, NONE));
            pieces += 1;
        }
    }
    println!("{pieces} pieces, {ties} ties, {exchanged} exchanged");
    assert!(pieces > 1_000 && ties > 10);
    assert!(exchanged > pieces / 3 && exchanged < 2 * pieces / 3);
}
