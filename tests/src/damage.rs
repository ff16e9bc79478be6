//! Damage to a stored mesh: most of it breaks one rule, some of it leaves an accepted mesh.

use crate::inside::{all_four, hanging_piece, place_in, Place, HANGING};
use crate::meshes::{cut_alone, face_set, halfway, in_slots, pair, signed, turned, Pair};
use crate::random::Random;
use second::mesh::{Mesh, Record, Vertex, NO_NUMBER};
use second::piece::{ends, on_face, slots, EDGES};
use second::{MOST_RECORDS, MOST_VERTICES};

/// Changes the mesh; false if it has nothing to be changed so.
type Damage = fn(&mut Mesh, &mut Random) -> bool;

/// Each kind of damage by name.
pub const KINDS: [(&str, Damage); 46] = [
    ("vertex moved by one", vertex_moved_by_one),
    ("base vertex moved on the grid", base_vertex_moved),
    ("coordinate at a bound", coordinate_at_a_bound),
    ("two base vertices at one place", two_at_one_place),
    ("base vertex with a parent", base_vertex_with_parent),
    ("parents exchanged", parents_exchanged),
    (
        "parents of two vertices exchanged",
        parents_of_two_exchanged,
    ),
    ("parent replaced", parent_replaced),
    ("vertex its own parent", its_own_parent),
    ("parent pair used twice", pair_used_twice),
    ("made vertices exchanged", made_exchanged),
    ("corner replaced", corner_replaced),
    ("two corners exchanged", corners_exchanged),
    ("equal corners", equal_corners),
    ("flat piece", flat_piece),
    ("base record in the other hand", in_the_other_hand),
    (
        "in the other hand, with a bad mark",
        in_the_other_hand_badly,
    ),
    (
        "in the other hand, and a flat one",
        in_the_other_hand_and_flat,
    ),
    ("all in the other hand", all_in_the_other_hand),
    ("flag", flag_changed),
    ("generation", generation_changed),
    ("marks swapped", marks_swapped),
    ("mark replaced", mark_replaced),
    ("mark replaced on its face", mark_replaced_on_its_face),
    ("refinement edge replaced", edge_replaced),
    ("same four corners", same_four_corners),
    ("piece set on a face", piece_set_on_a_face),
    ("pieces set on a face", pieces_set_on_a_face),
    ("unused base vertex", unused_base_vertex),
    ("base vertex moved into a piece", base_vertex_moved_into),
    ("a corner in another piece", corner_in_another),
    ("base record taken out", base_record_taken_out),
    ("children exchanged", children_exchanged),
    ("children of two exchanged", children_of_two_exchanged),
    ("children of another", children_of_another),
    ("first child replaced", first_child_replaced),
    ("cut record made a leaf", cut_made_leaf),
    ("records exchanged", records_exchanged),
    ("record copied", record_copied),
    ("base count moved", base_count_moved),
    ("record appended", record_appended),
    ("vertex appended", vertex_appended),
    ("last records taken", last_records_taken),
    ("last vertex taken", last_vertex_taken),
    ("cut without closing", cut_without_closing),
    ("several cut without closing", several_cut_without_closing),
];

fn any_vertex(mesh: &Mesh, random: &mut Random) -> usize {
    random.below(mesh.vertices.len())
}

fn any_base_vertex(mesh: &Mesh, random: &mut Random) -> usize {
    random.below(mesh.base_vertices)
}

fn any_made_vertex(mesh: &Mesh, random: &mut Random) -> Option<usize> {
    let made = mesh.vertices.len() - mesh.base_vertices;
    (made > 0).then(|| mesh.base_vertices + random.below(made))
}

/// Half of the time among the base records.
fn any_record(mesh: &Mesh, random: &mut Random) -> usize {
    if random.one_in(2) {
        any_base_record(mesh, random)
    } else {
        random.below(mesh.records.len())
    }
}

fn any_base_record(mesh: &Mesh, random: &mut Random) -> usize {
    random.below(mesh.base_records)
}

fn any_cut_record(mesh: &Mesh, random: &mut Random) -> Option<usize> {
    let cut = (0..mesh.records.len()).filter(|&number| !mesh.records[number].is_leaf());
    random.pick(&cut.collect::<Vec<_>>())
}

fn vertex_moved_by_one(mesh: &mut Mesh, random: &mut Random) -> bool {
    let vertex = any_vertex(mesh, random);
    let coordinate = &mut mesh.vertices[vertex].place[random.below(3)];
    *coordinate = coordinate.wrapping_add([1, -1][random.below(2)]);
    true
}

fn base_vertex_moved(mesh: &mut Mesh, random: &mut Random) -> bool {
    let vertex = any_base_vertex(mesh, random);
    let coordinate = &mut mesh.vertices[vertex].place[random.below(3)];
    *coordinate = coordinate.wrapping_add([32, -32, 64, -64][random.below(4)]);
    true
}

fn coordinate_at_a_bound(mesh: &mut Mesh, random: &mut Random) -> bool {
    let vertex = any_base_vertex(mesh, random);
    let bounds = [
        32_736, -32_736, 32_735, -32_735, 32_737, -32_737, 32_767, -32_768, 16, -16, 31, 1,
    ];
    mesh.vertices[vertex].place[random.below(3)] = bounds[random.below(bounds.len())];
    true
}

fn two_at_one_place(mesh: &mut Mesh, random: &mut Random) -> bool {
    let (one, other) = (any_base_vertex(mesh, random), any_base_vertex(mesh, random));
    mesh.vertices[one].place = mesh.vertices[other].place;
    one != other
}

fn base_vertex_with_parent(mesh: &mut Mesh, random: &mut Random) -> bool {
    let vertex = any_base_vertex(mesh, random);
    let number = [0, 1, 65_534, random.number() as u16][random.below(4)];
    mesh.vertices[vertex].parents[random.below(2)] = number;
    true
}

fn parents_exchanged(mesh: &mut Mesh, random: &mut Random) -> bool {
    let Some(vertex) = any_made_vertex(mesh, random) else {
        return false;
    };
    mesh.vertices[vertex].parents.reverse();
    true
}

fn parents_of_two_exchanged(mesh: &mut Mesh, random: &mut Random) -> bool {
    let (Some(one), Some(other)) = (any_made_vertex(mesh, random), any_made_vertex(mesh, random))
    else {
        return false;
    };
    let parents = mesh.vertices[one].parents;
    mesh.vertices[one].parents = mesh.vertices[other].parents;
    mesh.vertices[other].parents = parents;
    one != other
}

fn parent_replaced(mesh: &mut Mesh, random: &mut Random) -> bool {
    let Some(vertex) = any_made_vertex(mesh, random) else {
        return false;
    };
    let numbers = [
        vertex as u16,
        vertex as u16 + 1,
        mesh.vertices.len() as u16,
        NO_NUMBER,
        any_vertex(mesh, random) as u16,
    ];
    mesh.vertices[vertex].parents[random.below(2)] = numbers[random.below(5)];
    // Half of the time it stands halfway again.
    if random.one_in(2) {
        let [p, q] = mesh.vertices[vertex].parents;
        if let (Some(p), Some(q)) = (mesh.place(p), mesh.place(q)) {
            mesh.vertices[vertex].place = [0, 1, 2].map(|axis| halfway(p[axis], q[axis]));
        }
    }
    true
}

/// It stands at its other parent's place, and so exactly halfway.
fn its_own_parent(mesh: &mut Mesh, random: &mut Random) -> bool {
    let Some(vertex) = any_made_vertex(mesh, random) else {
        return false;
    };
    let other = random.below(vertex);
    mesh.vertices[vertex] = Vertex {
        place: mesh.vertices[other].place,
        parents: [other as u16, vertex as u16],
    };
    true
}

fn pair_used_twice(mesh: &mut Mesh, random: &mut Random) -> bool {
    let Some(one) = any_made_vertex(mesh, random) else {
        return false;
    };
    if random.one_in(2) && mesh.vertices.len() < MOST_VERTICES {
        mesh.vertices.push(mesh.vertices[one]);
    } else if let Some(other) = any_made_vertex(mesh, random) {
        mesh.vertices[other] = mesh.vertices[one];
    }
    true
}

fn made_exchanged(mesh: &mut Mesh, random: &mut Random) -> bool {
    let (Some(one), Some(other)) = (any_made_vertex(mesh, random), any_made_vertex(mesh, random))
    else {
        return false;
    };
    mesh.vertices.swap(one, other);
    one != other
}

fn corner_replaced(mesh: &mut Mesh, random: &mut Random) -> bool {
    let record = any_record(mesh, random);
    let numbers = [
        any_vertex(mesh, random) as u16,
        any_base_vertex(mesh, random) as u16,
        mesh.base_vertices as u16,
        mesh.vertices.len() as u16,
        random.number() as u16,
    ];
    mesh.records[record].corners[random.below(4)] = numbers[random.below(5)];
    true
}

fn corners_exchanged(mesh: &mut Mesh, random: &mut Random) -> bool {
    let record = any_record(mesh, random);
    let [one, other] = EDGES[random.below(6)];
    mesh.records[record].corners.swap(one, other);
    true
}

fn equal_corners(mesh: &mut Mesh, random: &mut Random) -> bool {
    let record = any_record(mesh, random);
    let [one, other] = EDGES[random.below(6)];
    let corners = &mut mesh.records[record].corners;
    corners[one] = corners[other];
    true
}

/// The fourth corner of a parallelogram of three: sixfold volume 0, at a place on the grid.
fn flat_piece(mesh: &mut Mesh, random: &mut Random) -> bool {
    let mut corners = mesh.records[any_base_record(mesh, random)].corners;
    random.shuffle(&mut corners);
    let [a, b, c, moved] = corners;
    let (Some(a), Some(b), Some(c)) = (mesh.place(a), mesh.place(b), mesh.place(c)) else {
        return false;
    };
    let Some(vertex) = mesh.vertices.get_mut(usize::from(moved)) else {
        return false;
    };
    vertex.place = [0, 1, 2].map(|axis| a[axis].wrapping_add(b[axis]).wrapping_sub(c[axis]));
    true
}

/// Two corners exchanged, the marks along: only its hand is another.
fn in_the_other_hand(mesh: &mut Mesh, random: &mut Random) -> bool {
    let number = any_base_record(mesh, random);
    let Some(record) = turned(&mesh.records[number], EDGES[random.below(6)]) else {
        return false;
    };
    mesh.records[number] = record;
    true
}

/// And a mark of it, or of another base record, that is on no face.
fn in_the_other_hand_badly(mesh: &mut Mesh, random: &mut Random) -> bool {
    let turned = in_the_other_hand(mesh, random);
    let number = any_base_record(mesh, random);
    mesh.records[number].marks[random.below(4)] = 6 + random.below(250) as u8;
    turned
}

/// And a base record, most of the time another, whose corners are not four or lie in a plane.
fn in_the_other_hand_and_flat(mesh: &mut Mesh, random: &mut Random) -> bool {
    let turned = in_the_other_hand(mesh, random);
    let flat = any_base_record(mesh, random);
    let places = mesh.records[flat].corners.map(|corner| mesh.place(corner));
    let [Some(a), Some(b), Some(c), _] = places else {
        return false;
    };
    // The three corners themselves, and each vertex in their plane.
    let in_plane = |number: &u16| {
        let place = mesh.place(*number);
        place.is_some_and(|place| signed([a, b, c, place]) == 0)
    };
    let numbers: Vec<u16> = (0..mesh.base_vertices as u16).filter(in_plane).collect();
    let Some(corner) = random.pick(&numbers) else {
        return false;
    };
    mesh.records[flat].corners[3] = corner;
    turned
}

/// Seen in a mirror: every piece, cut or not, is what it was but for its hand.
fn all_in_the_other_hand(mesh: &mut Mesh, random: &mut Random) -> bool {
    let axis = random.below(3);
    for vertex in &mut mesh.vertices {
        vertex.place[axis] = vertex.place[axis].wrapping_neg();
    }
    true
}

fn flag_changed(mesh: &mut Mesh, random: &mut Random) -> bool {
    let record = any_record(mesh, random);
    mesh.records[record].flag = [0, 1, 1, 2, 255][random.below(5)];
    true
}

fn generation_changed(mesh: &mut Mesh, random: &mut Random) -> bool {
    let record = any_record(mesh, random);
    let generation = &mut mesh.records[record].generation;
    *generation = [
        generation.wrapping_add(1),
        generation.wrapping_sub(1),
        15,
        16,
    ][random.below(4)];
    true
}

fn marks_swapped(mesh: &mut Mesh, random: &mut Random) -> bool {
    let record = any_record(mesh, random);
    let [one, other] = EDGES[random.below(6)];
    mesh.records[record].marks.swap(one, other);
    true
}

fn mark_replaced(mesh: &mut Mesh, random: &mut Random) -> bool {
    let record = any_record(mesh, random);
    mesh.records[record].marks[random.below(4)] = [0, 1, 2, 3, 4, 5, 6, 255][random.below(8)];
    true
}

/// Rule 6 still holds: a face without the refinement edge gets another of its edges.
fn mark_replaced_on_its_face(mesh: &mut Mesh, random: &mut Random) -> bool {
    let number = any_record(mesh, random);
    let record = &mut mesh.records[number];
    let Some(faces) = slots(record.edge) else {
        return false;
    };
    let face = faces[random.below(2)];
    let codes: Vec<u8> = (0..6)
        .filter(|&code| on_face(code, face) && code != record.marks[face])
        .collect();
    record.marks[face] = codes[random.below(codes.len())];
    true
}

fn edge_replaced(mesh: &mut Mesh, random: &mut Random) -> bool {
    let record = any_record(mesh, random);
    mesh.records[record].edge = [0, 1, 2, 3, 4, 5, 6, 255][random.below(8)];
    true
}

/// The same piece with its corners in other slots; nothing if its codes are no piece's.
fn in_other_slots(record: &Record, random: &mut Random) -> Option<Record> {
    let mut order = [0, 1, 2, 3];
    random.shuffle(&mut order);
    Some(Record {
        first_child: NO_NUMBER,
        ..in_slots(record, order)?
    })
}

fn same_four_corners(mesh: &mut Mesh, random: &mut Random) -> bool {
    let record = mesh.records[any_base_record(mesh, random)];
    match in_other_slots(&record, random).and_then(|again| right_handed(mesh, again, random)) {
        Some(again) => insert_base_record(mesh, again),
        None => false,
    }
}

/// The piece, or the same in the other hand, whichever is right-handed; now and then as it is, so that 22 and
/// what its place breaks come together.
fn right_handed(mesh: &Mesh, record: Record, random: &mut Random) -> Option<Record> {
    match mesh.is_left_handed(&record) && !random.one_in(6) {
        true => turned(&record, EDGES[random.below(6)]),
        false => Some(record),
    }
}

/// Puts a record at the end of the base records; those beyond move up by one.
pub fn insert_base_record(mesh: &mut Mesh, record: Record) -> bool {
    if mesh.records.len() >= MOST_RECORDS {
        return false;
    }
    let at = mesh.base_records;
    for record in &mut mesh.records {
        if record.first_child != NO_NUMBER && usize::from(record.first_child) >= at {
            record.first_child += 1;
        }
    }
    mesh.records.insert(at, record);
    mesh.base_records += 1;
    true
}

/// Puts a vertex at the end of the base vertices, somewhere on the grid.
fn insert_base_vertex(mesh: &mut Mesh, random: &mut Random) -> Option<u16> {
    let place = [0; 3].map(|_: i16| 32 * (random.below(2_047) as i16 - 1_023));
    insert_base_vertex_at(mesh, place)
}

/// Puts a vertex at the end of the base vertices; made ones move up by one.
pub fn insert_base_vertex_at(mesh: &mut Mesh, place: Place) -> Option<u16> {
    if mesh.vertices.len() >= MOST_VERTICES {
        return None;
    }
    let at = mesh.base_vertices as u16;
    let move_up = |number: &mut u16| {
        if *number != NO_NUMBER && *number >= at {
            *number += 1;
        }
    };
    for vertex in &mut mesh.vertices {
        vertex.parents.iter_mut().for_each(move_up);
    }
    for record in &mut mesh.records {
        record.corners.iter_mut().for_each(move_up);
    }
    let parents = [NO_NUMBER; 2];
    mesh.vertices
        .insert(usize::from(at), Vertex { place, parents });
    mesh.base_vertices += 1;
    Some(at)
}

fn unused_base_vertex(mesh: &mut Mesh, random: &mut Random) -> bool {
    insert_base_vertex(mesh, random).is_some()
}

/// The places of a base record's corners; nothing if one of them is no vertex.
fn places_of(mesh: &Mesh, number: usize) -> Option<[Place; 4]> {
    let corners = mesh.records[number].corners;
    all_four(corners.map(|corner| mesh.place(corner)))
}

/// The vertex hangs, on an edge, in a face or inside, if the pieces that it is a corner of are still what they
/// were.
fn base_vertex_moved_into(mesh: &mut Mesh, random: &mut Random) -> bool {
    let number = any_base_record(mesh, random);
    let vertex = any_base_vertex(mesh, random);
    let corner = mesh.records[number].corners.contains(&(vertex as u16));
    let corners = places_of(mesh, number).filter(|_| !corner);
    let place = corners.and_then(|corners| {
        let mut kinds = HANGING;
        random.shuffle(&mut kinds);
        kinds
            .into_iter()
            .find_map(|kind| place_in(corners, kind, random))
    });
    if let Some(place) = place {
        mesh.vertices[vertex].place = place;
    }
    place.is_some()
}

fn corner_in_another(mesh: &mut Mesh, random: &mut Random) -> bool {
    let number = any_base_record(mesh, random);
    hang_a_piece(mesh, number, random)
}

/// Four base vertices more and a base record of them, one of its corners in the piece of that one; false if there
/// is no room.
pub fn hang_a_piece(mesh: &mut Mesh, number: usize, random: &mut Random) -> bool {
    if mesh.vertices.len() + 4 > MOST_VERTICES || mesh.records.len() >= MOST_RECORDS {
        return false;
    }
    let base = &mesh.vertices[..mesh.base_vertices];
    let free = |place: Place| !base.iter().any(|vertex| vertex.place == place);
    let places = places_of(mesh, number).and_then(|corners| hanging_piece(corners, free, random));
    let corners = places.map(|places| places.map(|place| insert_base_vertex_at(mesh, place)));
    let Some(corners) = corners.and_then(all_four) else {
        return false;
    };
    let mut piece = Record {
        corners,
        edge: 0,
        marks: [3, 1, 0, 0],
        flag: 0,
        generation: 0,
        first_child: NO_NUMBER,
    };
    // It shares no face: any marks will do.
    if mesh.is_left_handed(&piece) {
        piece.corners.swap(0, 1);
    }
    insert_base_record(mesh, piece)
}

/// A base record that is a leaf; those beyond move down by one. Its vertices may be left in none.
fn base_record_taken_out(mesh: &mut Mesh, random: &mut Random) -> bool {
    let at = any_base_record(mesh, random);
    if mesh.base_records < 2 || !mesh.records[at].is_leaf() {
        return false;
    }
    mesh.records.remove(at);
    mesh.base_records -= 1;
    for record in &mut mesh.records {
        if record.first_child != NO_NUMBER && usize::from(record.first_child) > at {
            record.first_child -= 1;
        }
    }
    true
}

/// A new base vertex and a base record on a face that is there, marked as the face is.
fn piece_set_on_a_face(mesh: &mut Mesh, random: &mut Random) -> bool {
    let number = any_base_record(mesh, random);
    set_on_face(mesh, number, random.below(4), random)
}

/// The same face once or twice more: "a face in three base records".
fn pieces_set_on_a_face(mesh: &mut Mesh, random: &mut Random) -> bool {
    let (number, face) = (any_base_record(mesh, random), random.below(4));
    (0..2).all(|_| set_on_face(mesh, number, face, random))
}

fn set_on_face(mesh: &mut Mesh, number: usize, face: usize, random: &mut Random) -> bool {
    let Some(mark) = ends(&mesh.records[number], mesh.records[number].marks[face]) else {
        return false;
    };
    if mesh.records.len() >= MOST_RECORDS {
        return false;
    }
    let Some(apex) = insert_base_vertex(mesh, random) else {
        return false;
    };
    let [a, b, c] = face_set(mesh.records[number].corners, face);
    let corners = [a, b, c, apex];
    let edge = (0..6).zip(EDGES).find(|(_, [one, other])| {
        let there: Pair = pair(corners[*one], corners[*other]);
        there == mark
    });
    // The face's mark may be no edge of it in a mesh that is damaged already.
    let Some((edge, _)) = edge.filter(|(edge, _)| on_face(*edge, 3)) else {
        return false;
    };
    let marks = [0, 1, 2, 3].map(|face| match on_face(edge, face) {
        true => edge,
        false => (0..6).find(|&code| on_face(code, face)).unwrap_or(0),
    });
    let piece = Record {
        corners,
        edge,
        marks,
        flag: 0,
        generation: 0,
        first_child: NO_NUMBER,
    };
    match right_handed(mesh, piece, random) {
        Some(piece) => insert_base_record(mesh, piece),
        None => false,
    }
}

fn children_exchanged(mesh: &mut Mesh, random: &mut Random) -> bool {
    let Some(number) = any_cut_record(mesh, random) else {
        return false;
    };
    let first = usize::from(mesh.records[number].first_child);
    if first + 1 >= mesh.records.len() {
        return false;
    }
    mesh.records.swap(first, first + 1);
    true
}

fn children_of_two_exchanged(mesh: &mut Mesh, random: &mut Random) -> bool {
    let (Some(one), Some(other)) = (any_cut_record(mesh, random), any_cut_record(mesh, random))
    else {
        return false;
    };
    let first = mesh.records[one].first_child;
    mesh.records[one].first_child = mesh.records[other].first_child;
    mesh.records[other].first_child = first;
    one != other
}

fn children_of_another(mesh: &mut Mesh, random: &mut Random) -> bool {
    let Some(one) = any_cut_record(mesh, random) else {
        return false;
    };
    let other = any_record(mesh, random);
    mesh.records[other].first_child = mesh.records[one].first_child;
    one != other
}

fn first_child_replaced(mesh: &mut Mesh, random: &mut Random) -> bool {
    let number = any_record(mesh, random);
    let all = mesh.records.len() as u16;
    let first = mesh.records[number].first_child;
    let numbers = [
        first.wrapping_add(1),
        first.wrapping_sub(1),
        number as u16,
        0,
        all - 1,
        all,
        65_534,
        random.below(usize::from(all)) as u16,
    ];
    mesh.records[number].first_child = numbers[random.below(8)];
    true
}

fn cut_made_leaf(mesh: &mut Mesh, random: &mut Random) -> bool {
    let Some(number) = any_cut_record(mesh, random) else {
        return false;
    };
    mesh.records[number].first_child = NO_NUMBER;
    true
}

fn records_exchanged(mesh: &mut Mesh, random: &mut Random) -> bool {
    let (one, other) = (any_record(mesh, random), any_record(mesh, random));
    mesh.records.swap(one, other);
    one != other
}

fn record_copied(mesh: &mut Mesh, random: &mut Random) -> bool {
    let (one, other) = (any_record(mesh, random), any_record(mesh, random));
    mesh.records[one] = mesh.records[other];
    one != other
}

fn base_count_moved(mesh: &mut Mesh, random: &mut Random) -> bool {
    let count = match random.one_in(2) {
        true => &mut mesh.base_vertices,
        false => &mut mesh.base_records,
    };
    *count = match random.one_in(2) {
        true => *count + 1,
        false => *count - 1,
    };
    true
}

fn record_appended(mesh: &mut Mesh, random: &mut Random) -> bool {
    let record = mesh.records[any_record(mesh, random)];
    mesh.records.push(Record {
        first_child: NO_NUMBER,
        ..record
    });
    true
}

/// A made vertex halfway between two others, perhaps on an edge of a leaf.
fn vertex_appended(mesh: &mut Mesh, random: &mut Random) -> bool {
    let record = mesh.records[any_record(mesh, random)];
    let Some((p, q)) = ends(&record, random.below(6) as u8) else {
        return false;
    };
    let (Some(one), Some(other)) = (mesh.place(p), mesh.place(q)) else {
        return false;
    };
    mesh.vertices.push(Vertex {
        place: [0, 1, 2].map(|axis| halfway(one[axis], other[axis])),
        parents: [p, q],
    });
    true
}

fn last_records_taken(mesh: &mut Mesh, random: &mut Random) -> bool {
    let taken = 1 + random.below(2);
    mesh.records
        .truncate(mesh.records.len().saturating_sub(taken));
    true
}

fn last_vertex_taken(mesh: &mut Mesh, _: &mut Random) -> bool {
    mesh.vertices.pop();
    true
}

fn cut_without_closing(mesh: &mut Mesh, random: &mut Random) -> bool {
    let number = random.below(mesh.records.len());
    cut_alone(mesh, number)
}

fn several_cut_without_closing(mesh: &mut Mesh, random: &mut Random) -> bool {
    let cuts = 2 + random.below(6);
    (0..cuts).fold(false, |any, _| cut_without_closing(mesh, random) || any)
}

/// Damages a copy of the mesh, mostly once. The names of the damage come with it.
pub fn damaged(mesh: &Mesh, random: &mut Random) -> (String, Mesh) {
    let mut copy = mesh.clone();
    let mut names = Vec::new();
    let wanted = [1, 1, 1, 1, 2, 3][random.below(6)];
    while names.len() < wanted {
        // Later damage needs something to be left.
        if copy.base_vertices == 0
            || copy.base_records == 0
            || copy.base_vertices > copy.vertices.len()
            || copy.base_records > copy.records.len()
        {
            break;
        }
        let (name, kind) = KINDS[random.below(KINDS.len())];
        if kind(&mut copy, random) {
            names.push(name);
        }
    }
    (names.join(", "), copy)
}
