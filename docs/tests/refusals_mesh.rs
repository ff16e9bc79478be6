//! Refusals 1 to 10, 22 and 23: for each clause inputs that earn it, and inputs just short of it that
//! don't.

mod common;
use common::*;
use second::{build_vec, check};

/// A copy of the bytes with some of them replaced.
fn poked(bytes: &[u8], at: usize, new: &[u8]) -> Vec<u8> {
    let mut bytes = bytes.to_vec();
    bytes[at..at + new.len()].copy_from_slice(new);
    bytes
}

/// A changed copy of a stored mesh, as bytes.
fn changed(stored: &Stored, change: impl FnOnce(&mut Stored)) -> Vec<u8> {
    let mut stored = stored.clone();
    change(&mut stored);
    stored.bytes()
}

fn k_stored() -> Stored {
    decode(&k())
}

/// K after select 0.
fn k1() -> Stored {
    decode(&refined(&k(), &[0]))
}

/// K after select 0 and select 1 and 2: records 0 to 2 are cut, 3 to 6 are leaves.
fn k2() -> Stored {
    decode(&refined(&k1().bytes(), &[1, 2]))
}

#[test]
fn refusal_1() {
    let mesh = k();
    mesh_refused("empty", &[], 1);
    mesh_refused("19 bytes", &mesh[..19], 1);
    mesh_refused("a header alone with counts", &mesh[..20], 1);
    mesh_refused("one byte short", &mesh[..76], 1);
    mesh_refused("one byte long", &[&mesh[..], &[0]].concat(), 1);
    mesh_refused("all vertices 5", &poked(&mesh, 13, &[5]), 1);
    mesh_refused("all records 2", &poked(&mesh, 17, &[2]), 1);
    mesh_refused("all records 257", &poked(&mesh, 18, &[1]), 1);
    mesh_refused("all vertices 260", &poked(&mesh, 14, &[1]), 1);
    mesh_refused(
        "wrong mark and wrong length",
        &poked(&mesh, 0, b"X")[..76],
        1,
    );
    mesh_refused("text", b"this is no mesh at all, only some words", 1);
    mesh_refused("a selection", &choose(&mesh, &[0]), 1);
    // Not earned: the base counts don't count for the length, and 20 bytes with no counts fit.
    mesh_accepted("K", &mesh);
    mesh_refused("base vertices 3", &poked(&mesh, 11, &[3]), 3);
    mesh_refused("20 zeros", &[0; 20], 2);
    mesh_refused(
        "a header alone without counts",
        &poked(&mesh[..20], 11, &[0; 8]),
        3,
    );
}

#[test]
fn refusal_2() {
    let mesh = k();
    for at in 0..3 {
        mesh_refused("mark", &poked(&mesh, at, b"t"), 2);
    }
    mesh_refused("a selection's mark", &poked(&mesh, 0, b"TMS"), 2);
    mesh_refused("version 0", &poked(&mesh, 3, &[0, 0]), 2);
    mesh_refused("version 2", &poked(&mesh, 3, &[2, 0]), 2);
    mesh_refused("version 257", &poked(&mesh, 3, &[1, 1]), 2);
    mesh_refused("version 256", &poked(&mesh, 3, &[0, 1]), 2);
    mesh_refused("byte 19 is 1", &poked(&mesh, 19, &[1]), 2);
    mesh_refused("byte 19 is 255", &poked(&mesh, 19, &[255]), 2);
    // Not earned: job and round may be anything.
    mesh_accepted("job and round", &poked(&mesh, 5, &[255; 6]));
}

#[test]
fn refusal_3() {
    let sized = |base_vertices: u16, vertices: u16, base_records: u16, records: u16| {
        let mut bytes = k()[..20].to_vec();
        for (at, count) in [
            (11, base_vertices),
            (13, vertices),
            (15, base_records),
            (17, records),
        ] {
            bytes[at..at + 2].copy_from_slice(&count.to_le_bytes());
        }
        bytes.resize(20 + 10 * vertices as usize + 17 * records as usize, 0);
        bytes
    };
    mesh_refused("1,025 vertices", &sized(4, 1_025, 1, 1), 3);
    mesh_refused("7,000 vertices", &sized(4, 7_000, 1, 1), 3);
    mesh_refused("65,535 vertices", &sized(4, 65_535, 1, 1), 3);
    mesh_refused("65,535 of each", &sized(65_535, 65_535, 65_535, 65_535), 3);
    mesh_refused("3,073 records", &sized(4, 4, 1, 3_073), 3);
    mesh_refused("65,535 records", &sized(4, 4, 1, 65_535), 3);
    mesh_refused("3 base vertices", &sized(3, 4, 1, 1), 3);
    mesh_refused("no base vertex", &sized(0, 4, 1, 1), 3);
    mesh_refused("3 vertices", &sized(3, 3, 1, 1), 3);
    mesh_refused("no base record", &sized(4, 4, 0, 1), 3);
    mesh_refused("no record", &sized(4, 4, 0, 0), 3);
    mesh_refused("nothing", &sized(0, 0, 0, 0), 3);
    mesh_refused("base vertices above all", &sized(5, 4, 1, 1), 3);
    mesh_refused("base records above all", &sized(4, 4, 2, 1), 3);
    // Not earned: the least counts, and the greatest of both at once.
    mesh_refused("least counts", &sized(4, 4, 1, 1), 4);
    mesh_refused("greatest counts", &sized(4, 1_024, 1, 3_072), 4);
    mesh_accepted("K", &k());
    let (coordinates, corners) = crowded(1_024, 3_072, 5);
    let largest = build_vec(1, &coordinates, &corners).unwrap();
    assert_eq!(largest.len(), FULL);
    mesh_accepted("the largest mesh", &largest);
    assert_eq!(check(&largest).leaves, 3_072);
    assert_eq!(vertices_in_pieces(&decode(&largest)), []);
    assert!(second::list(&largest).starts_with(b"job 1 round 0 vertices 1024 records 3072 "));
}

#[test]
fn refusal_4_base() {
    let stored = k_stored();
    for (axis, bad) in [
        (0, 16),
        (1, -32_768),
        (2, 1),
        (0, 32_767),
        (1, 32_752),
        (2, -31),
    ] {
        let mesh = changed(&stored, |s| s.vertices[1].place[axis] = bad);
        mesh_refused("off the grid", &mesh, 4);
    }
    for parents in [[0, NONE], [NONE, 0], [0, 1], [65_534, NONE], [NONE, 65_534]] {
        let mesh = changed(&stored, |s| s.vertices[2].parents = parents);
        mesh_refused("base parent not 65,535", &mesh, 4);
    }
    let mesh = changed(&stored, |s| s.vertices[3].place = s.vertices[0].place);
    mesh_refused("two base vertices at one place", &mesh, 4);
    // At one place, though one of the two is in no record (8) and nothing else is wrong.
    let mesh = changed(&stored, |s| {
        s.base_vertices = 5;
        s.vertices.push(s.vertices[2]);
    });
    mesh_refused("an unused base vertex at another's place", &mesh, 4);
    // On the grid; below the face of the other three the piece is left-handed.
    for (good, number) in [(32_736, 0), (32, 0), (-32, 22), (-32_736, 22)] {
        let mesh = changed(&stored, |s| s.vertices[3].place[2] = good);
        assert_eq!(check(&mesh).number, number, "{good}");
    }
}

#[test]
fn refusal_4_made() {
    let stored = k1();
    let parents = |p, q| changed(&stored, |s| s.vertices[4].parents = [p, q]);
    mesh_refused("p above q", &parents(3, 0), 4);
    mesh_refused("p equal to q", &parents(3, 3), 4);
    mesh_refused("q its own number", &parents(0, 4), 4);
    mesh_refused("q above its own number", &parents(0, 5), 4);
    mesh_refused("parents of a base vertex", &parents(NONE, NONE), 4);
    mesh_refused("q 65,535", &parents(0, NONE), 4);
    mesh_refused("other parents, so not halfway", &parents(0, 2), 4);
    for axis in 0..3 {
        for by in [-1, 1, 32] {
            let mesh = changed(&stored, |s| s.vertices[4].place[axis] += by);
            mesh_refused("not exactly halfway", &mesh, 4);
        }
    }
    // An odd sum has no place that is exactly halfway, neither below nor above.
    let small: Vec<i16> = K_COORDINATES.iter().map(|x| x / 2).collect();
    let fifteen = decode(&deepen(build_vec(7, &small, &[0, 1, 2, 3]).unwrap(), 15));
    let split = split_edges(&fifteen);
    // Vertices whose edge to the base vertex 3, all even, has no midpoint yet.
    let free: Vec<u16> = (4..fifteen.vertices.len() as u16)
        .filter(|&n| !split.contains_key(&(3, n)))
        .collect();
    let odd = |n: &&u16| {
        fifteen.vertices[**n as usize]
            .place
            .iter()
            .any(|x| x % 2 != 0)
    };
    let halved = |q: u16, up: i16| {
        changed(&fifteen, |s| {
            let place = s.vertices[q as usize]
                .place
                .map(|x| (32 + x + up).div_euclid(2));
            s.vertices.push(Vertex {
                place,
                parents: [3, q],
            });
        })
    };
    let q = *free.iter().find(odd).unwrap();
    mesh_refused("an odd sum halved down", &halved(q, 0), 4);
    mesh_refused("an odd sum halved up", &halved(q, 1), 4);
    let q = *free.iter().find(|n| !odd(n)).unwrap();
    mesh_refused("an even sum, but no cut", &halved(q, 0), 9);
    let mesh = changed(&stored, |s| s.vertices.push(s.vertices[4]));
    mesh_refused("a parent pair used twice", &mesh, 4);
    let cube = decode(&refined(&cube(), &[0]));
    let mesh = changed(&cube, |s| s.vertices.push(s.vertices[8]));
    mesh_refused("a parent pair used twice in the cube", &mesh, 4);
    mesh_accepted("K after select 0", &stored.bytes());
}

#[test]
fn not_4_a_made_vertex_at_another_vertexs_place() {
    // Two pieces that overlap, no vertex in one another: 0-1 and 4-5 cross in their midpoints.
    let places = [
        [-64, 0, 0],
        [64, 0, 0],
        [0, 32, 32],
        [0, -32, 32],
        [0, 0, -64],
        [0, 0, 64],
        [32, 32, 0],
        [32, -32, 0],
        [0, 0, 0],
    ];
    let pieces = [[0, 1, 2, 3], [4, 5, 7, 6], [8, 1, 6, 2]];
    let uncut = of_type_o(&places[..8], &pieces[..2]);
    let mut stored = uncut.clone();
    mesh_accepted("uncut", &stored.bytes());
    cut_one(&mut stored, 0, Way::Right);
    assert_eq!(stored.vertices[8].place, [0, 0, 0]);
    // By place it lies on 4-5; made vertices are judged by their parents alone.
    mesh_accepted("one cut", &stored.bytes());
    cut_one(&mut stored, 1, Way::Right);
    assert_eq!(stored.vertices[9].place, [0, 0, 0]);
    mesh_accepted("two made vertices at one place", &stored.bytes());
    // The same by refine.
    let result = refined(&uncut.bytes(), &[0, 1]);
    assert_eq!(decode(&result).vertices, stored.vertices);
    // A base vertex that stands there lies on both edges, cut or not.
    let mut stored = of_type_o(&places, &pieces);
    mesh_refused("a base vertex on two edges", &stored.bytes(), 23);
    cut_one(&mut stored, 0, Way::Right);
    cut_one(&mut stored, 1, Way::Right);
    assert_eq!([8, 9, 10].map(|n| stored.vertices[n].place), [[0; 3]; 3]);
    mesh_refused(
        "two made vertices and a base vertex at one place",
        &stored.bytes(),
        23,
    );
}

#[test]
fn refusal_5() {
    let stored = k_stored();
    for (slot, other) in [(0, 1), (0, 2), (0, 3), (1, 2), (1, 3), (2, 3)] {
        let mesh = changed(&stored, |s| s.records[0].corners[slot] = other);
        mesh_refused("equal corners", &mesh, 5);
    }
    for corner in [4, 5, 1_023, 1_024, 65_535] {
        let mesh = changed(&stored, |s| s.records[0].corners[2] = corner);
        mesh_refused("a corner not in the base", &mesh, 5);
    }
    let mesh = changed(&k1(), |s| s.records[0].corners[1] = 4);
    mesh_refused("a made vertex as corner of a base record", &mesh, 5);
    let mesh = changed(&stored, |s| s.vertices[3].place = [0, 64, 0]);
    mesh_refused("sixfold volume 0: in a plane", &mesh, 5);
    let mesh = changed(&stored, |s| {
        for (n, v) in s.vertices.iter_mut().enumerate() {
            v.place = [32 * n as i16; 3];
        }
    });
    mesh_refused("sixfold volume 0: on a line", &mesh, 5);
    for generation in [1, 15, 16, 255] {
        let mesh = changed(&stored, |s| s.records[0].generation = generation);
        mesh_refused("generation not 0", &mesh, 5);
    }
    for flag in [1, 2, 255] {
        let mesh = changed(&stored, |s| s.records[0].flag = flag);
        mesh_refused("flag not 0", &mesh, 5);
    }
    let mesh = changed(&stored, |s| {
        // Type P: even there a base record's flag is 0.
        s.records[0].edge = 0;
        s.records[0].marks = [3, 1, 0, 0];
        s.records[0].flag = 1;
    });
    mesh_refused("flag not 0 in type P", &mesh, 5);
    let mesh = changed(&decode(&cube()), |s| s.records[5].flag = 1);
    mesh_refused("the last base record", &mesh, 5);
    // Not earned: the flattest piece on the grid, and corners in any order (marked alike).
    let mesh = changed(&stored, |s| s.vertices[3].place = [64, 64, 32]);
    mesh_accepted("flat", &mesh);
    assert_eq!(check(&mesh).sixfold, 64 * 64 * 32);
    mesh_accepted(
        "another order",
        &build_vec(7, &K_COORDINATES, &[2, 0, 3, 1]).unwrap(),
    );
}

/// Each base record of the cube in the other hand, by each exchange of two corners.
#[test]
fn refusal_22() {
    let stored = decode(&cube());
    for n in 0..6 {
        for (one, other) in CODES {
            // The marks along: nothing else is wrong.
            let mesh = changed(&stored, |s| {
                s.records[n] = turned(&s.records[n], one, other)
            });
            mesh_refused("a left-handed base record", &mesh, 22);
            // The corners alone: most marks are wrong too.
            let mesh = changed(&stored, |s| s.records[n].corners.swap(one, other));
            mesh_refused("two corners exchanged", &mesh, 22);
            // Two exchanges make it right again: another order of the same piece.
            let mesh = changed(&stored, |s| {
                s.records[n] = turned(&turned(&s.records[n], one, other), 0, 1)
            });
            mesh_accepted("two exchanges", &mesh);
            assert_eq!(check(&mesh), check(&cube()));
        }
    }
    // All of them, as in a mesh that is seen in a mirror.
    let mirrored = changed(&stored, |s| {
        for v in &mut s.vertices {
            v.place[1] = -v.place[1];
        }
    });
    mesh_refused("the mirrored cube", &mirrored, 22);
    // The largest value and the smallest, of either sign.
    let sized = |x: i16, y: i16, z: i16| {
        changed(&k_stored(), |s| {
            let places = [[-x, -y, -z], [x, -y, -z], [x, y, -z], [x, y, z]];
            for (v, place) in s.vertices.iter_mut().zip(places) {
                v.place = place;
            }
        })
    };
    for [x, y, z] in [[32_736; 3], [32; 3], [32, 32, 32_736], [32_736, 32, 32]] {
        mesh_accepted("right-handed", &sized(x, y, z));
        mesh_refused("left-handed", &sized(-x, y, z), 22);
        mesh_refused("left-handed", &sized(x, y, -z), 22);
        mesh_refused("left-handed", &sized(-x, -y, -z), 22);
    }
}

/// "Tried after 5": a flat record anywhere is 5, also behind a negative one.
#[test]
fn refusal_22_after_5() {
    let stored = decode(&cube());
    for left in 0..6 {
        for bad in (0..6).filter(|&bad| bad != left) {
            let with = |change: &dyn Fn(&mut Record)| {
                changed(&stored, |s| {
                    s.records[left] = turned(&s.records[left], 2, 3);
                    change(&mut s.records[bad]);
                })
            };
            // The corners 0 1 3 2 lie in a plane.
            let flat = with(&|r| r.corners = [0, 1, 3, 2]);
            mesh_refused("a flat record too", &flat, 5);
            mesh_refused(
                "equal corners too",
                &with(&|r| r.corners[1] = r.corners[0]),
                5,
            );
            mesh_refused(
                "a corner not in the base too",
                &with(&|r| r.corners[2] = 8),
                5,
            );
            mesh_refused("a flag too", &with(&|r| r.flag = 1), 5);
            mesh_refused("a generation too", &with(&|r| r.generation = 1), 5);
        }
    }
    // The same record: its value is negative, and its flag is not 0.
    let mesh = changed(&stored, |s| {
        s.records[3] = turned(&s.records[3], 0, 1);
        s.records[3].flag = 1;
    });
    mesh_refused("one record", &mesh, 5);
}

/// "Tried ... before 6", and so before 7, 8, 9 and 10.
#[test]
fn refusal_22_before_6() {
    let stored = decode(&cube());
    for left in 0..6 {
        for bad in (0..6).filter(|&bad| bad != left) {
            let mesh = changed(&stored, |s| {
                s.records[left] = turned(&s.records[left], 1, 3);
                s.records[bad].marks[2] = 6;
            });
            mesh_refused("22 and 6", &mesh, 22);
            let mesh = changed(&stored, |s| {
                s.records[bad] = s.records[(bad + 1) % 6];
                s.records[left] = turned(&stored.records[left], 0, 2);
            });
            mesh_refused("22 and 7", &mesh, 22);
        }
        let left_in = |stored: &Stored, change: &dyn Fn(&mut Stored)| {
            changed(stored, |s| {
                s.records[left] = turned(&s.records[left], 2, 3);
                change(s);
            })
        };
        let mesh = left_in(&stored, &|s| {
            s.vertices.push(Vertex {
                place: [0, 0, 640],
                parents: [NONE; 2],
            });
            s.base_vertices += 1;
        });
        mesh_refused("22 and 8", &mesh, 22);
        // Cut: the children are no longer what cutting gives.
        let cut = decode(&refined(&cube(), &[0]));
        mesh_refused("22 and 9", &left_in(&cut, &|_| {}), 22);
        let mut hanging = stored.clone();
        cut_one(&mut hanging, (left as u16 + 1) % 6, Way::Right);
        mesh_refused("22 and 10", &left_in(&hanging, &|_| {}), 22);
    }
}

/// "Base records only": a later record in the other hand isn't what cutting gives.
#[test]
fn not_22_beyond_the_base() {
    let stored = k2();
    assert_eq!(right_handed_by_halves(&stored), 7);
    for n in 1..7 {
        for (one, other) in CODES {
            let mesh = changed(&stored, |s| {
                s.records[n] = turned(&s.records[n], one, other)
            });
            mesh_refused("a child in the other hand", &mesh, 9);
        }
    }
    // The base record and all below it, cut as they stand: the base record alone earns the number.
    for (one, other) in CODES {
        let mut left = k_stored();
        left.records[0] = turned(&left.records[0], one, other);
        cut_one(&mut left, 0, Way::Right);
        cut_one(&mut left, 1, Way::Right);
        cut_one(&mut left, 2, Way::Right);
        let values: Vec<i64> = (0..7).map(|n| left.signed(n)).collect();
        assert_eq!(values[0], -262_144);
        assert_eq!(values[1..3], [-131_072; 2]);
        assert_eq!(values[3..], [-65_536; 4]);
        mesh_refused("cut, and left-handed throughout", &left.bytes(), 22);
    }
}

#[test]
fn refusal_6() {
    let stored = k_stored();
    for code in [6, 7, 128, 255] {
        let mesh = changed(&stored, |s| s.records[0].edge = code);
        mesh_refused("refinement edge above 5", &mesh, 6);
        for face in 0..4 {
            let mesh = changed(&stored, |s| s.records[0].marks[face] = code);
            mesh_refused("mark above 5", &mesh, 6);
        }
    }
    for code in 0..6u8 {
        for face in 0..4 {
            let (i, j) = CODES[code as usize];
            let on_face = i != face && j != face;
            let mesh = changed(&stored, |s| s.records[0].marks[face] = code);
            // Faces 1 and 2 contain the refinement edge 03.
            if !on_face {
                mesh_refused("a mark not on its face", &mesh, 6);
            } else if [1, 2].contains(&face) && code != 2 {
                mesh_refused("a refinement face marked otherwise", &mesh, 6);
            } else {
                mesh_accepted("a mark that may be", &mesh);
            }
        }
    }
    for edge in [0, 1, 3, 4, 5] {
        let mesh = changed(&stored, |s| s.records[0].edge = edge);
        mesh_refused("another refinement edge", &mesh, 6);
    }
    let mesh = changed(&decode(&cube()), |s| s.records[5].marks[0] = 9);
    mesh_refused("the last base record", &mesh, 6);
}

/// Two pieces on the face 0 1 2, with vertices 3 and 4 opposite, marked apart from that face.
fn two_on_a_face(second_corners: [u16; 4], marks: (u8, u8)) -> Stored {
    let places = [[0, 0, 0], [64, 0, 0], [0, 64, 0], [0, 0, 64], [32, 32, -64]];
    marked(
        &places,
        &[
            ([0, 1, 2, 3], 2, [4, 2, 2, marks.0]),
            (second_corners, 2, [4, 2, 2, marks.1]),
        ],
    )
}

#[test]
fn refusal_7() {
    let places = [
        [0, 0, 0],
        [64, 0, 0],
        [0, 64, 0],
        [0, 0, 64],
        [0, 32, -64],
        [32, 0, -64],
    ];
    let coordinates = places.concat();
    // Three on the face 0 1 2; its two sides don't matter.
    let three = [0, 1, 2, 3, 0, 1, 2, 4, 2, 5, 1, 0];
    build_refused("a face in three", &coordinates, &three, 7);
    let mut stored = decode(&build_vec(7, &coordinates[..15], &three[..8]).unwrap());
    mesh_accepted("a face in two", &stored.bytes());
    // Stored, the third piece marked as build marks it where the face is in one piece only.
    let alone = decode(&build_vec(7, &coordinates, &[2, 5, 1, 0, 3, 4, 5, 0]).unwrap());
    stored.vertices.push(alone.vertices[5]);
    stored.base_vertices = 6;
    stored.base_records = 3;
    stored.records.push(alone.records[0]);
    mesh_refused("a face in three, stored", &stored.bytes(), 7);
    let mut four = stored.clone();
    four.records.push(Record {
        corners: [1, 0, 2, 5],
        ..alone.records[0]
    });
    four.base_records = 4;
    mesh_refused("a face in four or the same four corners", &four.bytes(), 7);

    let twice = changed(&k_stored(), |s| {
        s.base_records = 2;
        s.records.push(s.records[0]);
    });
    mesh_refused("the same record twice", &twice, 7);
    for order in [[0, 1, 2, 3], [3, 2, 1, 0], [1, 0, 2, 3]] {
        let corners = [&[0, 1, 2, 3], &order[..]].concat();
        build_refused("the same four corners", &K_COORDINATES, &corners, 7);
    }
    let other_order = changed(&k_stored(), |s| {
        s.base_records = 2;
        s.records.push(Record {
            corners: [3, 2, 1, 0],
            ..s.records[0]
        });
    });
    mesh_refused("the same four corners in another order", &other_order, 7);

    // The shared face 0 1 2 is face 3 of both; its mark may be 01, 02 or 12.
    for slots in [[1, 0, 2, 4], [0, 2, 1, 4], [2, 1, 0, 4]] {
        for one in [0, 1, 3] {
            for other in [0, 1, 3] {
                let stored = two_on_a_face(slots, (one, other));
                let [first, second] = [0, 1].map(|n| {
                    let record = &stored.records[n];
                    ends(record, record.marks[3])
                });
                let mesh = stored.bytes();
                if first == second {
                    mesh_accepted("a shared face with one mark", &mesh);
                } else {
                    mesh_refused("a shared face with two marks", &mesh, 7);
                }
            }
        }
    }
    // By vertex numbers, not by codes: in the slots 1 0 2 the edge 02 has code 3, and 12 code 1.
    let slots = [1, 0, 2, 4];
    mesh_accepted(
        "codes 1 and 3, one edge",
        &two_on_a_face(slots, (1, 3)).bytes(),
    );
    mesh_accepted(
        "codes 3 and 1, one edge",
        &two_on_a_face(slots, (3, 1)).bytes(),
    );
    mesh_refused(
        "code 1 twice, two edges",
        &two_on_a_face(slots, (1, 1)).bytes(),
        7,
    );
    mesh_refused(
        "code 3 twice, two edges",
        &two_on_a_face(slots, (3, 3)).bytes(),
        7,
    );
    // Three corners in common in two pairs of records, but no face in three.
    mesh_accepted("the cube", &cube());
}

#[test]
fn refusal_8() {
    let mesh = changed(&k_stored(), |s| {
        s.base_vertices = 5;
        s.vertices.push(Vertex {
            place: [0, 0, 64],
            parents: [NONE; 2],
        });
    });
    mesh_refused("a fifth base vertex", &mesh, 8);
    let mesh = changed(&decode(&cube()), |s| {
        // Without the two records of vertex 4.
        s.records.truncate(4);
        s.base_records = 4;
    });
    mesh_refused("the cube without two pieces", &mesh, 8);
    let mesh = changed(&k_stored(), |s| {
        s.base_vertices = 1_024;
        s.vertices = (0..1_024u16)
            .map(|n| Vertex {
                place: grid_place(n),
                parents: [NONE; 2],
            })
            .collect();
        s.records[0].corners = [0, 1, 11, 110];
    });
    mesh_refused("1,020 unused vertices", &mesh, 8);
    // Not earned by a vertex in one record alone.
    mesh_accepted("K", &k());
    mesh_accepted("the cube", &cube());
}

/// A piece in the corner of a cube: what lies in it has no coordinate below 0, and a sum of 128 at most.
const IN_A_CORNER: [[i16; 3]; 4] = [[0, 0, 0], [128, 0, 0], [0, 128, 0], [0, 0, 128]];

/// Far off below 0 along an axis, or, for axis 3, where all coordinates are great.
fn far_off(axis: usize) -> [[i16; 3]; 3] {
    let mut places = [[640, 640, 576], [576, 640, 640], [640, 576, 640]];
    if axis < 3 {
        for (n, place) in places.iter_mut().enumerate() {
            *place = [0; 3];
            place[n] = 64;
            place[axis] = -640;
        }
        places[axis][(axis + 1) % 3] = -64;
    }
    places
}

/// The piece above and one that has its first corner, vertex 4, at the place and the others far off.
fn spike(place: [i16; 3], axis: usize) -> Stored {
    let places = [&IN_A_CORNER[..], &[place], &far_off(axis)].concat();
    of_type_o(&places, &[[0, 1, 2, 3], [4, 5, 6, 7]])
}

#[test]
fn refusal_23() {
    for (name, place) in [
        ("in the middle of edge 0-1", [64, 0, 0]),
        ("in the middle of edge 0-2", [0, 64, 0]),
        ("in the middle of edge 0-3", [0, 0, 64]),
        ("in the middle of edge 1-2", [64, 64, 0]),
        ("in the middle of edge 1-3", [64, 0, 64]),
        ("in the middle of edge 2-3", [0, 64, 64]),
        ("on edge 0-1, next to 0", [32, 0, 0]),
        ("on edge 2-3, next to 3", [0, 32, 96]),
        ("in face 0", [32, 32, 64]),
        ("in face 1", [0, 32, 32]),
        ("in face 2", [64, 0, 32]),
        ("in face 3", [32, 64, 0]),
        ("strictly inside", [32, 32, 32]),
        ("one step off edge 0-1, in a face", [64, 32, 0]),
        ("one step off edge 0-1, in the other", [64, 0, 32]),
        ("one step off edge 1-2, in a face", [32, 64, 0]),
        ("one step off edge 2-3, in a face", [0, 32, 64]),
    ] {
        for axis in 0..4 {
            let stored = spike(place, axis);
            assert!(vertices_in_pieces(&stored).contains(&(4, 0)), "{name}");
            mesh_refused(name, &stored.bytes(), 23);
        }
    }
    for (name, place, axis) in [
        ("one step off edge 0-1", [64, -32, 0], 1),
        ("one step off edge 0-1", [64, 0, -32], 2),
        ("one step off edge 0-1", [64, -32, -32], 2),
        ("one step off edge 1-2", [64, 96, 0], 3),
        ("one step off edge 1-2", [96, 64, 0], 3),
        ("one step off edge 1-2", [64, 64, 32], 3),
        ("one step off edge 1-2", [64, 64, -32], 2),
        ("one step off face 0", [32, 32, 96], 3),
        ("one step off face 1", [-32, 32, 32], 0),
        ("one step off face 2", [32, -32, 32], 1),
        ("one step off face 3", [32, 32, -32], 2),
        ("one step beyond corner 0", [-32, 0, 0], 0),
        ("one step beyond corner 1", [160, 0, 0], 3),
        ("on the line of edge 0-2", [0, -64, 0], 1),
        ("on the line of edge 2-3", [0, 192, -64], 2),
        ("in the plane of face 0", [-32, 64, 96], 0),
        ("in the plane of face 0", [192, -32, -32], 1),
        ("in the plane of face 1", [0, 96, 96], 3),
        ("in the plane of face 2", [-64, 0, 64], 0),
        ("in the plane of face 3", [96, 96, 0], 3),
        ("in the plane of face 3", [64, -64, 0], 1),
    ] {
        let stored = spike(place, axis);
        assert_eq!(vertices_in_pieces(&stored), [], "{name}");
        mesh_accepted(name, &stored.bytes());
    }
}

/// Every place on the grid about the piece, by its coordinates; the corners themselves are taken (4).
#[test]
fn refusal_23_at_every_place() {
    let along = || (-64..=192).step_by(32);
    let mut given = [0, 0];
    for place in along().flat_map(|x| along().flat_map(move |y| along().map(move |z| [x, y, z]))) {
        let sum: i16 = place.iter().sum();
        let below = (0..3).find(|&axis| place[axis] < 0);
        let (number, ways) = match below {
            _ if IN_A_CORNER.contains(&place) => (4, 0..4),
            None if sum <= 128 => (23, 0..4),
            // Away from the piece, so that none of its corners lies in the other one.
            None => (0, 3..4),
            Some(axis) => (0, axis..axis + 1),
        };
        for axis in ways {
            let stored = spike(place, axis);
            let mut turned_round = stored.clone();
            turned_round.records.swap(0, 1);
            for stored in [stored, turned_round] {
                let bytes = stored.bytes();
                assert_eq!(check(&bytes).number, number, "{place:?} {axis}");
                assert_eq!(naive_check(&bytes), (number, 0, 0), "{place:?} {axis}");
            }
        }
        given[(number != 0) as usize] += 1;
    }
    // 35 places lie in the piece, four of them corners.
    assert_eq!(given, [729 - 35, 35]);
}

/// "We accepted a base mesh with a vertex in the middle of a neighbour's edge".
#[test]
fn refusal_23_a_corner_on_somebody_elses_edge() {
    // 4 is the middle of 0-1. Beyond the face 0 1 3 there are two pieces, with 5 for a corner.
    let places = [&IN_A_CORNER[..], &[[64, 0, 0], [0, -128, 0], [0, -64, -64]]].concat();
    let (whole, halves) = ([2, 3, 0, 1], [[3, 5, 0, 4], [3, 5, 4, 1]]);
    for pieces in [
        &[whole, halves[0], halves[1]][..],
        &[halves[0], whole, halves[1]],
        &[halves[0], halves[1], whole],
        &[whole, halves[0]],
        &[halves[1], whole],
    ] {
        let stored = of_type_o(&places[..6], pieces);
        let number = pieces.iter().position(|&piece| piece == whole).unwrap();
        assert_eq!(vertices_in_pieces(&stored), [(4, number)]);
        mesh_refused("a neighbour in halves", &stored.bytes(), 23);
    }
    // In halves itself, the piece has the vertex for a corner.
    let four = [[2, 3, 0, 4], [2, 3, 4, 1], halves[0], halves[1]];
    mesh_accepted("both in halves", &of_type_o(&places[..6], &four).bytes());
    // Only a corner in common.
    let stored = of_type_o(&places, &[whole, [0, 4, 5, 6]]);
    mesh_refused("half of the edge", &stored.bytes(), 23);
    // A face in common, and the other corner on the same side of it.
    let on_a_face = |place: [i16; 3]| {
        let places = [&IN_A_CORNER[..], &[place]].concat();
        of_type_o(&places, &[[0, 1, 2, 3], [0, 1, 2, 4]]).bytes()
    };
    mesh_refused("inside", &on_a_face([32, 32, 32]), 23);
    mesh_refused("3 inside the other", &on_a_face([-32, -32, 256]), 23);
    mesh_refused("3 on an edge of the other", &on_a_face([0, 0, 160]), 23);
    mesh_refused("3 in a face of the other", &on_a_face([-32, 0, 192]), 23);
    mesh_accepted("beside", &on_a_face([-32, -32, 128]));
    mesh_accepted("across the face", &on_a_face([32, 32, -32]));
}

/// "And isn't one of its corners": by number. Another vertex at that place is 4's.
#[test]
fn not_23_at_a_corner() {
    for (corner, axis) in [(0, 2), (1, 3), (2, 3), (3, 3)] {
        let places = [&IN_A_CORNER[..], &far_off(axis)].concat();
        let stored = of_type_o(&places, &[[0, 1, 2, 3], [corner, 4, 5, 6]]);
        mesh_accepted("a corner in common", &stored.bytes());
        let place = IN_A_CORNER[corner as usize];
        mesh_refused("at one place", &spike(place, axis).bytes(), 4);
    }
    let places = [&IN_A_CORNER[..], &far_off(2)].concat();
    let stored = of_type_o(&places[..6], &[[0, 1, 2, 3], [0, 1, 4, 5]]);
    mesh_accepted("an edge in common", &stored.bytes());
    let stored = of_type_o(&places[..5], &[[0, 1, 2, 3], [0, 1, 2, 4]]);
    mesh_accepted("a face in common", &stored.bytes());
}

/// The two largest pieces in a cube: each has an edge across every side, and the edges cross.
const STAR: [[i16; 3]; 8] = [
    [-1, -1, -1],
    [1, 1, -1],
    [1, -1, 1],
    [-1, 1, 1],
    [1, 1, 1],
    [-1, -1, 1],
    [-1, 1, -1],
    [1, -1, -1],
];

fn star(size: i16) -> (Vec<[i16; 3]>, [[u16; 4]; 2]) {
    let places = STAR.map(|place| place.map(|x| size * x));
    (places.to_vec(), [[0, 1, 2, 3], [4, 5, 6, 7]])
}

/// "Pieces that overlap with no vertex inside one another stay unjudged."
#[test]
fn not_23_pieces_that_overlap() {
    for size in [32, 64, 32_736] {
        let (places, pieces) = star(size);
        let uncut = of_type_o(&places, &pieces);
        mesh_accepted("a star", &uncut.bytes());
        // Cut at 0-1 and 6-7, which cross: two made vertices at one place.
        let cut = of_type_o(&places, &[[0, 1, 2, 3], [6, 7, 4, 5]]);
        let cut = decode(&refined(&cut.bytes(), &[0, 1]));
        assert_eq!([8, 9].map(|n| cut.vertices[n].place), [[0, 0, -size]; 2]);
        mesh_accepted("a star, cut", &cut.bytes());
        // One corner in the middle of a side, and so of an edge of the other piece.
        for corner in 0..8 {
            let axis = corner % 3;
            let mut places = places.clone();
            (0..3)
                .filter(|&i| i != axis)
                .for_each(|i| places[corner][i] = 0);
            let stored = of_type_o(&places, &pieces);
            assert_eq!(
                vertices_in_pieces(&stored),
                [(corner as u16, 1 - corner / 4)]
            );
            mesh_refused("a corner on an edge", &stored.bytes(), 23);
        }
    }
    // An edge that goes through two faces of the other piece.
    let through = [[-32, 32, 32], [160, 32, 32], [160, 192, 32], [160, 32, 192]];
    let places = [&IN_A_CORNER[..], &through].concat();
    mesh_accepted(
        "through",
        &of_type_o(&places, &[[0, 1, 2, 3], [4, 5, 6, 7]]).bytes(),
    );
    // One piece inside another, and touching it from inside.
    for small in [
        [[32, 32, 32], [64, 32, 32], [32, 64, 32], [32, 32, 64]],
        [[32, 32, 0], [64, 32, 0], [32, 64, 0], [32, 32, 32]],
    ] {
        let places = [&IN_A_CORNER[..], &small].concat();
        let pieces = [[0, 1, 2, 3], [4, 5, 6, 7]];
        mesh_refused("within", &of_type_o(&places, &pieces).bytes(), 23);
    }
}

/// Where the determinants are largest: the star in the whole grid.
#[test]
fn refusal_23_to_the_ends_of_the_grid() {
    let (places, _) = star(32_736);
    let whole = of_type_o(&places[..4], &[[0, 1, 2, 3]]);
    assert_eq!(whole.signed(0), 2 * 65_472i64.pow(3));
    // The other corners are at an end of the grid, beyond the face 0 1 2.
    let end: [[i16; 3]; 3] = [
        [32_704, -32_736, -32_736],
        [32_736, -32_704, -32_736],
        [32_736, -32_736, -32_704],
    ];
    let with = |place: [i16; 3]| {
        let places = [&places[..4], &[place], &end].concat();
        of_type_o(&places, &[[0, 1, 2, 3], [4, 5, 6, 7]])
    };
    // The middle of the face, of its edges, and of the piece.
    let third = 32_736 / 3;
    for inside in [
        [third, -third, -third],
        [third - 32, -third, -third],
        [third, -third + 32, -third],
        [0, 0, -32_736],
        [0, 0, -32_704],
        [0, -32_736, 0],
        [32_736, 0, 0],
        [32_704, 0, 0],
        [0, 0, 0],
        [32_704, 32_704, -32_736],
    ] {
        let stored = with(inside);
        assert_eq!(vertices_in_pieces(&stored), [(4, 0)], "{inside:?}");
        mesh_refused("inside", &stored.bytes(), 23);
    }
    // One step off.
    for outside in [
        [third + 32, -third, -third],
        [third, -third - 32, -third],
        [third, -third, -third - 32],
        [32, 0, -32_736],
        [0, -32, -32_736],
        [32, -32_736, 0],
        [32_736, -32, 0],
        [32_736, 32_704, -32_736],
        [32_736, -32_736, 32_704],
    ] {
        let stored = with(outside);
        assert_eq!(vertices_in_pieces(&stored), [], "{outside:?}");
        mesh_accepted("outside", &stored.bytes());
    }
}

/// "After 8", over the whole mesh, and so after 4 to 7 and 22.
#[test]
fn refusal_23_after_8() {
    let hanging = spike([64, 0, 0], 2);
    let with = |change: &dyn Fn(&mut Stored)| changed(&hanging, |s| change(s));
    mesh_refused("23 alone", &with(&|_| {}), 23);
    // An unused vertex, out in the open or itself in a piece.
    for place in [[0, 0, 640], [32, 32, 32], [32, 0, 0]] {
        let unused = |s: &mut Stored| {
            s.base_vertices += 1;
            s.vertices.push(Vertex {
                place,
                parents: [NONE; 2],
            });
        };
        mesh_refused("8 and 23", &with(&unused), 8);
        mesh_refused("8", &changed(&k_stored(), |s| unused(s)), 8);
    }
    let twice = with(&|s| {
        s.base_records += 1;
        s.records.push(s.records[0]);
    });
    mesh_refused("7 and 23", &twice, 7);
    mesh_refused("6 and 23", &with(&|s| s.records[1].marks[0] = 0), 6);
    let left = with(&|s| s.records[1] = turned(&s.records[1], 0, 1));
    mesh_refused("22 and 23", &left, 22);
    mesh_refused("5 and 23", &with(&|s| s.records[1].flag = 1), 5);
    mesh_refused("4 and 23", &with(&|s| s.vertices[7].place[0] += 16), 4);
}

/// "Before 9", and so before 10; whatever is cut.
#[test]
fn refusal_23_before_9() {
    let hanging = spike([64, 0, 0], 2);
    for cut in [&[][..], &[0], &[1], &[0, 1], &[0, 2, 1]] {
        let mut stored = hanging.clone();
        cut.iter()
            .for_each(|&n| cut_one(&mut stored, n, Way::Right));
        mesh_refused("cut", &stored.bytes(), 23);
        // The last record isn't what cutting gives, or is no child.
        let mesh = changed(&stored, |s| s.records.push(*s.records.last().unwrap()));
        mesh_refused("23 and 9", &mesh, 23);
    }
    // 0-1 is cut at that very place: the made vertex and the base vertex stand there both.
    let mut stored = hanging.clone();
    cut_one(&mut stored, 0, Way::Right);
    assert_eq!(stored.vertices[8].place, stored.vertices[4].place);
    mesh_refused("at the midpoint", &stored.bytes(), 23);
    // Two more pieces with one edge in common, the one cut and the other not.
    let edge_in_common = |place: [i16; 3]| {
        let mut places = [&IN_A_CORNER[..], &[place], &far_off(2)].concat();
        places.extend([[640, 0, 0], [704, 0, 0], [640, 64, 0], [640, 0, 64]]);
        places.extend([[640, -64, 0], [640, 0, -64]]);
        let pieces = [[0, 1, 2, 3], [4, 5, 6, 7], [8, 9, 10, 11], [8, 9, 12, 13]];
        let mut stored = of_type_o(&places, &pieces);
        cut_one(&mut stored, 3, Way::Right);
        stored.bytes()
    };
    mesh_refused_at("10", &edge_in_common([64, 0, -32]), 10, (2, 0));
    mesh_refused("23 and 10", &edge_in_common([64, 0, 0]), 23);
}

/// "For base meshes": a later record in which a base vertex lies is 9's, if it is anybody's.
#[test]
fn not_23_beyond_the_base() {
    // 0 is the middle of 3-4, which is no edge of the base.
    let places = [&IN_A_CORNER[..], &[[0, 0, -128]]].concat();
    let pieces = [[0, 1, 2, 3], [0, 1, 2, 4], [1, 2, 3, 4]];
    let mut stored = of_type_o(&places, &pieces);
    assert_eq!(vertices_in_pieces(&stored), [(0, 2)]);
    stored.base_records = 2;
    mesh_refused("beyond the base", &stored.bytes(), 9);
    stored.records.pop();
    mesh_accepted("without it", &stored.bytes());
}

/// Every base vertex against every base record: a corner of any piece on an edge of any other, and nothing
/// else in anything.
#[test]
fn refusal_23_any_vertex_and_any_record() {
    let mut places: Vec<[i16; 3]> = Vec::new();
    for n in 0..5 {
        // On a curve that no straight line meets three times.
        let at = [640 * n, 64 * n * n, 160 * n * n * n];
        places.extend(
            K_COORDINATES
                .chunks(3)
                .map(|p| [0, 1, 2].map(|i| at[i] + p[i])),
        );
    }
    let pieces: Vec<[u16; 4]> = (0..5)
        .map(|n| [0, 1, 2, 3].map(|slot| 4 * n + slot))
        .collect();
    mesh_accepted("five pieces", &of_type_o(&places, &pieces).bytes());
    for vertex in 0..20 {
        for record in (0..5).filter(|record| vertex / 4 != *record) {
            for (one, other) in CODES {
                let [a, b] = [one, other].map(|slot| places[4 * record + slot]);
                let mut places = places.clone();
                places[vertex] = [0, 1, 2].map(|i| (a[i] + b[i]) / 2);
                let stored = of_type_o(&places, &pieces);
                assert_eq!(vertices_in_pieces(&stored), [(vertex as u16, record)]);
                mesh_refused("one of each", &stored.bytes(), 23);
            }
        }
    }
}

#[test]
fn refusal_9_children() {
    let stored = k2();
    mesh_accepted("K after two rounds", &stored.bytes());
    for n in 1..7 {
        for slot in 0..4 {
            for corner in [0, 1, 2, 3, 6, 7, 1_024, 65_535] {
                if stored.records[n].corners[slot] != corner {
                    let mesh = changed(&stored, |s| s.records[n].corners[slot] = corner);
                    mesh_refused("corner of a child", &mesh, 9);
                }
            }
        }
        for code in [0, 1, 2, 3, 4, 5, 6, 200, 255] {
            if stored.records[n].edge != code {
                let mesh = changed(&stored, |s| s.records[n].edge = code);
                mesh_refused("edge of a child", &mesh, 9);
            }
            for face in 0..4 {
                if stored.records[n].marks[face] != code {
                    let mesh = changed(&stored, |s| s.records[n].marks[face] = code);
                    mesh_refused("mark of a child", &mesh, 9);
                }
            }
        }
        for flag in [0, 1, 2, 255] {
            if stored.records[n].flag != flag {
                let mesh = changed(&stored, |s| s.records[n].flag = flag);
                mesh_refused("flag of a child", &mesh, 9);
            }
        }
        for generation in [0, 1, 2, 3, 15, 16, 255] {
            if stored.records[n].generation != generation {
                let mesh = changed(&stored, |s| s.records[n].generation = generation);
                mesh_refused("generation of a child", &mesh, 9);
            }
        }
    }
    let mesh = changed(&stored, |s| s.records.swap(3, 4));
    mesh_refused("children swapped", &mesh, 9);
    // The marks of the base record changed to another type: the children no longer fit.
    let mesh = changed(&stored, |s| s.records[0].marks[0] = 3);
    mesh_refused("the parent's marks", &mesh, 9);
}

#[test]
fn refusal_9_numbers() {
    let stored = k2();
    for (n, child) in [
        (0, 0),
        (0, 2),
        (0, 3),
        (0, 6),
        (0, 7),
        (0, 65_534),
        (1, 1),
        (1, 0),
        (1, 5),
        (2, 3),
        (2, 6),
        (6, 3),
        (6, 6),
        (3, 7),
        (3, 4),
        (3, 1),
    ] {
        let mesh = changed(&stored, |s| s.records[n].first_child = child);
        mesh_refused("number of the first child", &mesh, 9);
    }
    for n in 0..3 {
        let mesh = changed(&stored, |s| s.records[n].first_child = NONE);
        mesh_refused("a parent uncut, its children left", &mesh, 9);
    }
    // In the cube every base record may take another base record for its child only by mistake.
    let mesh = changed(&decode(&cube()), |s| s.records[0].first_child = 1);
    mesh_refused("a base record as child", &mesh, 9);
    let mesh = changed(&decode(&cube()), |s| s.records[5].first_child = 6);
    mesh_refused("a child past the end", &mesh, 9);

    // Children below their parent, all else right: records 3 and 4 come first.
    let order = [0, 3, 4, 1, 2, 5, 6];
    mesh_refused(
        "children below their parent",
        &renumbered(&stored, order),
        9,
    );
    // Children above their parent in another order than refine's: accepted.
    let order = [0, 1, 2, 5, 6, 3, 4];
    let mesh = renumbered(&stored, order);
    assert_ne!(mesh, stored.bytes());
    mesh_accepted("another order", &mesh);
    assert_eq!(check(&mesh), check(&stored.bytes()));
}

/// The same records in another order: place n gets the old record order[n].
fn renumbered(stored: &Stored, order: [usize; 7]) -> Vec<u8> {
    changed(stored, |s| {
        let new_number = |old: u16| order.iter().position(|&n| n == old as usize).unwrap();
        s.records = order
            .iter()
            .map(|&old| {
                let mut r = stored.records[old];
                if r.first_child != NONE {
                    r.first_child = new_number(r.first_child) as u16;
                }
                r
            })
            .collect();
    })
}

#[test]
fn refusal_9_a_record_that_is_no_child() {
    let stored = k1();
    let mesh = changed(&stored, |s| s.records.push(s.records[2]));
    mesh_refused("a record more", &mesh, 9);
    let mesh = changed(&stored, |s| s.records.extend([s.records[1], s.records[2]]));
    mesh_refused("two records more", &mesh, 9);
    let mesh = changed(&k_stored(), |s| s.records.push(s.records[0]));
    mesh_refused("a record beyond the base like a base record", &mesh, 9);
    let mesh = changed(&k_stored(), |s| {
        s.records.push(Record {
            corners: [60_000; 4],
            edge: 99,
            marks: [99; 4],
            flag: 99,
            generation: 3,
            first_child: 1,
        })
    });
    mesh_refused("a record of nonsense that is its own child", &mesh, 9);
    // The child of two: both children of the cube's records 0 and 1 entered for record 0's.
    let cut = decode(&refined(&cube(), &[0]));
    let mesh = changed(&cut, |s| {
        s.records[1].first_child = s.records[0].first_child
    });
    mesh_refused("the child of two", &mesh, 9);
    let mesh = changed(&cut, |s| {
        s.records[1].first_child = s.records[0].first_child + 1
    });
    mesh_refused("a second child that is a first child too", &mesh, 9);
}

#[test]
fn refusal_9_a_made_vertex_of_no_cut() {
    let stored = k1();
    let made = |p: u16, q: u16| {
        changed(&stored, |s| {
            let [a, b] = [p, q].map(|n| s.vertices[n as usize].place);
            s.vertices.push(Vertex {
                place: [0, 1, 2].map(|i| (a[i] + b[i]) / 2),
                parents: [p, q],
            })
        })
    };
    // 0-1 is an edge of leaf 1, so it hangs as well (10); 0-4 is an edge; 3-4 too.
    mesh_refused("the midpoint of an uncut edge", &made(0, 1), 9);
    mesh_refused("the midpoint of 0-4", &made(0, 4), 9);
    mesh_refused("the midpoint of 3-4", &made(3, 4), 9);
    let mesh = changed(&k_stored(), |s| {
        s.vertices.push(Vertex {
            place: [32, 32, 32],
            parents: [0, 3],
        })
    });
    mesh_refused("the midpoint of an uncut refinement edge", &mesh, 9);
    // By parent pairs, not places: 0-7 and 1-6 have the same midpoint in the cube.
    let cut = decode(&refined(&cube(), &[0]));
    let mesh = changed(&cut, |s| s.vertices[8].parents = [1, 6]);
    mesh_refused("a midpoint by place only", &mesh, 9);
    let mesh = changed(&cut, |s| {
        s.vertices.push(Vertex {
            place: [32, 32, 32],
            parents: [1, 6],
        })
    });
    mesh_refused("a second vertex at the midpoint's place", &mesh, 9);
    // A vertex missing for a cut record.
    let mesh = changed(&k2(), |s| {
        s.vertices.truncate(6);
    });
    mesh_refused("no vertex with that parent pair", &mesh, 9);
}

#[test]
fn refusal_9_a_generation_above_15() {
    // Twice as large as K, so that halving stays exact even beyond 15.
    let large: Vec<i16> = K_COORDINATES.iter().map(|x| 2 * x).collect();
    let fifteen = decode(&deepen(build_vec(7, &large, &[0, 1, 2, 3]).unwrap(), 15));
    mesh_accepted("generation 15", &fifteen.bytes());
    assert_eq!(check(&fifteen.bytes()).deepest, 15);
    // Cut further by hand and closed, so that the generation alone is wrong.
    let mut sixteen = fifteen.clone();
    let mut pass = vec![deepest_leaf(&fifteen.bytes())];
    while !pass.is_empty() {
        pass.iter()
            .for_each(|&n| cut_one(&mut sixteen, n, Way::Right));
        pass = hanging_leaves(&sixteen, Way::Right);
    }
    assert!(sixteen.vertices.len() <= 1_024 && sixteen.records.len() <= 3_072);
    let deepest = sixteen.records.iter().map(|r| r.generation).max();
    assert!(deepest >= Some(16));
    mesh_refused("generation 16", &sixteen.bytes(), 9);
    // A leaf of generation 255 is not what cutting gives either.
    let leaf = deepest_leaf(&fifteen.bytes()) as usize;
    for generation in [16, 255] {
        let mesh = changed(&fifteen, |s| s.records[leaf].generation = generation);
        mesh_refused("a leaf's generation", &mesh, 9);
    }
}

#[test]
fn refusal_10() {
    // The cube with one of six cut: the diagonal hangs in the others. Its code is 2, and 1 where build
    // has exchanged the last two corners.
    let uncut = decode(&cube());
    let codes: Vec<u64> = uncut.records.iter().map(|r| r.edge.into()).collect();
    assert_eq!(codes, [2, 1, 1, 2, 2, 1]);
    for cut in 0..6 {
        let mut stored = decode(&cube());
        cut_one(&mut stored, cut, Way::Right);
        let first = if cut == 0 { 1 } else { 0 };
        let place = (first as u64, codes[first]);
        mesh_refused_at("one of six", &stored.bytes(), 10, place);
    }
    let mut stored = decode(&cube());
    for (cut, first) in [(0, 1), (1, 2), (3, 2), (2, 4), (4, 5)] {
        cut_one(&mut stored, cut, Way::Right);
        let place = (first as u64, codes[first]);
        mesh_refused_at("more of six", &stored.bytes(), 10, place);
    }
    cut_one(&mut stored, 5, Way::Right);
    mesh_accepted("all six", &stored.bytes());

    // A leaf that isn't in the base: K after two rounds, 4 cut and 5 not. 5 is 4 1 2 6: code 3.
    let mut stored = k2();
    cut_one(&mut stored, 4, Way::Right);
    mesh_refused_at("record 5", &stored.bytes(), 10, (5, 3));
    cut_one(&mut stored, 5, Way::Right);
    mesh_accepted("5 cut too", &stored.bytes());
}

#[test]
fn refusal_10_places() {
    // Two pieces with only the edge 0-1 in common, the refinement edge of both, in any slots.
    let places = [
        [0, 0, 0],
        [96, 0, 0],
        [32, 32, 0],
        [32, 0, 32],
        [32, -32, 0],
        [32, 0, -32],
    ];
    let coordinates = places.concat();
    for (corners, code) in [
        ([0, 1, 2, 3], 0),
        ([0, 3, 1, 2], 1),
        ([1, 3, 2, 0], 2),
        ([3, 1, 0, 2], 3),
        ([2, 1, 3, 0], 4),
        ([3, 2, 1, 0], 5),
        // Left-handed: build exchanges the last two.
        ([0, 1, 3, 2], 0),
        ([1, 2, 3, 0], 1),
        ([0, 2, 1, 3], 2),
        ([2, 0, 3, 1], 3),
        ([2, 1, 0, 3], 4),
        ([3, 2, 0, 1], 5),
    ] {
        let pieces = [&corners[..], &[0, 1, 4, 5]].concat();
        let mut stored = decode(&build_vec(7, &coordinates, &pieces).unwrap());
        cut_one(&mut stored, 1, Way::Right);
        mesh_refused_at("a place", &stored.bytes(), 10, (0, code));
        assert_eq!(
            refined(&build_vec(7, &coordinates, &pieces).unwrap(), &[1]).len(),
            20 + 70 + 6 * 17
        );
    }
    // A leaf that hangs on three edges, none of them its refinement edge: the least code.
    let places = [
        [0, 0, 0],
        [64, 0, 0],
        [0, 64, 0],
        [0, 0, 64],
        [0, -32, -32],
        [32, -64, -32],
        [-32, 32, -32],
        [-64, 0, -32],
        [-32, -64, 64],
        [-64, -32, 32],
    ];
    let o = |corners, edge: u8, marks| (corners, edge, marks);
    let pieces = [
        // 12 is the refinement edge.
        o([0, 1, 2, 3], 3, [3, 1, 0, 3]),
        // 0-1, 0-2 and 0-3 are the refinement edges of three more pieces.
        o([0, 1, 5, 4], 0, [5, 5, 0, 0]),
        o([0, 2, 6, 7], 0, [5, 5, 0, 0]),
        o([0, 3, 9, 8], 0, [5, 5, 0, 0]),
    ];
    let mesh = marked(&places, &pieces);
    mesh_accepted("four pieces", &mesh.bytes());
    for (cuts, code) in [
        (&[3u16][..], 2),
        (&[2], 1),
        (&[2, 3], 1),
        (&[1], 0),
        (&[1, 2, 3], 0),
        (&[3, 1], 0),
    ] {
        let mut stored = mesh.clone();
        cuts.iter()
            .for_each(|&n| cut_one(&mut stored, n, Way::Right));
        mesh_refused_at("the least code", &stored.bytes(), 10, (0, code));
    }
}
