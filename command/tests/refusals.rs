//! Each refusal that a file can earn, with its explanation. 20 and 21 can't be earned: the buffer is
//! full-size, and a plain mesh has whole lines.

mod common;
use common::*;
use second::mesh::Mesh;

/// Every command that takes a mesh refuses it alike; no file is written or changed.
#[track_caller]
fn mesh_refused(desk: &Desk, mesh: &[u8], number: u32, why: &str) {
    desk.write("mesh", mesh);
    desk.write("choice", &chosen(&k(), &[0]));
    desk.write("old", b"old");
    let before = desk.files();
    refuses(&desk.run(&["check", "mesh"]), number, why);
    refuses(&desk.run(&["refine", "mesh", "choice", "old"]), number, why);
    refuses(&desk.run(&["refine", "mesh", "choice", "new"]), number, why);
    refuses(&desk.run(&["select", "mesh", "old", "0"]), number, why);
    refuses(&desk.run(&["select", "mesh", "-"]), number, why);
    refuses(&desk.run(&["list", "mesh"]), number, why);
    let take_back = |out| desk.run(&["take-back", "mesh", "choice", out]);
    refuses(&take_back("old"), number, why);
    refuses(&take_back("new"), number, why);
    let select_back = |out, named| desk.run(&["select", "--back", "mesh", out, named]);
    refuses(&select_back("old", "0"), number, why);
    refuses(&select_back("-", "all"), number, why);
    refuses(&desk.run(&["cuts", "mesh"]), number, why);
    assert!(desk.files() == before);
}

#[test]
fn of_a_stored_mesh() {
    let desk = Desk::new("mesh-refused");
    let refused = |mesh: &[u8], number, why| mesh_refused(&desk, mesh, number, why);
    refused(b"", 1, "the mesh has 0 bytes");
    refused(&k()[..19], 1, "the mesh has 19 bytes");
    refused(
        &k()[..76],
        1,
        "the mesh has 76 bytes; 4 vertices and 1 records make 77",
    );
    refused(
        &[&k()[..], &[0]].concat(),
        1,
        "the mesh has 78 bytes; 4 vertices and 1 records make 77",
    );
    refused(&chosen(&k(), &[0]), 1, "this is a selection, not a mesh");
    refused(&poked(&k(), 0, b"X"), 2, "it does not begin with TMB");
    refused(
        &poked(&k(), 0, b"TMS"),
        2,
        "this is a selection, not a mesh",
    );
    refused(
        &poked(&k(), 3, &[2]),
        2,
        "its version is 2, and version 1 is the one known here",
    );
    refused(&poked(&k(), 19, &[9]), 2, "byte 19 is 9");
    refused(
        &poked(&k(), 11, &[3]),
        3,
        "base vertices 3, all vertices 4, base records 1, all records 1",
    );
    refused(&poked(&k(), 20, &[16]), 4, "");
    refused(&changed(&k(), |mesh| mesh.records[0].generation = 1), 5, "");
    refused(&changed(&k(), |mesh| mesh.records[0].marks[0] = 6), 6, "");
    let twice = changed(&k(), |mesh| {
        mesh.records.push(mesh.records[0]);
        mesh.base_records = 2;
    });
    refused(&twice, 7, "");
    let unused = changed(&k(), |mesh| {
        mesh.vertices.push(mesh.vertices[0]);
        mesh.vertices[4].place = [0, 0, 640];
        mesh.base_vertices = 5;
    });
    refused(&unused, 8, "");
    refused(&changed(&k1(), |mesh| mesh.records[1].flag = 1), 9, "");
    refused(&hanging(), 10, "record 1, the edge of vertices 0 and 7");
    // Each of the six codes; the edge's lower vertex is said first, whatever its slot.
    for code in 0..6 {
        refused(
            &hangs_at(code),
            10,
            "record 1, the edge of vertices 0 and 1",
        );
    }
}

/// 22, by two corners of a base record exchanged in the bytes: whichever two, whatever its marks are then, and
/// whether it is cut or not. The first such record is named.
#[test]
fn of_a_left_handed_mesh() {
    let desk = Desk::new("left-handed");
    let refused = |mesh: &[u8], record: usize| {
        let why = format!(
            "record {record} is left-handed: this mesh was made elsewhere or earlier; build it anew, since \
             tmb build exchanges corners by itself"
        );
        mesh_refused(&desk, mesh, 22, &why);
    };
    for slots in second::piece::EDGES {
        refused(&corners_exchanged(&k(), 0, slots), 0);
        refused(&corners_exchanged(&k2(), 0, slots), 0);
    }
    let cut = refined(&cube(), &[3]);
    for record in 0..6 {
        let left = corners_exchanged(&cube(), record, [2, 3]);
        refused(&left, record);
        // Tried before 6: a mark that is none, in this record or another.
        for marked in [record, 5 - record] {
            let bad = changed(&left, |mesh| mesh.records[marked].marks[0] = 6);
            refused(&bad, record);
        }
        refused(&corners_exchanged(&cut, record, [0, 3]), record);
        // The first of several.
        let several = (record + 1..6).fold(left.clone(), |mesh, other| {
            corners_exchanged(&mesh, other, [0, 1])
        });
        refused(&several, record);
        // Tried after 5: a flag further on, or before.
        if record != 2 {
            let flagged = changed(&left, |mesh| mesh.records[2].flag = 1);
            mesh_refused(&desk, &flagged, 5, "");
        }
    }
    // The first of 256, the last and one between.
    for record in [0, 100, 255] {
        refused(&corners_exchanged(&separate(256), record, [1, 3]), record);
    }
    // A child in the other hand is no base record.
    let child = corners_exchanged(&k1(), 2, [2, 3]);
    mesh_refused(&desk, &child, 9, "");
}

/// Build takes left-handed pieces: what is stored is right-handed, and check accepts it.
#[test]
fn build_exchanges_corners_by_itself() {
    let desk = Desk::new("exchanged");
    let line = "accepted: job 7 round 0 vertices 4 records 1 leaves 1 deepest 0 sixfold 262144";
    let places = "v 0 0 0\nv 64 0 0\nv 64 64 0\nv 64 64 64\n";
    for (given, stored) in [
        ("0 1 2 3", [0, 1, 2, 3]),
        ("0 1 3 2", [0, 1, 2, 3]),
        ("1 0 2 3", [1, 0, 3, 2]),
        ("3 2 1 0", [3, 2, 1, 0]),
        ("3 2 0 1", [3, 2, 1, 0]),
        ("2 1 0 3", [2, 1, 3, 0]),
    ] {
        desk.write("text", format!("{places}p {given}\n").as_bytes());
        says(&desk.run(&["build", "7", "text", "mesh"]), line);
        let mesh = Mesh::read(&desk.read("mesh")).unwrap();
        assert_eq!(mesh.records[0].corners, stored);
        assert_eq!(mesh.signed(&mesh.records[0]), Some(262_144));
        says(&desk.run(&["check", "mesh"]), line);
    }
    // Three of the cube's six are left-handed as they are given.
    let plain = sample("cube.txt");
    let words = ["build", "1"].map(std::ffi::OsStr::new);
    let build = [words[0], words[1], plain.as_os_str(), "cube".as_ref()];
    assert_eq!(desk.run(&build).status.code(), Some(0));
    assert_eq!(desk.read("cube"), cube());
    let mesh = Mesh::read(&cube()).unwrap();
    for record in &mesh.records {
        assert_eq!(mesh.signed(record), Some(262_144));
    }
}

/// A piece, record 0; another over its face of vertices 1, 2 and 3; and two far away. Of these, vertices 5 and 9
/// may be moved to the first two: they become long needles, right-handed still, which hold no other vertex.
fn two_and_two_far_away() -> Vec<u8> {
    let near = [
        [0, 0, 0],
        [128, 0, 0],
        [0, 128, 0],
        [0, 0, 128],
        [128, 128, 128],
    ];
    let far = [[0, 0, 0], [64, 0, 0], [64, 64, 0], [64, 0, 64]]
        .map(|[x, y, z]| [x + 16_384, y + 6_048, z + 3_424]);
    let higher = far.map(|[x, y, z]| [x, y, z + 256]);
    let places = [&near[..], &far, &higher].concat().concat();
    let corners = [0, 1, 2, 3, 1, 2, 3, 4, 5, 6, 7, 8, 9, 10, 11, 12];
    second::build_vec(7, &places, &corners).unwrap()
}

/// What is said of a vertex that lies between so many corners of a record.
fn hangs(vertex: usize, between: &[usize], record: usize) -> String {
    let lies = match between {
        [one, other] => format!("on the edge of vertices {one} and {other} of record {record}"),
        [one, other, third] => {
            format!("in the face of vertices {one}, {other} and {third} of record {record}")
        }
        _ => format!("inside record {record}"),
    };
    let mend = match between.len() {
        4 => "move the vertex, so that it lies inside no piece",
        _ => {
            "split that piece there or move the vertex, so that it is a corner of every piece that it \
             touches"
        }
    };
    format!(
        "vertex {vertex} lies {lies}: this mesh was made elsewhere or earlier; in its plain mesh {mend}, and \
         build it anew"
    )
}

/// 23, by a base vertex moved in the bytes. The first vertex that hangs is named, and the first record that it
/// hangs on.
#[test]
fn of_a_hanging_vertex() {
    let desk = Desk::new("hanging-vertex");
    let mesh = two_and_two_far_away();
    let refused = |mesh: &[u8], why: &str| mesh_refused(&desk, mesh, 23, why);
    refused(
        &moved(&mesh, 5, [64, 0, 0]),
        "vertex 5 lies on the edge of vertices 0 and 1 of record 0: this mesh was made elsewhere or earlier; in \
         its plain mesh split that piece there or move the vertex, so that it is a corner of every piece that \
         it touches, and build it anew",
    );
    refused(
        &moved(&mesh, 9, [0, 64, 32]),
        "vertex 9 lies in the face of vertices 0, 2 and 3 of record 0: this mesh was made elsewhere or earlier; \
         in its plain mesh split that piece there or move the vertex, so that it is a corner of every piece \
         that it touches, and build it anew",
    );
    let inside = moved(&mesh, 5, [64, 64, 64]);
    let inside_1 = "vertex 5 lies inside record 1: this mesh was made elsewhere or earlier; in its plain mesh \
                    move the vertex, so that it lies inside no piece, and build it anew";
    refused(&inside, inside_1);
    // Of several: the first vertex, though another hangs on a record before; the first record of two.
    refused(&moved(&inside, 9, [32, 32, 32]), inside_1);
    refused(&moved(&mesh, 9, [32, 32, 64]), &hangs(9, &[1, 2, 3], 0));
    // Cut or not.
    let cut = refined(&refined(&mesh, &[0]), &[4, 5]);
    refused(&moved(&cut, 5, [64, 64, 64]), inside_1);
    refused(&moved(&cut, 5, [64, 64, 0]), &hangs(5, &[1, 2], 0));
}

/// 23 is tried after 8 and before 9.
#[test]
fn of_a_hanging_vertex_in_its_turn() {
    let desk = Desk::new("hanging-vertex-in-turn");
    let mesh = moved(&two_and_two_far_away(), 5, [32, 32, 32]);
    let before = |number, change: fn(&mut Mesh)| {
        mesh_refused(&desk, &changed(&mesh, change), number, "");
    };
    before(4, |mesh| mesh.vertices[3].place = [0, 0, 100]);
    before(5, |mesh| mesh.records[3].flag = 1);
    before(6, |mesh| mesh.records[3].marks[0] = 6);
    before(7, |mesh| {
        mesh.records.push(mesh.records[3]);
        mesh.base_records += 1;
    });
    before(8, |mesh| {
        mesh.vertices.push(mesh.vertices[4]);
        mesh.vertices[13].place = [0, 0, 640];
        mesh.base_vertices += 1;
    });
    let why = hangs(5, &[0, 1, 2, 3], 0);
    mesh_refused(&desk, &mesh, 23, &why);
    // A child of another generation is 9, an edge that hangs 10.
    let cut = refined(&two_and_two_far_away(), &[0]);
    let older = changed(&cut, |mesh| mesh.records[4].generation = 2);
    mesh_refused(&desk, &older, 9, "");
    mesh_refused(&desk, &moved(&older, 5, [32, 32, 32]), 23, &why);
    let open = cut_first(&two_and_two_far_away());
    let edge = "record 1, the edge of vertices 1 and 2";
    mesh_refused(&desk, &open, 10, edge);
    mesh_refused(&desk, &moved(&open, 5, [32, 32, 32]), 23, &why);
}

/// A vertex at every place of the grid round the two pieces: in a closed one it hangs, elsewhere it does not.
#[test]
fn of_a_vertex_anywhere() {
    let desk = Desk::new("vertex-anywhere");
    let mesh = two_and_two_far_away();
    let mut seen = [0; 5];
    for number in 0..343 {
        let [x, y, z] = [number % 7, number / 7 % 7, number / 49].map(|n| n - 1);
        // A place as a mean of the corners: their weights, in fourths in record 0, in eighths in record 1.
        let over = x + y + z - 4;
        let pieces = [
            ([0, 1, 2, 3], [-over, x, y, z]),
            (
                [1, 2, 3, 4],
                [2 * x - over, 2 * y - over, 2 * z - over, over],
            ),
        ];
        let is_closed = |weights: &[i16; 4]| weights.iter().all(|&weight| weight >= 0);
        let record = pieces.iter().position(|(_, weights)| is_closed(weights));
        let between: Vec<usize> = record.map_or(Vec::new(), |record| {
            let (corners, weights) = pieces[record];
            let slots = (0..4).filter(|&slot| weights[slot] > 0);
            slots.map(|slot| corners[slot]).collect()
        });
        seen[between.len()] += 1;
        desk.write("mesh", &moved(&mesh, 5, [x, y, z].map(|n| 32 * n)));
        let output = desk.run(&["check", "mesh"]);
        match between.len() {
            0 => assert_eq!(output.status.code(), Some(0)),
            // Where a corner is.
            1 => refuses(&output, 4, ""),
            _ => refuses(&output, 23, &hangs(5, &between, record.unwrap())),
        }
    }
    assert_eq!(seen, [278, 5, 27, 21, 12]);
}

/// The farthest that corners can be from each other; and many records, of which the first, the last but one and
/// one between is hung on.
#[test]
fn of_a_vertex_far_away_and_among_many() {
    let desk = Desk::new("vertex-far-away");
    let far = 32_736;
    let places = [
        [-far, -far, -far],
        [far, -far, -far],
        [-far, far, -far],
        [-far, -far, far],
        [far - 64, far, far],
        [far, far, far],
        [far, far - 64, far],
        [far, far, far - 64],
    ];
    let mesh = second::build_vec(1, &places.concat(), &[0, 1, 2, 3, 4, 5, 6, 7]).unwrap();
    for (place, between) in [
        ([0, -far, -far], &[0, 1][..]),
        ([0, 0, -far], &[1, 2]),
        ([-far, 0, 0], &[2, 3]),
        ([-16_384, -16_384, -far], &[0, 1, 2]),
        ([-10_912, -10_912, -10_912], &[1, 2, 3]),
        ([-10_944, -10_912, -10_912], &[0, 1, 2, 3]),
    ] {
        mesh_refused(&desk, &moved(&mesh, 4, place), 23, &hangs(4, between, 0));
    }
    desk.write("mesh", &moved(&mesh, 4, [-10_880, -10_912, -10_912]));
    assert_eq!(desk.run(&["check", "mesh"]).status.code(), Some(0));
    for record in [0, 100, 254] {
        let [x, y] = [record % 16, record / 16].map(|n| 256 * n as i16);
        let next = 4 * record + 4;
        let mesh = moved(&separate(256), next, [x + 64, y + 64, 32]);
        let why = hangs(next, &[next - 2, next - 1], record);
        mesh_refused(&desk, &mesh, 23, &why);
    }
}

/// Two pieces with the edge of vertices 0 and 1 alone in common; the first is cut there. In the second
/// the edge has this code, its higher vertex first.
fn hangs_at(code: usize) -> Vec<u8> {
    let [one, other] = second::piece::EDGES[code];
    let places = [
        [-320, 0, 0],
        [320, 0, 0],
        [0, 64, 0],
        [0, 0, 64],
        [0, -64, 0],
        [0, 0, -64],
    ];
    // The two other corners in the order in which the piece is right-handed, or build exchanges two.
    let built = |[first, last]: [u16; 2]| {
        let mut piece = [last; 4];
        (piece[one], piece[other]) = (1, 0);
        *piece.iter_mut().find(|corner| **corner == last).unwrap() = first;
        let corners = [[0, 1, 2, 3], piece].concat();
        let mesh = second::build_vec(1, &places.concat(), &corners).unwrap();
        Some(mesh).filter(|mesh| Mesh::read(mesh).unwrap().records[1].corners == piece)
    };
    let mesh = cut_first(&built([4, 5]).or(built([5, 4])).unwrap());
    let report = second::check(&mesh);
    assert_eq!(
        (report.number, report.record, report.edge),
        (10, 1, code as u64)
    );
    mesh
}

#[test]
fn of_a_selection() {
    let desk = Desk::new("selection-refused");
    let full = separate(256);
    let (deep, last) = deep();
    let of_k = |numbers: &[u16]| chosen(&k(), numbers);
    let cases = [
        (
            k(),
            b"TMS".to_vec(),
            11,
            "the selection has 3 bytes".to_string(),
        ),
        (
            k(),
            of_k(&[0])[..14].to_vec(),
            11,
            "the selection has 14 bytes; 1 numbers make 15".to_string(),
        ),
        (k(), k(), 11, "this is a mesh, not a selection".to_string()),
        (
            k(),
            poked(&of_k(&[0]), 1, b"X"),
            12,
            "it does not begin with TMS".to_string(),
        ),
        (
            k(),
            poked(&of_k(&[0]), 0, b"TMB"),
            12,
            "this is a mesh, not a selection".to_string(),
        ),
        (
            k(),
            poked(&of_k(&[0]), 3, &[2]),
            12,
            "its version is 2, and version 1 is the one known here".to_string(),
        ),
        (
            k(),
            second::selection(70_008, 3, &[0]),
            13,
            "the selection is of job 70008 and the mesh of job 7: choose again with tmb select"
                .to_string(),
        ),
        (
            k(),
            second::selection(7, 3, &[9]),
            14,
            "the selection is of round 3 and the mesh of round 0: choose again with tmb select"
                .to_string(),
        ),
        (
            k(),
            of_k(&[1]),
            15,
            "1 is named, and the mesh has 1 records".to_string(),
        ),
        (
            k1(),
            chosen(&k1(), &[1, 2, 2]),
            15,
            "2 stands after 2".to_string(),
        ),
        (
            k1(),
            chosen(&k1(), &[2, 1]),
            15,
            "1 stands after 2".to_string(),
        ),
        (
            k1(),
            chosen(&k1(), &[1, 3, 2]),
            15,
            "3 is named, and the mesh has 3 records".to_string(),
        ),
        (
            k1(),
            chosen(&k1(), &[0, 1]),
            16,
            "record 0 is cut: tmb list shows the leaves".to_string(),
        ),
        (
            deep.clone(),
            chosen(&deep, &[last]),
            17,
            format!("leave record {last} out"),
        ),
        (
            changed(&k(), |mesh| mesh.round = 65_535),
            second::selection(7, 65_535, &[0]),
            18,
            "this mesh can't be refined any more".to_string(),
        ),
        (
            full.clone(),
            chosen(&full, &[0]),
            19,
            "the mesh has 1024 vertices and 256 records: name fewer".to_string(),
        ),
    ];
    for (mesh, choice, number, why) in cases {
        desk.write("mesh", &mesh);
        desk.write("choice", &choice);
        desk.write("old", b"old");
        let before = desk.files();
        for out in ["old", "new", "mesh", "choice", "-"] {
            refuses(&desk.run(&["refine", "mesh", "choice", out]), number, &why);
            assert!(desk.files() == before);
        }
        // What select is given on the command line is refused at once.
        if number > 14 {
            let mut select = vec!["select".to_string(), "mesh".to_string(), "old".to_string()];
            let numbers = choice[13..]
                .chunks(2)
                .map(|two| u16::from_le_bytes([two[0], two[1]]));
            select.extend(numbers.map(|number| number.to_string()));
            refuses(&desk.run(&select), number, &why);
            assert!(desk.files() == before);
        }
    }
}

#[test]
fn of_a_request() {
    let desk = Desk::new("request-refused");
    let of_k2 = |numbers: &[u16]| chosen(&k2(), numbers);
    let last = changed(&k2(), |mesh| mesh.round = 65_535);
    let expired = |what: &str| format!("{what}: choose again with tmb select --back");
    let cases = [
        (
            k2(),
            b"TMS".to_vec(),
            11,
            "the request has 3 bytes".to_string(),
        ),
        (
            k2(),
            of_k2(&[1])[..14].to_vec(),
            11,
            "the request has 14 bytes; 1 numbers make 15".to_string(),
        ),
        (k2(), k2(), 11, "this is a mesh, not a request".to_string()),
        (
            k2(),
            poked(&of_k2(&[1]), 1, b"X"),
            12,
            "it does not begin with TMS".to_string(),
        ),
        (
            k2(),
            poked(&of_k2(&[1]), 0, b"TMB"),
            12,
            "this is a mesh, not a request".to_string(),
        ),
        (
            k2(),
            poked(&of_k2(&[1]), 3, &[2]),
            12,
            "its version is 2, and version 1 is the one known here".to_string(),
        ),
        (
            k2(),
            second::selection(70_008, 3, &[0]),
            13,
            expired("the request is of job 70008 and the mesh of job 7"),
        ),
        (
            k2(),
            second::selection(7, 1, &[9]),
            14,
            expired("the request is of round 1 and the mesh of round 2"),
        ),
        (
            k2(),
            of_k2(&[1, 7]),
            15,
            "7 is named, and the mesh has 7 records".to_string(),
        ),
        (k2(), of_k2(&[2, 1]), 15, "1 stands after 2".to_string()),
        (
            k2(),
            of_k2(&[1, 5, 6]),
            30,
            "record 5 is a leaf: tmb cuts shows the cut records".to_string(),
        ),
        (
            k(),
            chosen(&k(), &[0]),
            30,
            "record 0 is a leaf: tmb cuts shows the cut records".to_string(),
        ),
        (
            last.clone(),
            chosen(&last, &[1, 2]),
            18,
            "no cut of this mesh can be taken back any more".to_string(),
        ),
        (
            last.clone(),
            chosen(&last, &[1, 3]),
            30,
            "record 3 is a leaf: tmb cuts shows the cut records".to_string(),
        ),
    ];
    for (mesh, request, number, why) in cases {
        desk.write("mesh", &mesh);
        desk.write("request", &request);
        desk.write("old", b"old");
        let before = desk.files();
        for out in ["old", "new", "mesh", "request", "-"] {
            refuses(
                &desk.run(&["take-back", "mesh", "request", out]),
                number,
                &why,
            );
            assert!(desk.files() == before);
        }
        // What select is given on the command line is refused at once.
        if number > 14 {
            let mut select = ["select", "--back", "mesh", "old"]
                .map(str::to_string)
                .to_vec();
            let numbers = request[13..]
                .chunks(2)
                .map(|two| u16::from_le_bytes([two[0], two[1]]));
            select.extend(numbers.map(|number| number.to_string()));
            refuses(&desk.run(&select), number, &why);
            assert!(desk.files() == before);
        }
    }
    // Every cut record of the last round: 18.
    desk.write("mesh", &last);
    let all = desk.run(&["select", "--back", "mesh", "new", "all"]);
    refuses(&all, 18, "no cut of this mesh can be taken back any more");
    // What one service takes the other refuses.
    desk.write("mesh", &k2());
    desk.write("request", &of_k2(&[1, 2]));
    refuses(
        &desk.run(&["refine", "mesh", "request", "new"]),
        16,
        "record 1 is cut: tmb list shows the leaves",
    );
}

#[test]
fn of_a_plain_mesh() {
    let desk = Desk::new("plain-refused");
    desk.write("old", b"old");
    let apart = "v 640 0 0\nv 704 0 0\nv 704 64 0\nv 704 64 64\n";
    let below = "v 0 -64 0\nv 64 -64 0\nv 0 -64 64\n";
    let large = "v 0 0 0\nv 128 0 0\nv 0 128 0\nv 0 0 128\n";
    for (text, number, why) in [
        (
            "# nothing\n",
            3,
            "0 vertices and 0 pieces; at least 4 and 1, at most 1,024 and 3,072",
        ),
        (
            "v 0 0 0\nv 64 0 0\nv 64 64 0\np 0 1 2 2\n",
            3,
            "3 vertices and 1 pieces; at least 4 and 1, at most 1,024 and 3,072",
        ),
        (
            "# K\nv 0 0 0\nv 64 0 16\nv 64 64 0\nv 64 64 64\np 0 1 2 3\n",
            4,
            "line 3: vertex 1 has 16; coordinates are multiples of 32 from -32,736 to 32,736",
        ),
        (
            "v 0 0 0\nv 64 0 0\nv 64 64 0\nv 64 64 -32768\np 0 1 2 3\n",
            4,
            "line 4: vertex 3 has -32768; coordinates are multiples of 32 from -32,736 to 32,736",
        ),
        (
            "v 0 0 0\nv 64 0 0\nv 64 64 0\np 0 1 2 3\nv 64 0 0\n",
            4,
            "line 5: vertex 3 is where vertex 1 is",
        ),
        (
            "v 0 0 0\nv 64 0 0\nv 64 64 0\nv 64 64 64\np 0 1 2 3\np 0 1 2 1\n",
            5,
            "line 6: piece 1 names vertex 1 twice",
        ),
        (
            "v 0 0 0\nv 64 0 0\nv 64 64 0\nv 64 64 64\np 0 1 2 4\n",
            5,
            "line 5: piece 0 names vertex 4, which is not there",
        ),
        (
            "v 0 0 0\nv 64 0 0\nv 64 64 0\nv 0 64 0\nv 0 0 64\np 0 1 2 4\n\np 0 2 3 1\np 0 0 0 0\n",
            5,
            "line 8: piece 1 is flat",
        ),
        (
            "v 0 0 0\nv 64 0 0\nv 64 64 0\nv 64 64 64\np 0 1 2 3\np 3 2 1 0\n",
            7,
            "line 6: piece 1 has the corners of piece 0",
        ),
        (
            "v 0 0 0\nv 64 0 0\nv 0 64 0\nv 0 0 64\nv 0 0 -64\nv 64 64 64\n\
          p 0 1 2 3\np 0 1 2 4\np 0 1 2 5\n",
            7,
            "line 9: piece 2 has a face that two pieces before it have",
        ),
        (
            &format!("v 0 0 640\n{apart}p 1 2 3 4\n"),
            8,
            "line 1: vertex 0",
        ),
        (
            &format!("{apart}p 0 1 2 3\nv 0 0 640\n"),
            8,
            "line 6: vertex 4",
        ),
        // On an edge, but in no piece.
        (
            "v 0 0 0\nv 64 0 0\nv 64 64 0\nv 64 64 64\nv 32 0 0\np 0 1 2 3\n",
            8,
            "line 5: vertex 4",
        ),
        (
            "v 0 0 0\nv 64 0 0\nv 64 64 0\nv 64 64 64\nv 32 0 0\nv 64 0 -64\np 0 1 2 3\np 4 1 2 5\n",
            23,
            "line 5: vertex 4 lies on the edge of vertices 0 and 1 of piece 0 on line 7: split that piece there \
             or move the vertex, so that it is a corner of every piece that it touches",
        ),
        // The piece on line 11 is left-handed as it is given.
        (
            &format!("v 32 0 32\n{below}p 0 1 2 3\n{large}\np 7 5 6 4\n"),
            23,
            "line 1: vertex 0 lies in the face of vertices 4, 5 and 7 of piece 1 on line 11: split that piece \
             there or move the vertex, so that it is a corner of every piece that it touches",
        ),
        (
            &format!("p 0 1 2 3\nv 32 32 32\n{below}{large}p 4 5 6 7\n"),
            23,
            "line 2: vertex 0 lies inside piece 1 on line 10: move the vertex, so that it lies inside no piece",
        ),
        // A face in three pieces is tried before.
        (
            "v 0 0 0\nv 64 0 0\nv 0 64 0\nv 0 0 64\nv 0 0 -64\nv 0 0 32\n\
          p 0 1 2 3\np 0 1 2 4\np 0 1 2 5\n",
            7,
            "line 9: piece 2 has a face that two pieces before it have",
        ),
    ] {
        desk.write("text", text.as_bytes());
        let before = desk.files();
        for out in ["old", "new", "text", "-"] {
            refuses(&desk.run(&["build", "7", "text", out]), number, why);
            assert!(desk.files() == before);
        }
    }
}

/// The first bad piece is found among many, and the vertex that hangs.
#[test]
fn of_a_long_plain_mesh() {
    let desk = Desk::new("long-plain-refused");
    let mut lines = Vec::new();
    for piece in 0..200 {
        let x = 128 * piece;
        lines.push(format!(
            "v {x} 0 0\nv {} 0 0\nv {x} 64 0\nv {x} 0 64\n",
            x + 64
        ));
    }
    for piece in 0..200 {
        let first = 4 * piece;
        lines.push(format!(
            "p {first} {} {} {}\n",
            first + 1,
            first + 2,
            first + 3
        ));
    }
    for (bad, piece) in [(0, 0), (1, 1), (100, 100), (198, 198), (199, 199)] {
        let mut lines = lines.clone();
        lines[200 + bad] = format!("p {0} {0} 1 2\n", 4 * piece + 3);
        desk.write("text", lines.concat().as_bytes());
        let why = format!(
            "line {}: piece {bad} names vertex {} twice",
            801 + bad,
            4 * piece + 3
        );
        refuses(&desk.run(&["build", "7", "text", "new"]), 5, &why);
    }
    // A vertex of a piece stands on an edge of the piece before.
    for piece in [1, 100, 199] {
        let (mut lines, before) = (lines.clone(), piece - 1);
        let x = 128 * piece;
        lines[piece] = format!("v {x} 0 0\nv {} 32 0\nv {x} 64 0\nv {x} 0 64\n", x - 128);
        desk.write("text", lines.concat().as_bytes());
        let why = format!(
            "line {}: vertex {} lies on the edge of vertices {} and {} of piece {before} on line {}: split that \
             piece there or move the vertex, so that it is a corner of every piece that it touches",
            4 * piece + 2,
            4 * piece + 1,
            4 * before,
            4 * before + 2,
            801 + before
        );
        refuses(&desk.run(&["build", "7", "text", "new"]), 23, &why);
    }
}

/// A mesh that is longer than the largest but has the length that its counts make: check says 3, the
/// listing 1.
#[test]
fn of_a_mesh_longer_than_the_largest() {
    let desk = Desk::new("longer-than-largest");
    let mut mesh = poked(&k(), 13, &7_000u16.to_le_bytes());
    mesh.resize(20 + 70_000 + 17, 0);
    desk.write("mesh", &mesh);
    refuses(
        &desk.run(&["check", "mesh"]),
        3,
        "base vertices 4, all vertices 7000, base records 1, all records 1",
    );
    refuses(
        &desk.run(&["list", "mesh"]),
        1,
        "the mesh has 70037 bytes, the largest mesh 62484",
    );
}
