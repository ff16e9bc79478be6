//! docs/samples: the proved services take them all, and no vertex hangs. The plate and the pipe are what the
//! program `samples` writes, closed solids of hexahedra.

use compared::inside::hanging;
use compared::meshes::face_set;
use compared::{tmb_build, tmb_check, tmb_refine};
use second::mesh::Mesh;
use second::{build_vec, check, refine_vec, selection, LARGEST_MESH};
use std::collections::{BTreeMap, BTreeSet};
use std::fs;
use std::path::{Path, PathBuf};
use std::process::Command;

/// Vertices in a ring.
const ROUND: usize = 24;

fn shipped(name: &str) -> PathBuf {
    let package = Path::new(env!("CARGO_MANIFEST_DIR"));
    package.join("../docs/samples").join(name)
}

struct Sample {
    name: &'static str,
    places: Vec<[i64; 3]>,
    pieces: Vec<[u16; 4]>,
    /// As build takes them.
    coordinates: Vec<i16>,
    corners: Vec<u16>,
}

fn read(name: &'static str) -> Sample {
    let text = fs::read(shipped(name)).unwrap();
    let plain = tmb::plain::read(&text).unwrap_or_else(|line| panic!("{name}, line {line}"));
    let (coordinates, corners) = (plain.coordinates, plain.corners);
    let place = |place: &[i16]| [place[0], place[1], place[2]].map(i64::from);
    Sample {
        name,
        places: coordinates.chunks_exact(3).map(place).collect(),
        pieces: corners
            .chunks_exact(4)
            .map(|piece| piece.try_into().unwrap())
            .collect(),
        coordinates,
        corners,
    }
}

fn samples() -> [Sample; 2] {
    ["plate.txt", "pipe.txt"].map(read)
}

impl Sample {
    /// Built by the proved build, as by the second program.
    fn built(&self) -> Vec<u8> {
        let mut out = vec![255; LARGEST_MESH];
        assert_eq!(
            tmb_build(7, &self.coordinates, &self.corners, &mut out),
            0,
            "{}",
            self.name
        );
        let length = 20 + 10 * self.places.len() + 17 * self.pieces.len();
        assert!(out[length..].iter().all(|&byte| byte == 0));
        out.truncate(length);
        assert_eq!(
            build_vec(7, &self.coordinates, &self.corners).as_ref(),
            Ok(&out)
        );
        out
    }

    /// The hexahedra, which six pieces each are, by their corners: bit 0 of a corner's number is a step round,
    /// bit 1 one outward, bit 2 one up.
    fn hexahedra(&self) -> Vec<[u16; 8]> {
        let hexahedron = |six: &[[u16; 4]]| {
            let [one, another, third, fourth, fifth, _] = six else {
                panic!("six pieces to a hexahedron");
            };
            let all = [
                one[0], one[1], third[1], one[2], fifth[1], another[2], fourth[2], one[3],
            ];
            // Round one diagonal, from corner 0 to corner 7.
            let ways = [[1, 3], [1, 5], [2, 3], [2, 6], [4, 5], [4, 6]];
            let pieces = ways.map(|[b, c]| [all[0], all[b], all[c], all[7]]);
            assert_eq!(six, pieces);
            all
        };
        self.pieces.chunks(6).map(hexahedron).collect()
    }

    fn place(&self, vertex: u16) -> [i64; 3] {
        self.places[usize::from(vertex)]
    }

    /// Six times the volume of a hexahedron: it stands upright, its lower face in one height and its upper
    /// face straight above, so it is thrice its height times twice the area of that face.
    fn sixfold(&self, hexahedron: &[u16; 8]) -> i64 {
        for corner in 0..4 {
            let [low, high] = [corner, corner + 4].map(|n| self.place(hexahedron[n]));
            let [bottom, top] = [0, 4].map(|n| self.place(hexahedron[n])[2]);
            assert_eq!((low[0], low[1]), (high[0], high[1]), "straight above");
            assert_eq!((low[2], high[2]), (bottom, top), "in one height");
        }
        let around = [0, 1, 3, 2].map(|n| self.place(hexahedron[n]));
        let crossed = |n: usize| {
            let (one, next) = (around[n], around[(n + 1) % 4]);
            one[0] * next[1] - one[1] * next[0]
        };
        let twice_area: i64 = (0..4).map(crossed).sum();
        let height = self.place(hexahedron[4])[2] - self.place(hexahedron[0])[2];
        assert!(twice_area < 0 && height > 0, "none is inside out");
        3 * -twice_area * height
    }

    /// The hexahedra's volumes, summed.
    fn volume(&self) -> u64 {
        let volumes = self.hexahedra();
        volumes.iter().map(|one| self.sixfold(one) as u64).sum()
    }
}

/// Both programs build each sample that is shipped and accept what is built; the third way finds no vertex in a
/// piece that it is no corner of.
#[test]
fn no_vertex_hangs() {
    let names = ["cube.txt", "k.txt", "pipe.txt", "plate.txt"];
    let files = fs::read_dir(shipped("")).unwrap();
    let files: BTreeSet<_> = files.map(|file| file.unwrap().file_name()).collect();
    assert_eq!(files, names.map(Into::into).into());
    for name in names {
        let built = read(name).built();
        let report = tmb_check(&built);
        assert_eq!((report.number, report), (0, check(&built)), "{name}");
        let mesh = Mesh::read(&built).unwrap();
        assert_eq!(hanging(&mesh).next(), None, "{name}");
    }
}

#[test]
fn the_program_writes_what_is_shipped() {
    let folder = Path::new(env!("CARGO_TARGET_TMPDIR")).join("samples");
    fs::create_dir_all(&folder).unwrap();
    let mut program = Command::new(env!("CARGO_BIN_EXE_samples"));
    assert!(program.arg(&folder).status().unwrap().success());
    for name in ["plate.txt", "pipe.txt"] {
        let (new, old) = (
            fs::read(folder.join(name)).unwrap(),
            fs::read(shipped(name)).unwrap(),
        );
        assert!(new == old, "docs/samples/{name} is what the program writes");
        assert!(old.starts_with(b"# A "), "what it shows comes first");
    }
}

/// Of some size, with room to refine; all vertices on rings, and the numbers in the comments are right.
#[test]
fn counts() {
    for sample in samples() {
        let (vertices, pieces) = (sample.places.len(), sample.pieces.len());
        assert!(
            vertices < 500 && (600..=1_200).contains(&pieces),
            "{}",
            sample.name
        );
        let text = fs::read_to_string(shipped(sample.name)).unwrap();
        let mut next = BTreeMap::from([("vertices", 0), ("pieces", 0)]);
        for line in text.lines() {
            let words: Vec<&str> = line.split(' ').collect();
            let Some(at) = words.iter().position(|word| next.contains_key(word)) else {
                continue;
            };
            let [first, last] = [at + 1, at + 3].map(|n| words[n].parse::<usize>().unwrap());
            assert_eq!(first, next[words[at]], "{line}");
            let size = if words[at] == "vertices" {
                ROUND
            } else {
                6 * ROUND
            };
            assert_eq!(last + 1 - first, size, "{line}");
            next.insert(words[at], last + 1);
        }
        assert_eq!((next["vertices"], next["pieces"]), (vertices, pieces));
    }
}

/// The first ring, which is the hole's, stands on a circle, as near as the grid allows.
#[test]
fn the_hole_is_round() {
    for sample in samples() {
        for [x, y, _] in &sample.places[..ROUND] {
            let radius = ((x * x + y * y) as f64).sqrt();
            assert!((radius - 3_200.0).abs() < 23.0, "{}", sample.name);
        }
    }
}

/// The leaves fill the hexahedra, and no piece is inside out: whatever hand it has in the text, its signed value
/// is positive as it is stored.
#[test]
fn the_volume_is_the_hexahedras() {
    for sample in samples() {
        let mesh = Mesh::read(&sample.built()).unwrap();
        let values = mesh.records.iter().map(|record| mesh.signed(record));
        assert!(values.clone().all(|value| value > Some(0)));
        assert_eq!(values.flatten().sum::<i64>() as u64, sample.volume());
        let report = tmb_check(&sample.built());
        assert_eq!((report.number, report.deepest), (0, 0), "{}", sample.name);
        assert_eq!(report.leaves, sample.pieces.len() as u64);
        assert_eq!(report.sixfold, sample.volume());
    }
}

/// A face of one piece alone is on the surface, and each edge of the surface is in two such faces: the mesh
/// closes up round the ring. The surface is that of a ring: as many vertices and faces as edges.
#[test]
fn the_surface_is_a_rings() {
    for sample in samples() {
        let mut uses: BTreeMap<[u16; 3], u32> = BTreeMap::new();
        for &piece in &sample.pieces {
            for face in 0..4 {
                *uses.entry(face_set(piece, face)).or_default() += 1;
            }
        }
        let surface: Vec<[u16; 3]> = uses
            .into_iter()
            .filter(|&(_, uses)| uses == 1)
            .map(|(face, _)| face)
            .collect();
        let mut edges: BTreeMap<[u16; 2], u32> = BTreeMap::new();
        for [a, b, c] in &surface {
            for edge in [[*a, *b], [*a, *c], [*b, *c]] {
                *edges.entry(edge).or_default() += 1;
            }
        }
        assert!(edges.values().all(|&faces| faces == 2), "{}", sample.name);
        let vertices: BTreeSet<u16> = surface.iter().flatten().copied().collect();
        assert_eq!(
            vertices.len() + surface.len(),
            edges.len(),
            "{}",
            sample.name
        );
    }
}

/// Round after round of leaves at the hole's edge, or where the first flange meets the wall, is accepted, as by
/// the second program; the volume stays, and the used selection is dead.
#[test]
fn refined_where_it_matters() {
    // The first vertex of the hole's rim below; of the ring where the first flange meets the wall.
    for (sample, corner) in samples().into_iter().zip([0, 96]) {
        let mut mesh = sample.built();
        for round in 0..6 {
            let stored = Mesh::read(&mesh).unwrap();
            let there = stored
                .leaves()
                .filter(|(_, leaf)| leaf.corners.contains(&corner));
            let numbers: Vec<u16> = there.map(|(number, _)| number as u16).collect();
            assert!(!numbers.is_empty());
            let chosen = selection(7, round, &numbers);
            let mut finer = vec![255; LARGEST_MESH];
            assert_eq!(tmb_refine(&mesh, &chosen, &mut finer), 0, "{}", sample.name);
            let second = refine_vec(&mesh, &chosen).unwrap();
            assert!(finer.starts_with(&second));
            assert!(finer[second.len()..].iter().all(|&byte| byte == 0));
            let report = tmb_check(&second);
            assert_eq!((report.number, report.sixfold), (0, sample.volume()));
            assert!(report.deepest > u64::from(round));
            assert_eq!(tmb_refine(&second, &chosen, &mut finer), 14);
            assert!(finer.iter().all(|&byte| byte == 0));
            mesh = second;
        }
    }
}
