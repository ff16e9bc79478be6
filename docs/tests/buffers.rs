//! "After a refusal the output buffer is zero throughout; after acceptance it is zero past the
//! result. Inputs are only read."

mod common;
use common::*;
use second::{build, check, list, list_into, refine, selection, Listed};

#[test]
fn every_length_of_buffer() {
    let mesh = k();
    let chosen = selection(7, 0, &[0]);
    let result = refined(&mesh, &[0]);
    for length in (0..300).chain([FULL - 1, FULL, FULL + 1]) {
        for filled in [0x00, 0x55, 0xFF] {
            let mut out = vec![filled; length];
            let number = refine(&mesh, &chosen, &mut out);
            assert_eq!(number, if length < 121 { 20 } else { 0 });
            let mut wanted = vec![0; length];
            if number == 0 {
                wanted[..121].copy_from_slice(&result);
            }
            assert_eq!(out, wanted);

            let mut out = vec![filled; length];
            let number = build(7, &K_COORDINATES, &[0, 1, 2, 3], &mut out);
            assert_eq!(number, if length < 77 { 20 } else { 0 });
            let mut wanted = vec![0; length];
            if number == 0 {
                wanted[..77].copy_from_slice(&mesh);
            }
            assert_eq!(out, wanted);
        }
    }
}

#[test]
fn after_every_refusal_the_buffer_is_zero() {
    let mesh = cube();
    let refusals = [
        (mesh[..30].to_vec(), choose(&mesh, &[0]), 1),
        (mesh.clone(), vec![], 11),
        (mesh.clone(), vec![0; 13], 12),
        (mesh.clone(), selection(2, 0, &[0]), 13),
        (mesh.clone(), selection(1, 1, &[0]), 14),
        (mesh.clone(), selection(1, 0, &[6]), 15),
    ];
    for (mesh, chosen, number) in refusals {
        refine_refused("a refusal", &mesh, &chosen, number);
    }
    // A result that was there before is gone after a refusal.
    let mut out = vec![0; FULL];
    assert_eq!(refine(&mesh, &choose(&mesh, &[0]), &mut out), 0);
    assert_eq!(&out[..3], b"TMB");
    assert_eq!(refine(&mesh, &selection(2, 0, &[0]), &mut out), 13);
    assert!(out.iter().all(|&byte| byte == 0));
    // A shorter result leaves nothing of a longer one.
    assert_eq!(refine(&mesh, &choose(&mesh, &[0]), &mut out), 0);
    assert_eq!(refine(&k(), &choose(&k(), &[0]), &mut out), 0);
    assert_eq!(out[..121], refined(&k(), &[0]));
    assert!(out[121..].iter().all(|&byte| byte == 0));
}

/// The listing's text and zeros past it, also of a refused mesh; zeros throughout where there is no room.
#[test]
fn every_length_of_buffer_for_the_listing() {
    let listed = |number, length| Listed { number, length };
    let cut = refined(&k(), &[0]);
    for length in 0..300 {
        for filled in [0x00, 0x55, 0xFF] {
            for (mesh, text, number, short) in [
                (&cut[..], list(&cut), 0, 20),
                (&cut[..120], b"refused 1\n".to_vec(), 1, 1),
            ] {
                let mut out = vec![filled; length];
                let given = list_into(mesh, &mut out);
                let mut wanted = vec![0; length];
                if length < text.len() {
                    assert_eq!(given, listed(short, 0));
                } else {
                    assert_eq!(given, listed(number, text.len() as u64));
                    wanted[..text.len()].copy_from_slice(&text);
                }
                assert_eq!(out, wanted);
            }
        }
    }
}

#[test]
fn inputs_are_only_read() {
    let (mesh, chosen) = (cube(), choose(&cube(), &[2, 4]));
    let (mesh_before, chosen_before) = (mesh.clone(), chosen.clone());
    let mut out = vec![0; FULL];
    assert_eq!(refine(&mesh, &chosen, &mut out), 0);
    let first = out.clone();
    assert_eq!((&mesh, &chosen), (&mesh_before, &chosen_before));
    assert_eq!(check(&mesh), check(&mesh_before));
    assert_eq!(list(&mesh), list(&mesh_before));
    assert_eq!((&mesh, &chosen), (&mesh_before, &chosen_before));
    // The same inputs give the same result again: nothing is kept.
    assert_eq!(refine(&mesh, &chosen, &mut out), 0);
    assert_eq!(out, first);
}

#[test]
fn the_selections_bytes() {
    assert_eq!(
        selection(0x0403_0201, 0x0605, &[7, 0x0908]),
        [b'T', b'M', b'S', 1, 0, 1, 2, 3, 4, 5, 6, 2, 0, 7, 0, 8, 9]
    );
    assert_eq!(selection(7, 0, &[]).len(), 13);
}
