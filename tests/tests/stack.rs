//! How much stack a call takes, as docs/tmb.h says it: the services run in threads that have little
//! more, on meshes whose tables are full.

use compared::meshes::{cubes, filled, full_base, open_leaves, separate};
use compared::random::Random;
use compared::{tmb_build, tmb_check, tmb_list, tmb_refine, tmb_take_back};
use second::selection;

/// What docs/tmb.h promises, and 32 KiB for the thread itself.
const STACK: usize = (256 + 32) * 1024;

/// Runs a call in a thread with so much stack; one that takes more ends the whole run.
fn with_little_stack<T: Send + 'static>(call: impl FnOnce() -> T + Send + 'static) -> T {
    std::thread::Builder::new()
        .stack_size(STACK)
        .spawn(call)
        .expect("a thread")
        .join()
        .expect("the call returns")
}

#[test]
fn the_services_take_no_more_than_a_quarter_of_a_mebibyte() {
    let mut random = Random::new(20261116);
    let full = full_base(&mut random).built(1).bytes();
    let apart = filled(separate(48).built(1), &mut random).bytes();
    for mesh in [full, apart] {
        let checked = mesh.clone();
        assert_eq!(with_little_stack(move || tmb_check(&checked)).number, 0);
        let mut text = vec![0; 393_344];
        assert_eq!(
            with_little_stack(move || tmb_list(&mesh, &mut text)).number,
            0
        );
    }
    let plain = cubes([8, 8, 8], 64);
    let (places, corners) = (plain.places.concat(), plain.pieces.concat());
    let mut out = vec![0; 62_484];
    assert_eq!(
        with_little_stack(move || tmb_build(1, &places, &corners, &mut out)),
        0
    );
    let mesh = cubes([5, 5, 5], 64).built(1);
    let chosen = selection(mesh.job, mesh.round, &open_leaves(&mesh));
    let bytes = mesh.bytes();
    let (number, finer) = with_little_stack(move || {
        let mut out = vec![0; 41_680];
        (tmb_refine(&bytes, &chosen, &mut out), out)
    });
    assert_eq!(number, 0);
    // Its 750 base records are cut.
    let cut: Vec<u16> = (0..750).collect();
    let request = selection(mesh.job, mesh.round + 1, &cut);
    let mut out = vec![0; 62_484];
    assert_eq!(
        with_little_stack(move || tmb_take_back(&finer, &request, &mut out)),
        0
    );
}
