//! A round on K with what an installation has: build, refine, check, list, the cut taken back, and the used
//! selection again. The functions are declared as tmb.h has them.

#[repr(C)]
struct Report {
    number: u64,
    leaves: u64,
    deepest: u64,
    sixfold: u64,
    record: u64,
    edge: u64,
}

#[repr(C)]
struct Listed {
    number: u64,
    length: u64,
}

extern "C" {
    fn tmb_check(mesh: *const u8, length: usize) -> Report;
    fn tmb_build(
        job: u32,
        coordinates: *const i16,
        coordinate_count: usize,
        corners: *const u16,
        corner_count: usize,
        out: *mut u8,
        room: usize,
    ) -> u32;
    fn tmb_refine(
        mesh: *const u8,
        mesh_length: usize,
        selection: *const u8,
        selection_length: usize,
        out: *mut u8,
        room: usize,
    ) -> u32;
    fn tmb_take_back(
        mesh: *const u8,
        mesh_length: usize,
        request: *const u8,
        request_length: usize,
        out: *mut u8,
        room: usize,
    ) -> u32;
    fn tmb_list(mesh: *const u8, mesh_length: usize, out: *mut u8, room: usize) -> Listed;
}

fn refine(mesh: &[u8], selection: &[u8], out: &mut [u8]) -> u32 {
    let (from, chosen, to) = (mesh.as_ptr(), selection.as_ptr(), out.as_mut_ptr());
    // SAFETY: the pointers and the lengths are those of slices; the third overlaps neither other.
    unsafe { tmb_refine(from, mesh.len(), chosen, selection.len(), to, out.len()) }
}

fn take_back(mesh: &[u8], request: &[u8], out: &mut [u8]) -> u32 {
    let (from, named, to) = (mesh.as_ptr(), request.as_ptr(), out.as_mut_ptr());
    // SAFETY: the pointers and the lengths are those of slices; the third overlaps neither other.
    unsafe { tmb_take_back(from, mesh.len(), named, request.len(), to, out.len()) }
}

fn main() {
    let places: [i16; 12] = [0, 0, 0, 64, 0, 0, 64, 64, 0, 64, 64, 64];
    let piece: [u16; 4] = [0, 1, 2, 3];
    // Record 0, selected for job 7 and round 0.
    let selected = *b"TMS\x01\0\x07\0\0\0\0\0\x01\0\0\0";
    // The same record, named for job 7 and round 1: to be taken back.
    let named = *b"TMS\x01\0\x07\0\0\0\x01\0\x01\0\0\0";
    let (mut built, mut refined, mut again) = ([0; 77], [0; 121], vec![0; 62_484]);
    // SAFETY: the pointers and the lengths are those of arrays; the third overlaps neither other.
    let number = unsafe {
        let (places, piece) = (places.as_ptr(), piece.as_ptr());
        tmb_build(7, places, 12, piece, 4, built.as_mut_ptr(), built.len())
    };
    println!("build {number}");
    println!("refine {}", refine(&built, &selected, &mut refined));
    // SAFETY: the pointer and the length are those of an array.
    let report = unsafe { tmb_check(refined.as_ptr(), refined.len()) };
    let Report {
        number,
        leaves,
        deepest,
        sixfold,
        ..
    } = report;
    println!("check {number} leaves {leaves} deepest {deepest} sixfold {sixfold}");
    assert_eq!((report.record, report.edge), (0, 0));
    let mut text = vec![0; 393_344];
    // SAFETY: the pointers and the lengths are those of an array and a vector, which don't overlap.
    let Listed { number, length } = unsafe {
        let (from, to) = (refined.as_ptr(), text.as_mut_ptr());
        tmb_list(from, refined.len(), to, text.len())
    };
    println!("list {number} length {length}");
    println!("take back {}", take_back(&refined, &named, &mut again));
    println!("refine {}", refine(&refined, &selected, &mut again));
}
