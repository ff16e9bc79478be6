//! The proved services, by the C functions that docs/tmb.h declares.

/// `struct tmb_report` of docs/tmb.h: what check gives back.
#[repr(C)]
#[derive(Clone, Copy, Debug, PartialEq, Eq)]
pub struct Report {
    pub number: u64,
    pub leaves: u64,
    pub deepest: u64,
    pub sixfold: u64,
    pub record: u64,
    pub edge: u64,
}

/// `struct tmb_listed` of docs/tmb.h: what list gives back.
#[repr(C)]
#[derive(Clone, Copy, Debug, PartialEq, Eq)]
pub struct Listed {
    pub number: u64,
    pub length: u64,
}

extern "C" {
    fn tmb_check(mesh: *const u8, length: usize) -> Report;
    fn tmb_build(
        job: u32,
        coordinates: *const i16,
        coordinate_count: usize,
        corners: *const u16,
        corner_count: usize,
        out: *mut u8,
        room: usize,
    ) -> u32;
    fn tmb_refine(
        mesh: *const u8,
        mesh_length: usize,
        selection: *const u8,
        selection_length: usize,
        out: *mut u8,
        room: usize,
    ) -> u32;
    fn tmb_take_back(
        mesh: *const u8,
        mesh_length: usize,
        request: *const u8,
        request_length: usize,
        out: *mut u8,
        room: usize,
    ) -> u32;
    fn tmb_list(mesh: *const u8, mesh_length: usize, out: *mut u8, room: usize) -> Listed;
}

/// The proved check of a stored mesh.
pub fn check(mesh: &[u8]) -> Report {
    // SAFETY: the pointer and the length are those of a slice, which is only read.
    unsafe { tmb_check(mesh.as_ptr(), mesh.len()) }
}

/// The proved build: marks a plain mesh and stores it. The number alone, 0 on acceptance.
pub fn build(job: u32, coordinates: &[i16], corners: &[u16], out: &mut [u8]) -> u32 {
    // SAFETY: the pointers and the lengths are those of slices; the first two are only read, the
    // third is written and overlaps neither.
    unsafe {
        tmb_build(
            job,
            coordinates.as_ptr(),
            coordinates.len(),
            corners.as_ptr(),
            corners.len(),
            out.as_mut_ptr(),
            out.len(),
        )
    }
}

/// The proved refine: takes a stored mesh and a selection and writes the refined one. The number
/// alone, 0 on acceptance.
pub fn refine(mesh: &[u8], selection: &[u8], out: &mut [u8]) -> u32 {
    // SAFETY: the pointers and the lengths are those of slices; the first two are only read, the
    // third is written and overlaps neither.
    unsafe {
        tmb_refine(
            mesh.as_ptr(),
            mesh.len(),
            selection.as_ptr(),
            selection.len(),
            out.as_mut_ptr(),
            out.len(),
        )
    }
}

/// The proved take-back: takes a stored mesh and a request and writes the mesh without the cuts that are
/// taken back. The number alone, 0 on acceptance.
pub fn take_back(mesh: &[u8], request: &[u8], out: &mut [u8]) -> u32 {
    // SAFETY: the pointers and the lengths are those of slices; the first two are only read, the
    // third is written and overlaps neither.
    unsafe {
        tmb_take_back(
            mesh.as_ptr(),
            mesh.len(),
            request.as_ptr(),
            request.len(),
            out.as_mut_ptr(),
            out.len(),
        )
    }
}

/// The proved list: writes the listing of a stored mesh. The number, 0 where an accepted mesh is listed
/// whole, and the length of the text.
pub fn list(mesh: &[u8], out: &mut [u8]) -> Listed {
    // SAFETY: the pointers and the lengths are those of slices; the first is only read, the second is
    // written and does not overlap it.
    unsafe { tmb_list(mesh.as_ptr(), mesh.len(), out.as_mut_ptr(), out.len()) }
}
