//! The proved services through their C functions, and meshes to compare them on with the second
//! program: built, refined, renumbered and damaged at random. The picture of their times.

pub mod answers;
pub mod buffers;
pub mod damage;
pub mod inside;
pub mod meshes;
pub mod named;
pub mod plot;
pub mod random;
pub mod renumber;

use second::{Listed, Report};
pub use tmb::station::{build as tmb_build, refine as tmb_refine, take_back as tmb_take_back};

/// The proved check of a stored mesh, its report as the second program's.
pub fn tmb_check(mesh: &[u8]) -> Report {
    let report = tmb::station::check(mesh);
    Report {
        number: report.number,
        leaves: report.leaves,
        deepest: report.deepest,
        sixfold: report.sixfold,
        record: report.record,
        edge: report.edge,
    }
}

/// The proved listing of a stored mesh, its answer as the second program's.
pub fn tmb_list(mesh: &[u8], out: &mut [u8]) -> Listed {
    let listed = tmb::station::list(mesh, out);
    Listed {
        number: listed.number,
        length: listed.length,
    }
}
