//! The station's command: build, check, select, refine, take back and list on files. The services
//! decide, by the C functions of the static library; here files are read and written and numbers are put
//! into words.

pub mod commands;
pub mod cuts;
pub mod explained;
pub mod files;
pub mod hanging;
pub mod help;
pub mod plain;
pub mod refusals;
pub mod station;
pub mod stored;
