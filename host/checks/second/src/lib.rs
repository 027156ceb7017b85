//! A second implementation of document 01, as document 02's requests amend it, written from the papers
//! alone and in the plainest way: what the proved crates answer is compared with it. It shares no code
//! with them.

pub mod arrival;
pub mod band;
#[cfg(test)]
mod cases;
pub mod claims;
pub mod cubic;
pub mod cursor;
mod fraction;
pub mod heat;
pub mod heat_list;
pub mod heat_table;
pub mod page;
pub mod random;
pub mod report;
pub mod sheet;
pub mod sheet_list;
pub mod state;
pub mod viscosity;
pub mod walk;
pub mod writer;

/// The number of what C sees of the library, as the header that it was written beside has it.
pub const ABI: u64 = 1;
