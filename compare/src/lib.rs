//! A second opinion on document 01, and on document 02 as far as it has landed: the same rules, written
//! from their text alone.
//!
//! Nothing here is proved and nothing is shared with the proved crates; `compare` runs both on the same
//! input and reports the first difference. Quoted sentences are document 01's, or 02's where they say so.

pub mod book;
pub mod check;
pub mod events;
pub mod isin;
pub mod page;
pub mod price;
pub mod table;
