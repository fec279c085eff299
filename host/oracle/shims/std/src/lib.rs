//! The standard library under sage's name `std`, with one change: `HashMap` is the ordered map.
//!
//! Sage walks a `HashMap` from file number to time; document 01 reads it as files in rising number.

pub use ::std::*;

/// The collections, `HashMap` in rising order of its keys.
pub mod collections {
    pub use ::std::collections::BTreeMap as HashMap;
    pub use ::std::collections::*;
}
