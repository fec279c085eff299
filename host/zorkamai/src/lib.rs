//! Sage's retention time alignment, its retention and mobility models and its ridge solver, proved to the
//! bit and compiled into a static library: this is the safe Rust side of it, without dependencies.
//!
//! [`align`] puts the times of all files on one scale, [`retention`] and [`mobility`] fit the models and
//! predict rows, [`run`] does all three, [`solve`] solves a system as their fits do, [`record_of`] and
//! [`aligned_time`] look a file up in a list of records, and [`Column`] walks down a column of a matrix. Each
//! function allocates what it needs and answers a [`Result`]; an [`Error`] says which row, column or limit
//! was wrong. [`raw`] has the same functions over slices of the caller's, [`adapters`] takes the place of
//! sage's own calls.
//!
//! ```
//! let mut rows = zorkamai::Rows::default();
//! for (file, peptide, rt) in [(0, 0, 5.0), (0, 1, 10.0), (1, 0, 10.0), (1, 1, 20.0)] {
//!     rows.push(zorkamai::Row { file, peptide, label: 1, q: 0.001, rt, ..Default::default() });
//! }
//! let aligned = zorkamai::align(&rows, 2, 2)?;
//! assert_eq!(aligned.records[1].max_rt, 20.0);
//! assert_eq!(aligned.aligned[0], aligned.aligned[2]);
//! # Ok::<(), zorkamai::Error>(())
//! ```
//!
//! Linking: `build.rs` takes `libzorkamai.a` from `$STATICLIB_DIR` (a whole path), or else from
//! `target/staticlib` of the repository, where `.ci/staticlib zorkamai` writes it.

pub mod adapters;
mod alignment;
mod column;
mod error;
mod models;
pub mod raw;
mod rows;
mod run;
mod solver;

pub use alignment::{align, aligned_time, record_of, Aligned};
pub use column::Column;
pub use error::Error;
pub use models::{mobility, retention, Fit, Predicted};
pub use raw::Alignment;
pub use rows::{PeptideTable, Row, Rows};
pub use run::{run, Run};
pub use solver::{solve, Solution};

/// The limits of what may be handed in: those of `crates/status`, as tests/limits.rs holds.
pub mod limits {
    /// Of files; at least 1.
    pub const FILES: usize = 4_096;
    /// Of rows.
    pub const ROWS: usize = 1_048_576;
    /// Of peptides.
    pub const PEPTIDES: usize = 1_048_576;
    /// Of peptides × files.
    pub const CELLS: usize = 16_777_216;
    /// Of a peptide's letters.
    pub const LETTERS: usize = 255;
    /// Of the solver's order, n; at least 1.
    pub const ORDER: usize = 100;
    /// Of the solver's right columns, c; at least 1.
    pub const COLUMNS: usize = 8;
}
