//! Alignments of a list and of the same rows in another order: no number of the Rust's or of the
//! library's moves, and each row's aligned time goes with the row.

use crate::align::{accepted, Outputs};
use crate::calls::columns;
use oracle::alignment::Aligned;
use oracle::gen::alignment::Rows;
use oracle::rng::Rng;

/// A list in two orders: the library gives in each what the Rust gives, and the Rust the same in
/// both.
pub fn case(r: &mut Rng) -> Result<usize, String> {
    let orders = oracle::gen::order::any(r);
    let first = aligned(r, &orders.first)?;
    let other = aligned(r, &orders.other).map_err(|e| format!("in the other order, {e}"))?;
    orders.agree(&first, &other)?;
    Ok(2)
}

/// What the Rust gives, and the library too.
fn aligned(r: &mut Rng, batch: &Rows) -> Result<Aligned, String> {
    let mut out = Outputs::new(r, batch);
    accepted(batch, &columns(&batch.rows), &mut out)
}
