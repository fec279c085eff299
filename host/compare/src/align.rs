//! Batches through the alignment, and damaged calls of it.

use crate::calls::{self, columns, Records};
use crate::cells::{same, Output};
use oracle::alignment::{align, Aligned};
use oracle::gen::alignment::Rows;
use oracle::rng::Rng;
use sage::ml::retention_alignment::Alignment;

/// A batch of any family.
pub fn case(r: &mut Rng) -> Result<usize, String> {
    let batch = oracle::gen::alignment::any(r);
    compared(r, &batch)
}

/// A batch, aligned, and each way to damage the call.
pub fn compared(r: &mut Rng, batch: &Rows) -> Result<usize, String> {
    let mut out = Outputs::new(r, batch);
    let columns = columns(&batch.rows);
    accepted(batch, &columns, &mut out)?;
    Ok(1 + damaged(r, batch, &columns, &mut out)?)
}

/// The slices that an alignment writes.
pub struct Outputs {
    pub workspace: Output<f64>,
    /// The longest times, slopes, intercepts and aligned times.
    pub floats: [Output<f32>; 4],
    /// The numbers of kept peptides.
    pub used: Output<u32>,
    /// The flags.
    pub exact: [Output<bool>; 3],
}

/// The columns of the flags.
pub fn flags(r: &mut Rng, files: usize) -> [Output<bool>; 3] {
    ["max_rt_exact", "slope_exact", "intercept_exact"].map(|name| Output::new(r, name, files))
}

impl Outputs {
    pub fn new(r: &mut Rng, batch: &Rows) -> Outputs {
        Outputs {
            workspace: Output::new(r, "workspace", batch.peptides * batch.files),
            floats: [
                Output::new(r, "max_rt", batch.files),
                Output::new(r, "slope", batch.files),
                Output::new(r, "intercept", batch.files),
                Output::new(r, "aligned", batch.rows.len()),
            ],
            used: Output::new(r, "used", batch.files),
            exact: flags(r, batch.files),
        }
    }

    pub fn call(&mut self, rows: &zorkamai::Rows, files: usize, peptides: usize) -> u8 {
        let [max_rt, slope, intercept, aligned] = &mut self.floats;
        let records = Records {
            lines: [&mut max_rt.now, &mut slope.now, &mut intercept.now],
            used: &mut self.used.now,
            exact: self.exact.each_mut().map(|column| &mut column.now[..]),
        };
        let work = &mut self.workspace.now;
        calls::align(rows, files, peptides, work, records, &mut aligned.now)
    }

    fn reset(&mut self) {
        self.workspace.reset();
        self.floats.iter_mut().for_each(Output::reset);
        self.used.reset();
        self.exact.iter_mut().for_each(Output::reset);
    }

    fn unchanged(&self) -> Result<(), String> {
        self.workspace.unchanged()?;
        self.floats.iter().try_for_each(Output::unchanged)?;
        self.used.unchanged()?;
        self.exact.iter().try_for_each(Output::unchanged)
    }
}

/// The call is accepted and gives what the Rust gives, which is handed back.
pub fn accepted(batch: &Rows, rows: &zorkamai::Rows, out: &mut Outputs) -> Result<Aligned, String> {
    same("status", out.call(rows, batch.files, batch.peptides), 0)?;
    let want = align(batch.files, &batch.rows);
    holds_aligned(&out.floats, &out.used, &out.exact, &want)?;
    out.workspace.zeroed()?;
    Ok(want)
}

/// The longest times, slopes, intercepts and aligned times are the Rust's, and so are the numbers of kept peptides and
/// the flags.
pub fn holds_aligned(
    floats: &[Output<f32>],
    used: &Output<u32>,
    exact: &[Output<bool>; 3],
    want: &Aligned,
) -> Result<(), String> {
    let of = |cell: fn(&Alignment) -> f32| want.records.iter().map(cell).collect::<Vec<f32>>();
    floats[0].holds(&of(|a| a.max_rt))?;
    floats[1].holds(&of(|a| a.slope))?;
    floats[2].holds(&of(|a| a.intercept))?;
    floats[3].holds(&want.times())?;
    for (i, column) in exact.iter().enumerate() {
        column.holds(&want.exact.iter().map(|flags| flags[i]).collect::<Vec<bool>>())?;
    }
    used.holds(&want.used)
}

/// Refused with this status, and nothing changed.
pub fn refused(
    out: &mut Outputs,
    rows: &zorkamai::Rows,
    files: usize,
    peptides: usize,
    status: u8,
) -> Result<(), String> {
    same("status", out.call(rows, files, peptides), status)?;
    out.unchanged()
}

fn damaged(
    r: &mut Rng,
    batch: &Rows,
    rows: &zorkamai::Rows,
    out: &mut Outputs,
) -> Result<usize, String> {
    out.reset();
    let (files, peptides, n) = (batch.files, batch.peptides, rows.len());
    let mut calls = 0;
    let mut refuse = |out: &mut Outputs, rows: &zorkamai::Rows, files, peptides, status| {
        calls += 1;
        refused(out, rows, files, peptides, status)
    };
    // Each column one short.
    for column in 0..5 {
        let mut damaged = rows.clone();
        let cut = match column {
            0 => damaged.file.pop().is_some(),
            1 => damaged.peptide.pop().is_some(),
            2 => damaged.label.pop().is_some(),
            3 => damaged.q.pop().is_some(),
            _ => damaged.rt.pop().is_some(),
        };
        if cut {
            refuse(out, &damaged, files, peptides, 1)?;
        }
    }
    // Past the limits.
    let many = r.pick(&[4_097, 1 << 20, usize::MAX, 1 << 32]);
    refuse(out, rows, 0, peptides, 2)?;
    refuse(out, rows, many, peptides, 2)?;
    let many = r.pick(&[1_048_577, 1 << 32, usize::MAX]);
    refuse(out, rows, files, many, 2)?;
    refuse(out, rows, 4_096, 4_097, 2)?;
    // A number out of range; a file's before a peptide's.
    if n > 0 {
        let at = r.below(n);
        let past = r.pick(&[0, 1, 1 << 20, u32::MAX - 2_000]);
        let mut damaged = rows.clone();
        damaged.peptide[at] = peptides as u32 + past;
        refuse(out, &damaged, files, peptides, 5)?;
        damaged.file[r.below(n)] = (files as u32).saturating_add(past);
        refuse(out, &damaged, files, peptides, 4)?;
    }
    Ok(calls + too_short(batch, rows, out)?)
}

/// Each slice one short.
fn too_short(batch: &Rows, rows: &zorkamai::Rows, out: &mut Outputs) -> Result<usize, String> {
    let mut calls = 0;
    let mut refuse = |out: &mut Outputs| {
        calls += 1;
        refused(out, rows, batch.files, batch.peptides, 3)
    };
    if out.workspace.needed() > 0 {
        let whole = out.workspace.cut();
        refuse(out)?;
        out.workspace = whole;
    }
    for i in 0..4 {
        if out.floats[i].needed() > 0 {
            let whole = out.floats[i].cut();
            refuse(out)?;
            out.floats[i] = whole;
        }
    }
    let whole = out.used.cut();
    refuse(out)?;
    out.used = whole;
    for i in 0..3 {
        let whole = out.exact[i].cut();
        refuse(out)?;
        out.exact[i] = whole;
    }
    Ok(calls)
}
