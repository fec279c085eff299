//! Batches of rows through `global_alignment`.

use crate::narrow::written_exact;
use crate::text::{bits32, Output, Tokens};
use sage::database::PeptideIx;
use sage::ml::matrix::Matrix;
use sage::ml::retention_alignment::{global_alignment, probe_longest, probe_times, Alignment};
use sage::scoring::Feature;

/// A row's seven fields.
#[derive(Copy, Clone, Debug)]
pub struct Row {
    pub file: usize,
    pub peptide: PeptideIx,
    pub label: i32,
    pub q: f32,
    pub rt: f32,
    pub charge: u8,
    pub ims: f32,
}

impl Row {
    /// A row of a file and a peptide, every other field 0.
    pub fn new(file: usize, peptide: PeptideIx) -> Row {
        Row { file, peptide, label: 0, q: 0.0, rt: 0.0, charge: 0, ims: 0.0 }
    }

    /// The row as sage's `Feature`, with 0 in what sage writes.
    pub fn feature(&self) -> Feature {
        Feature {
            peptide_idx: self.peptide,
            file_id: self.file,
            label: self.label,
            charge: self.charge,
            rt: self.rt,
            ims: self.ims,
            spectrum_q: self.q,
            aligned_rt: 0.0,
            predicted_rt: 0.0,
            delta_rt_model: 0.0,
            predicted_ims: 0.0,
            delta_ims_model: 0.0,
        }
    }
}

/// For each file a record, its number of kept peptides, its longest time, slope and intercept as they are before the
/// narrowing, and whether these are exact; and the rows with their aligned times.
pub struct Aligned {
    pub records: Vec<Alignment>,
    pub used: Vec<u32>,
    pub wide: Vec<[f64; 3]>,
    pub exact: Vec<[bool; 3]>,
    pub features: Vec<Feature>,
}

impl Aligned {
    /// Each file's longest time, slope, intercept and number of kept peptides, as patterns, and its three flags.
    pub fn patterns(&self) -> Vec<[u64; 7]> {
        let record = |i: usize| {
            let a = &self.records[i];
            let [max_rt, slope, intercept] = [a.max_rt, a.slope, a.intercept].map(bits32);
            let [max_rt_exact, slope_exact, intercept_exact] = self.exact[i].map(u64::from);
            let used = self.used[i] as u64;
            [max_rt, slope, intercept, used, max_rt_exact, slope_exact, intercept_exact]
        };
        (0..self.records.len()).map(record).collect()
    }

    /// The rows' aligned times.
    pub fn times(&self) -> Vec<f32> {
        self.features.iter().map(|f| f.aligned_rt).collect()
    }
}

/// Aligns the rows of `files` files.
pub fn align(files: usize, rows: &[Row]) -> Aligned {
    let mut features: Vec<Feature> = rows.iter().map(Row::feature).collect();
    let used = used(&probe_times(&features, files));
    let longest = probe_longest(&features, files);
    sage::take_lines();
    let records = global_alignment(&mut features, files);
    let wide = wide(&longest, &sage::take_lines());
    let exact = exact(&records, &wide);
    Aligned { records, used, wide, exact, features }
}

/// The longest time, slope and intercept of each file.
fn wide(longest: &[f64], lines: &[[f64; 2]]) -> Vec<[f64; 3]> {
    assert_eq!(longest.len(), lines.len(), "a longest time and a line a file");
    let all = longest.iter().zip(lines);
    all.map(|(&longest, &[slope, intercept])| [longest, slope, intercept]).collect()
}

/// Whether the longest time, slope and intercept of each record equal the f64 that sage narrowed to them.
fn exact(records: &[Alignment], wide: &[[f64; 3]]) -> Vec<[bool; 3]> {
    assert_eq!(records.len(), wide.len(), "three f64 a file");
    let flags = |(a, &[longest, slope, intercept]): (&Alignment, &[f64; 3])| {
        [
            written_exact(longest, a.max_rt),
            written_exact(slope, a.slope),
            written_exact(intercept, a.intercept),
        ]
    };
    records.iter().zip(wide).map(flags).collect()
}

/// The kept peptides of each file: the finite cells of its column of the times.
fn used(times: &Matrix) -> Vec<u32> {
    let mut used = vec![0; times.cols];
    for (place, time) in times.data.iter().enumerate() {
        used[place % times.cols] += time.is_finite() as u32;
    }
    used
}

/// Which columns a row has: an alignment's rows have no charge and no mobility.
#[derive(Copy, Clone, PartialEq)]
pub enum Columns {
    Alignment,
    Run,
}

/// Reads `n` rows, column after column.
pub fn read_rows(
    input: &mut Tokens,
    n: usize,
    files: usize,
    peptides: usize,
    columns: Columns,
) -> Result<Vec<Row>, String> {
    let below = |limit: usize| {
        move |t: &mut Tokens| t.at_most(limit.checked_sub(1).ok_or("a row of nothing")?)
    };
    let file = input.column(n, below(files))?;
    let peptide = input.column(n, below(peptides))?;
    let label = input.column(n, Tokens::i32)?;
    let q = input.column(n, Tokens::f32)?;
    let rt = input.column(n, Tokens::f32)?;
    let more = if columns == Columns::Run { n } else { 0 };
    let charge = input.column(more, |t| t.at_most(255))?;
    let ims = input.column(more, Tokens::f32)?;
    let row = |i: usize| Row {
        file: file[i],
        peptide: PeptideIx(peptide[i] as u32),
        label: label[i],
        q: q[i],
        rt: rt[i],
        charge: charge.get(i).map_or(0, |&z| z as u8),
        ims: ims.get(i).copied().unwrap_or(0.0),
    };
    Ok((0..n).map(row).collect())
}

/// Writes rows as `read_rows` reads them, NaNs as they are.
pub fn write_rows(out: &mut Output, rows: &[Row], columns: Columns) {
    let mut column = |cell: fn(&Row) -> u64| rows.iter().for_each(|row| out.bits(cell(row)));
    column(|row| row.file as u64);
    column(|row| row.peptide.0 as u64);
    column(|row| row.label as u32 as u64);
    column(|row| row.q.to_bits() as u64);
    column(|row| row.rt.to_bits() as u64);
    if columns == Columns::Run {
        column(|row| row.charge as u64);
        column(|row| row.ims.to_bits() as u64);
    }
}

/// Writes the seven columns of the files' records and the aligned times.
pub fn write_aligned(out: &mut Output, aligned: &Aligned) {
    let records = aligned.patterns();
    for column in 0..7 {
        records.iter().for_each(|record| out.bits(record[column]));
    }
    aligned.features.iter().for_each(|f| out.f32(f.aligned_rt));
}

/// Answers one alignment: 0, then the records and the aligned times.
pub fn answer(input: &mut Tokens, out: &mut Output) -> Result<(), String> {
    let (files, peptides, n) = (input.number()?, input.number()?, input.number()?);
    let rows = read_rows(input, n, files, peptides, Columns::Alignment)?;
    out.number(0);
    write_aligned(out, &align(files, &rows));
    Ok(())
}
