//! Lists of rows in two orders, for the alignment, which must not follow the order: peptides with
//! several times in a file, among them NaNs, infinities and zeros of both signs.

use super::alignment::{self, nasty_q, nasty_time, other_label, training, Rows};
use crate::alignment::{Aligned, Row};
use crate::rng::Rng;
use crate::text::{bits32, bits64};

/// A list, and the same rows in another order.
pub struct Orders {
    pub first: Rows,
    pub other: Rows,
    /// For each row of the other order its place in the first.
    places: Vec<usize>,
}

impl Orders {
    /// A list, and its rows in the order of these places, which are all places, each once.
    pub fn new(first: Rows, places: Vec<usize>) -> Orders {
        let mut all = places.clone();
        all.sort_unstable();
        assert!(all.into_iter().eq(0..first.rows.len()), "every place once");
        let rows = places.iter().map(|&at| first.rows[at]).collect();
        let other = Rows { files: first.files, peptides: first.peptides, rows };
        Orders { first, other, places }
    }

    /// That alignments of the first order and of the other have the same numbers to the bit, NaNs
    /// alike: each file's record, used count and flags, its f64 before the narrowing, and each
    /// row's aligned time, at the row's new place.
    pub fn agree(&self, first: &Aligned, other: &Aligned) -> Result<(), String> {
        alike("record", &first.patterns(), &other.patterns())?;
        alike("f64 of record", &wide(first), &wide(other))?;
        let before = times(first);
        let moved: Vec<u64> = self.places.iter().map(|&at| before[at]).collect();
        alike("aligned time", &moved, &times(other))
    }
}

fn wide(aligned: &Aligned) -> Vec<[u64; 3]> {
    aligned.wide.iter().map(|floats| floats.map(bits64)).collect()
}

fn times(aligned: &Aligned) -> Vec<u64> {
    aligned.times().into_iter().map(bits32).collect()
}

/// That two lists of patterns are the same.
fn alike<T: PartialEq + std::fmt::Debug>(
    what: &str,
    first: &[T],
    other: &[T],
) -> Result<(), String> {
    let differ = |(_, (a, b)): &(usize, (&T, &T))| a != b;
    match first.iter().zip(other).enumerate().find(differ) {
        Some((i, (a, b))) => Err(format!("{what} {i} is {b:X?} in the other order, not {a:X?}")),
        None if first.len() == other.len() => Ok(()),
        None => Err(format!("{what}: {} in the other order, not {}", other.len(), first.len())),
    }
}

/// A list of any sort in two orders.
pub fn any(r: &mut Rng) -> Orders {
    let first = list(r);
    let places = places(r, &first.rows);
    Orders::new(first, places)
}

/// A list of any sort, its rows in no order.
fn list(r: &mut Rng) -> Rows {
    let mut list = match r.below(12) {
        0 => return alignment::any(r),
        1 | 2 => few_times(r),
        _ => cells(r),
    };
    for row in &mut list.rows {
        if r.one_in(10) {
            row.q = nasty_q(r);
        }
        if r.one_in(12) {
            row.label = other_label(r);
        }
    }
    list.rows = r.shuffled(list.rows);
    list
}

/// Rows of any file and peptide that share a few times, in one list of eight NaN alone.
fn few_times(r: &mut Rng) -> Rows {
    let (files, peptides, rows) = (r.range(1, 3), r.range(1, 3), r.below(14));
    let times: Vec<f32> = match r.one_in(8) {
        true => vec![f32::NAN],
        false => (0..r.range(1, 5)).map(|_| time(r)).collect(),
    };
    let row = |r: &mut Rng| training(r.below(files), r.below(peptides) as u32, r.pick(&times));
    Rows { files, peptides, rows: (0..rows).map(|_| row(r)).collect() }
}

/// A cell of times for each peptide in each file, and some rows outside the training set.
fn cells(r: &mut Rng) -> Rows {
    let (files, peptides) = (r.range(1, 3), r.range(2, 4));
    let mut rows = vec![];
    for file in 0..files {
        for peptide in 0..peptides as u32 {
            rows.extend(cell(r).into_iter().map(|rt| training(file, peptide, rt)));
        }
        let outside = |r: &mut Rng| Row { label: -1, ..training(file, 0, time(r)) };
        rows.extend((0..r.below(3)).map(|_| outside(r)));
    }
    Rows { files, peptides, rows }
}

/// A peptide's times in a file: none, both zeros, NaNs, any two, or a plain one; and some more, of
/// which most don't undercut a zero.
fn cell(r: &mut Rng) -> Vec<f32> {
    let mut times = match r.below(10) {
        0 => return vec![],
        1..=3 => vec![0.0, -0.0],
        4 => return vec![f32::NAN; r.range(1, 3)],
        5 => vec![time(r), time(r)],
        _ => vec![100.0 * r.unit() as f32],
    };
    let more = |r: &mut Rng| match r.below(6) {
        0 => time(r),
        1 => f32::INFINITY,
        2 | 3 => f32::NAN,
        _ => 100.0 * r.unit() as f32,
    };
    times.extend((0..r.below(3)).map(|_| more(r)));
    times
}

/// A time of a small pool, or any nasty one.
fn time(r: &mut Rng) -> f32 {
    let small = f32::from_bits(r.range(1, 3) as u32);
    match r.below(4) {
        0 => nasty_time(r),
        1 => r.pick(&[0.0, -0.0, f32::NAN, f32::INFINITY, f32::NEG_INFINITY]),
        2 => r.pick(&[small, -small, 1E-38, -1E-38, -3.0, -0.5]),
        _ => r.pick(&[1.0, 5.0, 9.2, 10.0, 5E9, 16_777_216.0]),
    }
}

/// Another order of the rows: backwards, by time both ways, by file, or any.
fn places(r: &mut Rng, rows: &[Row]) -> Vec<usize> {
    let mut places: Vec<usize> = (0..rows.len()).collect();
    match r.below(8) {
        0 => places.reverse(),
        1 => places.sort_by(|&a, &b| rows[a].rt.total_cmp(&rows[b].rt)),
        2 => places.sort_by(|&a, &b| rows[b].rt.total_cmp(&rows[a].rt)),
        3 => places.sort_by_key(|&at| rows[at].file),
        _ => return r.shuffled(places),
    }
    places
}
