//! Rows and peptides of every sort, which both models fit.

use zorkamai::{PeptideTable, Row, Rows};

pub struct Batch {
    pub rows: Rows,
    pub table: PeptideTable,
}

/// Numbers below `n`, from a fixed seed.
struct Numbers(u64);

impl Numbers {
    fn below(&mut self, n: u64) -> u64 {
        self.0 = self.0.wrapping_mul(6_364_136_223_846_793_005).wrapping_add(1);
        (self.0 >> 33) % n
    }
}

impl Batch {
    /// 400 rows of 40 peptides in so many files, rows in the last ones: most train, and some have a time that is no
    /// number, negative, 0 or past 2^32.
    pub fn new(files: usize) -> Batch {
        let mut r = Numbers(12);
        let mut table = PeptideTable::default();
        for i in 0..40 {
            let length = if i == 0 { 255 } else { 1 + r.below(30) };
            let letters: Vec<u8> = (0..length).map(|_| b'A' + r.below(26) as u8).collect();
            table.push(&letters, 110.0 * length as f32 + 18.0);
        }
        let row = |i: usize| {
            let rt = match r.below(40) {
                0 => [f32::NAN, -3.0, 0.0, 5E9][r.below(4) as usize],
                _ => 1.0 + r.below(9_900) as f32 / 100.0,
            };
            Row {
                file: (files - 1 - i % files) as u32,
                peptide: r.below(40) as u32,
                label: if r.below(5) == 0 { -1 } else { 1 },
                q: r.below(120) as f32 / 11_000.0,
                rt,
                charge: 1 + r.below(4) as u8,
                mobility: 0.5 + r.below(1_000) as f32 / 1_000.0,
            }
        };
        Batch { rows: (0..400).map(row).collect(), table }
    }
}
