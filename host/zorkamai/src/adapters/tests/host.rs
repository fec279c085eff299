//! A host for the tests: random rows with the host's peptide numbers, and its peptides.

use crate::adapters::{Database, Feature};
use crate::Row;

/// Random numbers (splitmix64).
pub struct Rng(pub u64);

impl Rng {
    fn bits(&mut self) -> u64 {
        self.0 = self.0.wrapping_add(0x9E37_79B9_7F4A_7C15);
        let z = (self.0 ^ (self.0 >> 30)).wrapping_mul(0xBF58_476D_1CE4_E5B9);
        let z = (z ^ (z >> 27)).wrapping_mul(0x94D0_49BB_1331_11EB);
        z ^ (z >> 31)
    }

    fn below(&mut self, n: u64) -> u64 {
        self.bits() % n
    }

    fn any_float(&mut self) -> f32 {
        f32::from_bits(self.bits() as u32)
    }

    /// A float from 0 up to 1.
    fn unit(&mut self) -> f32 {
        self.below(1 << 24) as f32 / (1 << 24) as f32
    }
}

/// A row with the host's peptide number, and what is written to it.
pub struct Psm {
    pub file_id: usize,
    pub row: Row,
    pub aligned_rt: f32,
    pub retention: (f32, f32),
    pub mobility: (f32, f32),
}

/// What a row holds before a model writes to it.
pub const HELD: (f32, f32) = (-1.0, -2.0);

impl Psm {
    pub fn new(row: Row) -> Psm {
        let file_id = row.file as usize;
        Psm { file_id, row, aligned_rt: -3.0, retention: HELD, mobility: HELD }
    }
}

impl Feature for Psm {
    fn file_id(&self) -> usize {
        self.file_id
    }
    fn peptide_idx(&self) -> u32 {
        self.row.peptide
    }
    fn label(&self) -> i32 {
        self.row.label
    }
    fn spectrum_q(&self) -> f32 {
        self.row.q
    }
    fn rt(&self) -> f32 {
        self.row.rt
    }
    fn charge(&self) -> u8 {
        self.row.charge
    }
    fn ims(&self) -> f32 {
        self.row.mobility
    }
    fn aligned_rt(&self) -> f32 {
        self.aligned_rt
    }
    fn set_aligned_rt(&mut self, aligned_rt: f32) {
        self.aligned_rt = aligned_rt;
    }
    fn set_retention(&mut self, predicted_rt: f32, delta_rt_model: f32) {
        self.retention = (predicted_rt, delta_rt_model);
    }
    fn set_mobility(&mut self, predicted_ims: f32, delta_ims_model: f32) {
        self.mobility = (predicted_ims, delta_ims_model);
    }
}

/// The host's peptides, one for every number, few of them without letters.
pub struct Peptides;

impl Database for Peptides {
    fn sequence(&self, number: u32) -> &[u8] {
        let (from, length) = (number as usize % 13, (number as usize + 5) % 37 % 12);
        &b"ACDEFGHIKLMNPQRSTVWYUOBJXZ"[from..from + length]
    }
    fn monoisotopic(&self, number: u32) -> f32 {
        300.0 + (number.wrapping_mul(0x9E37_79B1) >> 8) as f32 / 8_192.0
    }
}

/// A host's number, by the sort of a list: one of few, one of few far apart, one near 0 or the largest, or any.
fn number(r: &mut Rng, sort: u64) -> u32 {
    match sort {
        0 => r.below(5) as u32,
        1 => 1_000 * r.below(12) as u32,
        2 => (r.below(6) as u32).wrapping_sub(3),
        _ => r.bits() as u32,
    }
}

/// Rows of any content, or none.
pub fn any_rows(r: &mut Rng) -> Vec<Psm> {
    let (n, sort) = (r.below(25), r.below(4));
    let row = |_| Row {
        file: r.bits() as u32,
        peptide: number(r, sort),
        label: r.bits() as i32,
        q: r.any_float(),
        rt: r.any_float(),
        charge: r.bits() as u8,
        mobility: r.any_float(),
    };
    (0..n).map(row).map(Psm::new).collect()
}

/// Rows of two files that an alignment and the models take, or none.
pub fn plain_rows(r: &mut Rng) -> Vec<Psm> {
    let (n, sort) = (r.below(25), r.below(4));
    let row = |_| Row {
        file: r.below(2) as u32,
        peptide: number(r, sort),
        label: 1 - 2 * (r.below(4) == 0) as i32,
        q: 0.02 * r.unit(),
        rt: 90.0 * r.unit(),
        charge: 1 + r.below(4) as u8,
        mobility: 2.0 * r.unit(),
    };
    (0..n).map(row).map(Psm::new).collect()
}
