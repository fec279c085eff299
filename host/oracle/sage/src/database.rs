//! Stand-in for sage's database.rs: a peptide's number and the table it indexes.

use crate::peptide::Peptide;

/// A peptide's number.
#[derive(Hash, Copy, Clone, PartialEq, Eq, PartialOrd, Ord, Debug)]
pub struct PeptideIx(pub u32);

/// The peptide table.
pub struct IndexedDatabase {
    pub peptides: Vec<Peptide>,
}

impl std::ops::Index<PeptideIx> for IndexedDatabase {
    type Output = Peptide;

    fn index(&self, index: PeptideIx) -> &Peptide {
        &self.peptides[index.0 as usize]
    }
}
