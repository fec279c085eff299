//! The two steps of the library that add a sample to the normal equations, compiled: the one that fits use, which
//! skips zeros, and the one that visits every pair of columns. No entry point: `host/compare` tries them on any rows,
//! which no batch holds. `.ci/staticlib regression_export` makes the library.

// A slice is passed as a pointer and a length.
unsafe extern "C" {
    fn zk_add_row(workspace: *mut f64, cells: usize, d: usize, ext: *const f64, width: usize);
    fn zk_add_row_sparse(
        workspace: *mut f64,
        cells: usize,
        d: usize,
        ext: *const f64,
        width: usize,
        places: *mut usize,
        many_places: usize,
        starts: *const usize,
        many_starts: usize,
    ) -> u32;
    fn zk_put_starts(starts: *mut usize, many: usize, d: usize);
}

/// A fit's work room, of an order up to 100, the room for places, and the starts of its stored rows.
pub struct Equations {
    d: usize,
    /// The full rows, which a step leaves, and then the stored ones.
    pub workspace: Vec<f64>,
    places: Vec<usize>,
    starts: Vec<usize>,
}

impl Equations {
    /// Of order `d`, with these cells: the workspace of document 01.
    pub fn new(d: usize, cells: impl FnMut() -> f64) -> Equations {
        assert!(d <= 100, "the largest order");
        let cells = std::iter::repeat_with(cells);
        let workspace = cells.take(d * d + d * (d + 1) / 2 + 2 * d).collect();
        let mut starts = vec![0; d];
        // SAFETY: the slice is live, and has a number for each of up to 100 rows.
        unsafe { zk_put_starts(starts.as_mut_ptr(), starts.len(), d) }
        Equations { d, workspace, places: vec![0; d + 1], starts }
    }

    /// The stored cells: each row from its diagonal on, and then the right side's.
    pub fn stored(&mut self) -> &mut [f64] {
        &mut self.workspace[self.d * (self.d + 1)..]
    }

    /// Adds a sample, its design row and then its target, at every pair of columns.
    pub fn add_row(&mut self, ext: &[f64]) {
        assert_eq!(ext.len(), self.d + 1);
        let work = &mut self.workspace;
        // SAFETY: the slices are live and apart; the order, the workspace and the row are as the step asks.
        unsafe { zk_add_row(work.as_mut_ptr(), work.len(), self.d, ext.as_ptr(), ext.len()) }
    }

    /// Adds a sample with its zeros skipped, and gives the number of pairs of columns that were visited.
    pub fn add_row_sparse(&mut self, ext: &[f64]) -> u32 {
        assert_eq!(ext.len(), self.d + 1);
        let Equations { d, workspace, places, starts } = self;
        // SAFETY: as above; the room has a number for each cell of the row, and the starts are those of the order.
        unsafe {
            zk_add_row_sparse(
                workspace.as_mut_ptr(),
                workspace.len(),
                *d,
                ext.as_ptr(),
                ext.len(),
                places.as_mut_ptr(),
                places.len(),
                starts.as_ptr(),
                starts.len(),
            )
        }
    }
}
