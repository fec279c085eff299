
// Appended to the copy by the oracle's build: reads what the alignment keeps to itself.
/// The files' longest times, as they are before the narrowing.
pub fn probe_longest(features: &[Feature], n_files: usize) -> Vec<f64> {
    max_rt_by_file(features, n_files)
}

/// The smallest time of each peptide in each file that it trains in, as it is before the division.
pub fn probe_smallest(features: &[Feature]) -> Vec<(PeptideIx, usize, f64)> {
    let peptides = mean_rt_by_file(features);
    let times = peptides.par_iter().map(|entry| {
        let time = |(&file, &rt): (&usize, &f64)| (*entry.key(), file, rt);
        entry.value().iter().map(time).collect::<Vec<_>>()
    });
    times.flatten().collect()
}

/// The matrix of times: a row for each kept peptide, a column for each file, NaN where the peptide is not in it.
pub fn probe_times(features: &[Feature], n_files: usize) -> Matrix {
    rt_matrix(features, &max_rt_by_file(features, n_files)).1
}
