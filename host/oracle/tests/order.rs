//! The alignment's sums go by rising peptide and rising file: a plain rendering of document 01 agrees, on the
//! records, on the numbers of kept peptides and on the flags.

use oracle::alignment::{align, Row};
use oracle::rng::Rng;
use oracle::text::bits32;
use sage::database::PeptideIx;

const FILES: usize = 4;
const PEPTIDES: usize = 30;

/// A peptide's times as shares of the longest, file by file.
type Shares = [Option<f64>; FILES];

/// The longest times over all rows.
fn longest(rows: &[Row]) -> [f64; FILES] {
    let times =
        |file: usize| rows.iter().filter(move |r| r.file == file).map(|r| r.rt.ceil() as u32);
    std::array::from_fn(|file| times(file).max().unwrap_or(0) as f64)
}

/// The shares of each peptide whose mean is normal, and that mean; all rows train.
fn kept(rows: &[Row], longest: &[f64; FILES]) -> Vec<(Shares, f64)> {
    let shares = |peptide: usize| -> Shares {
        std::array::from_fn(|file| {
            let own = rows.iter().filter(|r| r.file == file && r.peptide.0 as usize == peptide);
            own.map(|r| r.rt as f64).reduce(f64::min).map(|t| t / longest[file])
        })
    };
    let mean = |s: &Shares| {
        let (sum, n) = s.iter().flatten().fold((0.0, 0.0), |(sum, n), x| (sum + x, n + 1.0));
        sum / n
    };
    let all = (0..PEPTIDES).map(shares).map(|s| (s, mean(&s)));
    all.filter(|(_, mean)| mean.is_normal()).collect()
}

/// A file's slope, intercept and number of points.
fn line(file: usize, kept: &[(Shares, f64)]) -> (f64, f64, usize) {
    let points: Vec<(f64, f64)> = kept.iter().filter_map(|(s, y)| Some((s[file]?, *y))).collect();
    let sum = |from: f64, term: &dyn Fn(f64, f64) -> f64| {
        points.iter().fold(from, |sum, &(x, y)| sum + term(x, y))
    };
    let len = points.len() as f64;
    let (x_mean, y_mean) = (sum(0.0, &|x, _| x) / len, sum(0.0, &|_, y| y) / len);
    let above = sum(0.0, &|x, y| x * y) - len * x_mean * y_mean;
    let slope = above / sum(1E-8, &|x, _| (x - x_mean) * (x - x_mean));
    let intercept = y_mean - slope * x_mean;
    let or = |x: f64, other: f64| if x.is_finite() { x } else { other };
    (or(slope, 1.0), or(intercept, 0.0), points.len())
}

/// The records' patterns by the rendering above, and for each float whether it equals its f64.
fn rendered(rows: &[Row]) -> Vec<[u64; 7]> {
    let longest = longest(rows);
    let kept = kept(rows, &longest);
    let record = |file: usize| {
        let (slope, intercept, points) = line(file, &kept);
        let floats = [longest[file], slope, intercept];
        let [longest, slope, intercept] = floats.map(|x| bits32(x as f32));
        let [a, b, c] = floats.map(|x| u64::from(f64::from(x as f32) == x));
        [longest, slope, intercept, points as u64, a, b, c]
    };
    (0..FILES).map(record).collect()
}

/// The records' patterns and flags by the Rust.
fn records(rows: &[Row]) -> Vec<[u64; 7]> {
    align(FILES, rows).patterns()
}

fn row(file: usize, peptide: usize, rt: f32) -> Row {
    Row { label: 1, rt, ..Row::new(file, PeptideIx(peptide as u32)) }
}

#[test]
fn random_batches() {
    let mut r = Rng::new(2);
    let mut exact = [[0; 2]; 3];
    for _ in 0..300 {
        let rows = (0..r.range(0, 120)).map(|_| {
            let rt = if r.one_in(9) {
                r.pick(&[0.0, -4.0, f32::NAN, 5E9])
            } else {
                90.0 * r.unit() as f32
            };
            row(r.below(FILES), r.below(PEPTIDES), rt)
        });
        let rows: Vec<Row> = rows.collect();
        let all = records(&rows);
        assert_eq!(all, rendered(&rows));
        for record in all {
            (0..3).for_each(|i| exact[i][record[4 + i] as usize] += 1);
        }
    }
    println!("not exact and exact longest times, slopes and intercepts: {exact:?}");
    assert!(exact.iter().flatten().all(|n| 20 <= *n));
}

/// Two rows of a peptide count once. Peptide 1 is dropped for its time in file 1 and peptide 27 for its mean 0:
/// they count in no file.
#[test]
fn kept_peptides_are_counted() {
    let mut rows = vec![row(0, 0, 5.0), row(0, 0, 7.0), row(0, 1, 3.0), row(1, 1, f32::NAN)];
    rows.extend((2..27).map(|peptide| row(3, peptide, peptide as f32)));
    rows.push(row(3, 27, 0.0));
    let all = records(&rows);
    assert_eq!(all, rendered(&rows));
    assert_eq!([0, 1, 2, 3].map(|file: usize| all[file][3]), [1, 0, 0, 25]);
}

/// Shares 1, -1 and 1E-20 add up to a normal number in rising order of the files, and to 0 in most
/// others, which would drop the peptide. A map that hashes takes another order in some of the tries.
#[test]
fn files_in_rising_number() {
    let outside = [row(1, 0, 8.0), row(2, 0, 1.0)].map(|row| Row { label: -1, ..row });
    let mut rows = vec![row(2, 0, 1E-20), row(1, 0, -8.0), row(0, 0, 8.0)];
    rows.extend(outside);
    for _ in 0..30 {
        let kept = records(&rows).iter().map(|record| [record[1], record[3]]).collect::<Vec<_>>();
        assert_eq!(kept[..3], [[bits32(0.0), 1]; 3]);
    }
}
