//! The alignment does not follow the order of the rows, whatever their times: sage's own Rust on
//! lists in two orders, and what the lists hold. The smallest times and the two fits do follow it.

use oracle::alignment::{align, Aligned, Row};
use oracle::gen::alignment::{training, Rows};
use oracle::gen::edits::trains;
use oracle::gen::order::{any, Orders};
use oracle::rng::Rng;
use oracle::run::{run, Batch, Fit};
use oracle::text::bits64;
use sage::ml::retention_alignment::{probe_smallest, probe_times};
use sage::peptide::Peptide;
use sage::scoring::Feature;

/// A list in two orders, and what the Rust gives for the first.
struct List {
    rows: Vec<Row>,
    aligned: Aligned,
    /// The files in which the other order moves a peptide's smallest time.
    moved: Vec<usize>,
    /// Whether it moves one of a kept peptide.
    moved_kept: bool,
}

/// Aligns both orders, which must agree.
fn list(orders: Orders) -> List {
    let Orders { first, other, .. } = &orders;
    let aligned = align(first.files, &first.rows);
    orders.agree(&aligned, &align(other.files, &other.rows)).expect("nothing moves");
    let [a, b] = [first, other].map(|list| features(&list.rows));
    let moved_kept = shares(&a, first.files) != shares(&b, other.files);
    List { moved: moved(&a, &b), moved_kept, aligned, rows: orders.first.rows }
}

fn features(rows: &[Row]) -> Vec<Feature> {
    rows.iter().map(Row::feature).collect()
}

/// The patterns of the kept peptides' shares.
fn shares(features: &[Feature], files: usize) -> Vec<u64> {
    probe_times(features, files).data.into_iter().map(bits64).collect()
}

/// The files in which a peptide's smallest time has other bits in the other order. It is a zero in
/// both.
fn moved(first: &[Feature], other: &[Feature]) -> Vec<usize> {
    let [first, other] = [first, other].map(probe_smallest);
    assert_eq!(first.len(), other.len());
    let mut files = vec![];
    for ((peptide, file, a), b) in first.into_iter().zip(other) {
        assert_eq!((peptide, file), (b.0, b.1));
        if bits64(a) != bits64(b.2) {
            assert_eq!([a, b.2], [0.0; 2]);
            files.push(file);
        }
    }
    files
}

impl List {
    fn has(&self, time: fn(f32) -> bool) -> bool {
        self.rows.iter().any(|row| time(row.rt))
    }

    /// Whether a peptide trains with both zeros in one file.
    fn has_both_zeros(&self) -> bool {
        let zeros = |negative: bool| {
            let is = move |row: &&Row| row.rt == 0.0 && row.rt.is_sign_negative() == negative;
            self.rows.iter().filter(|row| trains(row)).filter(is)
        };
        zeros(true).any(|a| zeros(false).any(|b| (a.file, a.peptide) == (b.file, b.peptide)))
    }

    fn has_all(&self) -> bool {
        self.has(f32::is_nan) && self.has(f32::is_infinite) && self.has_both_zeros()
    }

    /// Whether a smallest time moves in a file with so many kept peptides or more.
    fn moves_beside(&self, kept: u32) -> bool {
        self.moved.iter().any(|&file| kept <= self.aligned.used[file])
    }
}

/// A sort of list, by name, and how many there must be.
type Sort = (&'static str, fn(&List) -> bool, usize);

const SORTS: [Sort; 13] = [
    ("no row", |l| l.rows.is_empty(), 300),
    ("a NaN", |l| l.has(f32::is_nan), 20_000),
    ("training rows, and only NaNs", |l| l.rows.iter().any(trains) && !l.has(|t| !t.is_nan()), 500),
    ("+infinity", |l| l.has(|t| t == f32::INFINITY), 10_000),
    ("-infinity", |l| l.has(|t| t == f32::NEG_INFINITY), 2_000),
    ("both zeros of a training peptide in one file", List::has_both_zeros, 10_000),
    ("such zeros, NaN and infinity", List::has_all, 10_000),
    ("a smallest time moves", |l| !l.moved.is_empty(), 10_000),
    ("it moves, with NaN and infinity", |l| !l.moved.is_empty() && l.has_all(), 5_000),
    ("it moves in a file with a kept peptide", |l| l.moves_beside(1), 5_000),
    ("it moves in a file with two or more", |l| l.moves_beside(2), 2_000),
    ("it moves, of a kept peptide", |l| l.moved_kept, 2_000),
    ("it moves, of a kept peptide, with NaN and infinity", |l| l.moved_kept && l.has_all(), 2_000),
];

#[test]
fn lists_in_two_orders() {
    let mut r = Rng::new(9);
    let lists: Vec<List> = (0..30_000).map(|_| list(any(&mut r))).collect();
    for (sort, is, least) in SORTS {
        let count = lists.iter().filter(|list| is(list)).count();
        println!("{sort}: {count} of {} lists", lists.len());
        assert!(least <= count, "{sort}: {count}");
    }
}

/// Every order of seven rows. In half of them another zero of peptide 0 is the smallest time.
#[test]
fn every_order() {
    let zeros = [0.0, -0.0, f32::NAN].map(|rt| training(0, 0, rt));
    let others = [(0, 1, 3.0), (1, 0, 4.0), (1, 1, 2.0), (1, 1, f32::INFINITY)];
    let rows: Vec<Row> =
        zeros.into_iter().chain(others.map(|(f, p, t)| training(f, p, t))).collect();
    let mut moved = 0;
    for n in 0..5_040 {
        let first = Rows { files: 2, peptides: 2, rows: rows.clone() };
        let list = list(Orders::new(first, permutation(n, rows.len())));
        assert_eq!(list.aligned.used, [2, 2]);
        moved += list.moved_kept as usize;
    }
    assert_eq!(moved, 2_520);
}

/// Permutation `n` of so many places.
fn permutation(mut n: usize, len: usize) -> Vec<usize> {
    let mut left: Vec<usize> = (0..len).collect();
    let next = |k: usize| {
        let at = n % k;
        n /= k;
        left.remove(at)
    };
    (1..=len).rev().map(next).collect()
}

/// Of two zeros in a file a peptide's smallest time is the earlier, as document 01 says. Rust
/// leaves it open.
#[test]
fn smallest_times_follow_the_order() {
    let rows = |times: [f32; 2]| times.map(|rt| training(0, 0, rt));
    let smallest = |times| bits64(probe_smallest(&features(&rows(times)))[0].2);
    assert_eq!(smallest([0.0, -0.0]), bits64(0.0));
    assert_eq!(smallest([-0.0, 0.0]), bits64(-0.0));
}

/// Three rows and the same backwards: one alignment, other coefficients of both models.
#[test]
fn fits_follow_the_order() {
    let peptide = |letters: &str, monoisotopic| Peptide { sequence: letters.into(), monoisotopic };
    let peptides = vec![peptide("ACK", 320.2), peptide("AGHDK", 526.3), peptide("PEPTIDE", 799.4)];
    let row = |(i, ims)| Row { charge: 1 + i as u8, ims, ..training(0, i, 7.0 + i as f32) };
    let rows: Vec<Row> = (0..).zip([0.7, 0.8, 0.9]).map(row).collect();
    let orders = Orders::new(Rows { files: 1, peptides: 3, rows }, vec![2, 1, 0]);
    let [first, other] = [&orders.first, &orders.other]
        .map(|list| run(&Batch { files: 1, peptides: peptides.clone(), rows: list.rows.clone() }));
    orders.agree(&first.aligned, &other.aligned).expect("nothing moves");
    assert_ne!(coefficients(&first.retention), coefficients(&other.retention));
    assert_ne!(coefficients(&first.mobility), coefficients(&other.mobility));
}

fn coefficients(fit: &Fit) -> Vec<u64> {
    match fit {
        Fit::Solved { beta, .. } => beta.iter().map(|&x| bits64(x)).collect(),
        _ => panic!("three rows are fitted"),
    }
}

/// A number that moved is seen, and an aligned time that stayed where its row was.
#[test]
fn a_moved_number_is_seen() {
    let rows = vec![training(0, 0, 5.0), training(0, 1, 10.0)];
    let orders = Orders::new(Rows { files: 1, peptides: 2, rows }, vec![1, 0]);
    let [first, other] = [&orders.first, &orders.other].map(|list| align(1, &list.rows));
    assert_eq!(orders.agree(&first, &other), Ok(()));
    let changes: [fn(&mut Aligned); 7] = [
        |a| a.records[0].max_rt += 1.0,
        |a| a.records[0].slope = 0.0,
        |a| a.records[0].intercept = -0.0,
        |a| a.used[0] += 1,
        |a| a.exact[0][0] ^= true,
        |a| a.wide[0][1] = f64::from_bits(a.wide[0][1].to_bits() ^ 1),
        |a| a.features.swap(0, 1),
    ];
    for change in changes {
        let mut other = align(1, &orders.other.rows);
        change(&mut other);
        assert!(orders.agree(&first, &other).is_err());
    }
}
