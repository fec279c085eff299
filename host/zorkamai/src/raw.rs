//! The library's functions one to one, over slices that the caller has: nothing is allocated, and a status
//! is 0 or a number of the table in [`crate::Error`].
//!
//! Each is safe: the proved functions take whatever slices and numbers they are handed. A slice that is
//! written may be longer than needed, and keeps the rest. A refused call (1 to 7) changes no slice; after
//! any other the needed cells of `workspace` are +0.0. A call takes at most 256 KiB of its thread's stack, as
//! tests/stack measures.

/// A file's record: its longest time, the line that aligns its times, how many peptides carry the line, and whether
/// the three floats are exact: each was worked out as an f64, and its flag says whether the f32 equals that.
#[repr(C)]
#[derive(Copy, Clone, Debug, Default, PartialEq)]
pub struct Alignment {
    pub max_rt: f32,
    pub slope: f32,
    pub intercept: f32,
    /// The kept peptides of the file, whose times carry its line; 0 where there are none, and then the slope is 1 and
    /// the intercept 0. A peptide that training rows have is kept if the mean of its times, as shares of the files'
    /// longest, is a normal number.
    pub used: u32,
    /// Whether `max_rt` is exact. It is not where a time is 2^32 or longer: then the f64 is 4,294,967,295.
    pub max_rt_exact: bool,
    /// Whether `slope` is exact.
    pub slope_exact: bool,
    /// Whether `intercept` is exact.
    pub intercept_exact: bool,
}

/// The answer of the solver, of a fit or of a prediction: its number and, if that is 0, the ridge; of a fit and of a
/// prediction r2 and the number of training rows; of a prediction how many rows' predictions are not exact.
#[repr(C)]
#[derive(Copy, Clone, Debug, PartialEq)]
pub struct Answer {
    pub status: u8,
    pub ridge: f64,
    pub r2: f64,
    pub n: u32,
    /// The rows whose prediction, an f64 within its bounds, is not equal to the f32 that is written; NaN is equal to
    /// nothing. 0 with any number but 0, and for the solver and a fit alone.
    pub inexact: u32,
}

/// The answer of a run: its number, and the answer of each model's prediction.
#[repr(C)]
#[derive(Copy, Clone, Debug, PartialEq)]
pub struct RunReport {
    pub status: u8,
    pub retention: Answer,
    pub mobility: Answer,
}

/// The answer of a lookup: its number and, if that is 0, the record.
#[repr(C)]
#[derive(Copy, Clone, Debug, PartialEq)]
pub struct RecordAnswer {
    pub status: u8,
    pub max_rt: f32,
    pub slope: f32,
    pub intercept: f32,
    pub used: u32,
    pub max_rt_exact: bool,
    pub slope_exact: bool,
    pub intercept_exact: bool,
}

/// A row's aligned time, if the number is 0.
#[repr(C)]
#[derive(Copy, Clone, Debug, PartialEq)]
pub struct TimeAnswer {
    pub status: u8,
    pub aligned: f32,
}

/// A cell of a column, where there is one, and the row below it.
#[repr(C)]
#[derive(Copy, Clone, Debug, PartialEq)]
pub struct CellAnswer {
    pub found: bool,
    pub value: f64,
    pub row: u32,
}

/// Declares the library's functions, each as `pub fn name(..) -> Answer = symbol;` with its name in C at the end.
/// An argument is a `&[T]`, a `&mut [T]` or a number, and matches one of three `$(..)?`; C is handed a slice as a
/// pointer and a length, as zorkamai.h says.
macro_rules! functions {
    ($(
        $(#[$doc:meta])*
        pub fn $name:ident(
            $($arg:ident: $(&[$read:ty])? $(&mut [$written:ty])? $($number:ident)?),* $(,)?
        ) -> $answer:ty = $symbol:ident;
    )*) => {
        extern "C" {$(
            fn $symbol(
                $($(_: *const $read, _: usize)? $(_: *mut $written, _: usize)? $(_: $number)?),*
            ) -> $answer;
        )*}

        $(
            $(#[$doc])*
            #[allow(clippy::too_many_arguments)]
            pub fn $name(
                $($arg: $(&[$read])? $(&mut [$written])? $($number)?),*
            ) -> $answer {
                // Safe: each pointer and length is a slice's, the borrows keep written slices apart from the
                // others, a flag is 0 or 1 on either side, and the proved function takes any slices and numbers.
                unsafe {
                    $symbol($(
                        $(<[$read]>::as_ptr($arg), <[$read]>::len($arg))?
                        $(<[$written]>::as_mut_ptr($arg), <[$written]>::len($arg))?
                        $($number::from($arg))?
                    ),*)
                }
            }
        )*
    };
}

functions! {
    /// Solves left · x = right, left n rows of n cells and right n rows of c. Needs n × n + n × c cells of
    /// `workspace` and n × c of `solution`, which is written only if the number is 0.
    pub fn solve(
        left: &[f64], right: &[f64], n: usize, c: usize, workspace: &mut [f64], solution: &mut [f64],
    ) -> Answer = zorkamai_solve;

    /// Aligns the rows' times. Needs peptides × files cells of `workspace`, one cell for each file of the seven
    /// columns from `max_rt` to `intercept_exact`, the fields of the files' records, and one for each row of `aligned`.
    pub fn align(
        file: &[u32], peptide: &[u32], label: &[i32], q: &[f32], rt: &[f32], files: usize, peptides: usize,
        workspace: &mut [f64], max_rt: &mut [f32], slope: &mut [f32], intercept: &mut [f32], used: &mut [u32],
        max_rt_exact: &mut [bool], slope_exact: &mut [bool], intercept_exact: &mut [bool], aligned: &mut [f32],
    ) -> u8 = zorkamai_align;

    /// Fits the retention model to the aligned times of the training rows. Needs 7,314 cells of `workspace` and 69
    /// of `beta`, the coefficients, which are written only if the number is 0.
    pub fn retention_fit(
        peptide: &[u32], label: &[i32], q: &[f32], aligned: &[f32],
        letters: &[u8], offsets: &[u32], masses: &[f32], logs: &[f64],
        workspace: &mut [f64], beta: &mut [f64],
    ) -> Answer = zorkamai_retention_fit;

    /// Fits as [`retention_fit`] does and, if that is solved, writes each row's prediction and its distance from the
    /// aligned time. Needs one cell for each row of `predicted` and of `error`.
    pub fn retention_predict(
        peptide: &[u32], label: &[i32], q: &[f32], aligned: &[f32],
        letters: &[u8], offsets: &[u32], masses: &[f32], logs: &[f64],
        workspace: &mut [f64], beta: &mut [f64], predicted: &mut [f32], error: &mut [f32],
    ) -> Answer = zorkamai_retention_predict;

    /// Fits the mobility model to the mobilities of the training rows. Needs 15,250 cells of `workspace` and 100 of
    /// `beta`, the coefficients, which are written only if the number is 0.
    pub fn mobility_fit(
        peptide: &[u32], label: &[i32], q: &[f32], charge: &[u8], mobility: &[f32],
        letters: &[u8], offsets: &[u32], masses: &[f32],
        workspace: &mut [f64], beta: &mut [f64],
    ) -> Answer = zorkamai_mobility_fit;

    /// Fits as [`mobility_fit`] does and, if that is solved, writes each row's prediction and its distance from the
    /// mobility. Needs one cell for each row of `predicted` and of `error`.
    pub fn mobility_predict(
        peptide: &[u32], label: &[i32], q: &[f32], charge: &[u8], mobility: &[f32],
        letters: &[u8], offsets: &[u32], masses: &[f32],
        workspace: &mut [f64], beta: &mut [f64], predicted: &mut [f32], error: &mut [f32],
    ) -> Answer = zorkamai_mobility_predict;

    /// The alignment, both fits on it, and the predictions and errors of each model that fits. Needs of `workspace` the
    /// larger of peptides × files and 15,250 cells, one cell for each file of the seven columns from `max_rt` to
    /// `intercept_exact`, 69 and 100 of the coefficients, and one for each row of the others.
    pub fn run(
        file: &[u32], peptide: &[u32], label: &[i32], q: &[f32], rt: &[f32], charge: &[u8], mobility: &[f32],
        files: usize, letters: &[u8], offsets: &[u32], masses: &[f32], logs: &[f64],
        workspace: &mut [f64], max_rt: &mut [f32], slope: &mut [f32], intercept: &mut [f32], used: &mut [u32],
        max_rt_exact: &mut [bool], slope_exact: &mut [bool], intercept_exact: &mut [bool], aligned: &mut [f32],
        retention_beta: &mut [f64], retention_predicted: &mut [f32], retention_error: &mut [f32],
        mobility_beta: &mut [f64], mobility_predicted: &mut [f32], mobility_error: &mut [f32],
    ) -> RunReport = zorkamai_run;

    /// The record of a file in a list of records; 4 where the list ends before it.
    pub fn record_of(records: &[Alignment], file: u32) -> RecordAnswer = zorkamai_record_of;

    /// A time by the record of its file in a list of records; 4 where the list ends before it.
    pub fn aligned_time(records: &[Alignment], file: u32, rt: f32) -> TimeAnswer = zorkamai_aligned_time;

    /// The cell in a row of a column of a matrix of rows × cols cells, row by row.
    pub fn column_step(
        cells: &[f64], rows: u32, cols: u32, row: u32, col: u32,
    ) -> CellAnswer = zorkamai_column_step;
}
