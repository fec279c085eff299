//! The answer to a run, whoever gives it, as bit patterns.

use oracle::run::Batch;
use oracle::text::{Output, Tokens};
use zorkamai::{Alignment, Predicted, Run};

/// The records and what each fit gives, and the results of each row.
#[derive(PartialEq, Debug)]
pub struct Answer {
    pub fitted: Vec<u64>,
    pub rows: Vec<Vec<u64>>,
    /// The number of each fit: 0, 8 or 9.
    pub fits: [u64; 2],
    /// How many predictions of each model are not exact. All rows count, so the ends of a pair may differ in it.
    pub inexact: [u64; 2],
}

impl Answer {
    /// Reads the answer to a batch.
    pub fn read(input: &mut Tokens, batch: &Batch) -> Result<Answer, String> {
        assert_eq!(input.bits()?, 0, "a run is accepted");
        let n = batch.rows.len();
        let mut fitted = input.column(7 * batch.files, Tokens::bits)?;
        let mut columns = vec![input.column(n, Tokens::bits)?];
        let (mut fits, mut inexact) = ([0; 2], [0; 2]);
        for (model, order) in [69, 100].into_iter().enumerate() {
            fits[model] = input.bits()?;
            inexact[model] = input.bits()?;
            fitted.push(fits[model]);
            if fits[model] == 0 {
                fitted.extend(input.column(3 + order, Tokens::bits)?);
            }
        }
        for _ in fits.iter().filter(|fit| **fit == 0) {
            columns.push(input.column(n, Tokens::bits)?);
            columns.push(input.column(n, Tokens::bits)?);
        }
        Ok(Answer { fitted, rows: rows(n, &columns), fits, inexact })
    }

    /// What the library gave.
    pub fn of(run: &Run) -> Answer {
        let cells: [fn(&Alignment) -> u64; 7] = [
            |a| a.max_rt.to_bits() as u64,
            |a| a.slope.to_bits() as u64,
            |a| a.intercept.to_bits() as u64,
            |a| a.used as u64,
            |a| a.max_rt_exact as u64,
            |a| a.slope_exact as u64,
            |a| a.intercept_exact as u64,
        ];
        let column = |cell| run.aligned.records.iter().map(cell);
        let mut fitted: Vec<u64> = cells.into_iter().flat_map(column).collect();
        let mut columns = vec![patterns(&run.aligned.aligned)];
        let fits = [&run.retention, &run.mobility].map(|model| match model {
            Ok(Predicted { fit, predicted, error, .. }) => {
                fitted.extend([0, fit.ridge.to_bits(), fit.r2.to_bits(), fit.n as u64]);
                fitted.extend(fit.beta.iter().map(|x| x.to_bits()));
                columns.extend([patterns(predicted), patterns(error)]);
                0
            }
            Err(error) => {
                fitted.push(error.number() as u64);
                error.number() as u64
            }
        });
        let inexact = [&run.retention, &run.mobility]
            .map(|model| model.as_ref().map_or(0, |model| model.inexact as u64));
        Answer { fitted, rows: rows(run.aligned.aligned.len(), &columns), fits, inexact }
    }
}

/// Columns of `n` cells, by row.
fn rows(n: usize, columns: &[Vec<u64>]) -> Vec<Vec<u64>> {
    (0..n).map(|i| columns.iter().map(|column| column[i]).collect()).collect()
}

fn patterns(cells: &[f32]) -> Vec<u64> {
    cells.iter().map(|x| x.to_bits() as u64).collect()
}

/// The Rust's answer to a batch.
pub fn rust(batch: &Batch) -> Answer {
    let mut case = Output::default();
    case.number(1);
    batch.write(&mut case);
    let text = oracle::answers("run", &case.text).expect("the case is well-formed");
    Answer::read(&mut Tokens::new(&text), batch).expect("an answer")
}
