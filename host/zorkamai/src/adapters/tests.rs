//! What the rule about edits supposes of a host that numbers its peptides itself, held over random rows.

mod host;

use super::*;
use host::{any_rows, plain_rows, Peptides, Psm, Rng, HELD};
use std::fmt::Debug;

/// The numbers that occur, in rising order: the next is the least that is above the last.
fn rising(psms: &[Psm]) -> Vec<u32> {
    let above = |last: Option<u32>| {
        let all = psms.iter().map(|psm| psm.row.peptide);
        all.filter(|number| last.is_none_or(|last| last < *number)).min()
    };
    std::iter::successors(above(None), |last| above(Some(*last))).collect()
}

/// A host's row as it is passed: its peptide's number is how many of the numbers are smaller.
fn passed(psm: &Psm, numbers: &[u32]) -> Row {
    let smaller = numbers.iter().filter(|number| **number < psm.row.peptide).count();
    Row { peptide: smaller as u32, ..psm.row }
}

/// A row's fields, to the bit.
fn fields(row: Row) -> [u64; 7] {
    let [q, rt, mobility] = [row.q, row.rt, row.mobility].map(|x| x.to_bits() as u64);
    let label = row.label as u32 as u64;
    [row.file as u64, row.peptide as u64, label, q, rt, row.charge as u64, mobility]
}

/// The fields of each row of a list.
fn all_fields(rows: &Rows) -> Vec<[u64; 7]> {
    let Rows { file, peptide, label, q, rt, charge, mobility } = rows;
    let lengths = [peptide.len(), label.len(), q.len(), rt.len(), charge.len(), mobility.len()];
    assert_eq!(lengths, [file.len(); 6]);
    let row = |i: usize| Row {
        file: file[i],
        peptide: peptide[i],
        label: label[i],
        q: q[i],
        rt: rt[i],
        charge: charge[i],
        mobility: mobility[i],
    };
    (0..file.len()).map(row).map(fields).collect()
}

#[test]
fn the_numbers_rise_and_are_those_that_occur() {
    let (mut r, mut lists) = (Rng(1), [0; 3]);
    for _ in 0..4_000 {
        let psms = any_rows(&mut r);
        let (_, numbers) = rows(&psms);
        assert!(numbers.windows(2).all(|pair| pair[0] < pair[1]), "{numbers:?}");
        assert!(psms.iter().all(|psm| numbers.contains(&psm.row.peptide)));
        assert_eq!(numbers, rising(&psms));
        let ends = numbers.contains(&0) && numbers.contains(&u32::MAX);
        let among = [psms.is_empty(), numbers.len() < psms.len(), ends];
        (0..3).for_each(|i| lists[i] += among[i] as usize);
    }
    println!("empty, with equal numbers, with 0 and the largest: {lists:?}");
    assert!(lists.iter().all(|n| 100 <= *n));
}

#[test]
fn a_row_is_passed_with_the_place_of_its_number() {
    let mut r = Rng(2);
    for _ in 0..4_000 {
        let psms = any_rows(&mut r);
        let (rows, numbers) = rows(&psms);
        let want: Vec<_> = psms.iter().map(|psm| fields(passed(psm, &numbers))).collect();
        assert_eq!(all_fields(&rows), want);
        let named = rows.peptide.iter().map(|place| numbers[*place as usize]);
        assert!(named.eq(psms.iter().map(|psm| psm.row.peptide)));
    }
}

#[test]
fn the_table_says_of_each_place_what_the_host_says_of_its_number() {
    let mut r = Rng(3);
    for _ in 0..4_000 {
        let (_, numbers) = rows(&any_rows(&mut r));
        let PeptideTable { letters, offsets, masses, logs } = table(&Peptides, &numbers);
        let n = numbers.len();
        assert_eq!((offsets.len(), masses.len(), logs.len()), (n + 1, n, n));
        assert_eq!((offsets[0], offsets[n] as usize), (0, letters.len()));
        for (k, &number) in numbers.iter().enumerate() {
            let mass = Peptides.monoisotopic(number);
            let own = &letters[offsets[k] as usize..offsets[k + 1] as usize];
            assert_eq!(own, Peptides.sequence(number));
            assert_eq!(masses[k].to_bits(), mass.to_bits());
            assert_eq!(logs[k].to_bits(), (mass as f64).ln_1p().to_bits());
        }
    }
}

/// Demands that two things are equal by what they print, so that NaNs are.
fn same(got: &dyn Debug, want: &dyn Debug) {
    assert_eq!(format!("{got:?}"), format!("{want:?}"));
}

/// What a model writes to the rows, or what they held.
fn written(model: &Result<Predicted, Error>, rows: usize) -> Vec<(f32, f32)> {
    match model {
        Ok(Predicted { predicted, error, .. }) => {
            predicted.iter().copied().zip(error.iter().copied()).collect()
        }
        Err(_) => vec![HELD; rows],
    }
}

/// Each of the three calls gives, and writes to the rows, what the library gives for the rows and the table that
/// the definitions above say.
#[test]
fn the_three_calls_pass_the_same_rows_and_table() {
    let (mut r, mut solved) = (Rng(4), 0);
    for _ in 0..200 {
        let mut psms = plain_rows(&mut r);
        let numbers = rising(&psms);
        let rows: Rows = psms.iter().map(|psm| passed(psm, &numbers)).collect();
        let mut table = PeptideTable::default();
        for &number in &numbers {
            table.push(Peptides.sequence(number), Peptides.monoisotopic(number));
        }
        let aligned = align(&rows, 2, numbers.len()).expect("an alignment is accepted");
        let time = retention::predict(&rows, &aligned.aligned, &table);
        let ims = mobility::predict(&rows, &table);

        same(&global_alignment(&mut psms, 2), &Ok::<_, Error>(&aligned.records));
        same(&psms.iter().map(|psm| psm.aligned_rt).collect::<Vec<f32>>(), &aligned.aligned);
        same(&predict_retention(&Peptides, &mut psms), &time);
        same(
            &psms.iter().map(|psm| psm.retention).collect::<Vec<_>>(),
            &written(&time, rows.len()),
        );
        same(&predict_mobility(&Peptides, &mut psms), &ims);
        same(&psms.iter().map(|psm| psm.mobility).collect::<Vec<_>>(), &written(&ims, rows.len()));
        solved += (time.is_ok() && ims.is_ok()) as usize;
    }
    assert!((100..200).contains(&solved), "{solved}");
}

/// It is not taken for the file that its lower 32 bits name.
#[test]
fn a_file_number_that_no_u32_holds_is_refused() {
    let mut psms = [Psm::new(Row::default())];
    assert!(global_alignment(&mut psms, 1).is_ok());
    psms[0].file_id += 1 << 32;
    assert_eq!(global_alignment(&mut psms, 1).map_err(|e| e.number()), Err(4));
}
