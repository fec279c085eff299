//! The limits and sizes that this library names are those that the Rattle sources name and the compiled code checks.

use zorkamai::{limits, mobility, raw, retention};

/// A constant of `crates/status`, the one home of the limits.
fn status(name: &str) -> usize {
    let path = concat!(env!("CARGO_MANIFEST_DIR"), "/../../crates/status/src/lib.rt");
    let text = std::fs::read_to_string(path).expect(path);
    let head = format!("pub const {name}: usize = ");
    let value = text.lines().find_map(|line| line.strip_prefix(&head)?.strip_suffix(';'));
    value.expect(name).parse().expect(name)
}

#[test]
fn the_limits_are_those_of_the_sources() {
    let named = [
        ("MAX_FILES", limits::FILES),
        ("MAX_ROWS", limits::ROWS),
        ("MAX_PEPTIDES", limits::PEPTIDES),
        ("MAX_CELLS", limits::CELLS),
        ("MAX_LETTERS", limits::LETTERS),
        ("MAX_ORDER", limits::ORDER),
        ("MAX_COLUMNS", limits::COLUMNS),
    ];
    for (name, value) in named {
        assert_eq!(status(name), value, "{name}");
    }
}

/// A retention fit of no rows, with so many cells and coefficients.
fn retention_fit(cells: usize, beta: usize) -> u8 {
    let (mut cells, mut beta) = (vec![0.0; cells], vec![0.0; beta]);
    raw::retention_fit(&[], &[], &[], &[], b"", &[0], &[], &[], &mut cells, &mut beta).status
}

/// The same of the mobility model.
fn mobility_fit(cells: usize, beta: usize) -> u8 {
    let (mut cells, mut beta) = (vec![0.0; cells], vec![0.0; beta]);
    raw::mobility_fit(&[], &[], &[], b"", &[], b"", &[0], &[], &mut cells, &mut beta).status
}

#[test]
fn a_fit_needs_just_its_workspace_and_its_coefficients() {
    assert_eq!(retention_fit(retention::WORKSPACE, retention::COLUMNS), 8);
    assert_eq!(retention_fit(retention::WORKSPACE - 1, retention::COLUMNS), 3);
    assert_eq!(retention_fit(retention::WORKSPACE, retention::COLUMNS - 1), 3);
    assert_eq!(mobility_fit(mobility::WORKSPACE, mobility::COLUMNS), 8);
    assert_eq!(mobility_fit(mobility::WORKSPACE - 1, mobility::COLUMNS), 3);
    assert_eq!(mobility_fit(mobility::WORKSPACE, mobility::COLUMNS - 1), 3);
}
