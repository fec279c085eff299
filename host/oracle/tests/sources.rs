//! The files compiled are sage's, byte for byte, with nothing but the probes appended.

use std::path::Path;

#[test]
fn every_file_is_unchanged() {
    assert_eq!(sage::COMPILED.len(), 8);
    for (name, compiled, probe) in sage::COMPILED {
        let source = std::fs::read(Path::new(sage::SOURCE).join(name)).expect(name);
        assert!(compiled.strip_suffix(probe.as_bytes()) == Some(&source[..]), "{name} was changed");
    }
}

#[test]
fn only_four_files_have_a_probe() {
    let probed = sage::COMPILED.iter().filter(|(_, _, probe)| !probe.is_empty());
    let names: Vec<&str> = probed.map(|(name, _, _)| *name).collect();
    let private = ["regression", "retention_alignment", "retention_model", "mobility_model"];
    assert_eq!(names, private.map(|name| format!("ml/{name}.rs")));
}
