//! The example files that are generated are those that are stored.

use std::path::Path;
use std::process::Command;

#[test]
fn as_stored() {
    let made = Path::new(env!("CARGO_TARGET_TMPDIR")).join("samples");
    let stored = Path::new(env!("CARGO_MANIFEST_DIR")).join("../examples");
    std::fs::create_dir_all(made.join("jobs")).expect("a folder");
    let mut program = Command::new(env!("CARGO_BIN_EXE_samples"));
    let status = program.arg(&made).status().expect("the program starts");
    assert!(status.success());
    for name in [
        "refused-unexpected-byte.bin",
        "refused-no-row.bin",
        "refused-too-long.bin",
        "transit-card.bin",
        "shop-batch.bin",
        "jobs/many-cards.job",
    ] {
        let [made, stored] = [&made, &stored].map(|folder| std::fs::read(folder.join(name)));
        assert_eq!(made.expect(name), stored.expect(name), "{name}");
    }
}
