//! What `joblist` takes for a number.

use std::process::{Command, Output};

fn joblist(words: &[&str]) -> Output {
    let folder = concat!(env!("CARGO_MANIFEST_DIR"), "/../examples/jobs");
    let mut program = Command::new(env!("CARGO_BIN_EXE_joblist"));
    program.current_dir(folder).args(words);
    program.output().expect("the program starts")
}

#[test]
fn digits_only() {
    let job = "three-cards.job";
    let one = joblist(&[job, "1"]).stdout;
    assert!(one.starts_with(b"rows "));
    assert_eq!(joblist(&[job, "0001"]).stdout, one);
    let last = joblist(&[job, "18446744073709551615"]).stdout;
    assert!(last.starts_with(b"refused 26 "));
    for word in [
        "",
        "abc",
        "0x1",
        "1x",
        "+1",
        "-1",
        " 1",
        "1 ",
        "1.0",
        "18446744073709551616",
    ] {
        let output = joblist(&[job, word]);
        assert!(
            output.stdout.is_empty() && !output.stderr.is_empty(),
            "{word}"
        );
        assert!(!output.status.success());
    }
}
