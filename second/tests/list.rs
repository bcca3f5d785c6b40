//! What the listing program prints.

use second::papers::*;
use std::io::Write;
use std::process::{Command, Stdio};

fn listed(message: &[u8]) -> String {
    let mut program = Command::new(env!("CARGO_BIN_EXE_list"))
        .stdin(Stdio::piped())
        .stdout(Stdio::piped())
        .spawn()
        .expect("the program starts");
    let mut input = program.stdin.take().expect("it has an input");
    // It may stop reading when it has seen enough.
    let _ = input.write_all(message);
    drop(input);
    let output = program.wait_with_output().expect("the program ends");
    assert!(output.status.success());
    String::from_utf8(output.stdout).expect("it prints text")
}

#[test]
fn accepted_and_refused() {
    assert_eq!(
        listed(&bytes_of(FOUR)),
        "rows 2 used 18\n0 2 0 1 2\n1 4 4 0 2\n"
    );
    assert_eq!(
        listed(b"binmode-rpc:RI\xff\xff\xff\xff and more"),
        "rows 2 used 18\n0 2 0 1 2\n1 4 4294967295 0 2\n"
    );
    assert_eq!(listed(b""), "refused 1 at 0\n");
    assert_eq!(listed(&bytes_of(UNSET_RECALL)), "refused 6 at 13\n");
}

#[test]
fn long_inputs() {
    let mut message = bytes_of(FOUR);
    message.resize(65_536, b' ');
    assert!(listed(&message).starts_with("rows 2 used 18\n"));
    message.resize(65_537, b' ');
    assert_eq!(listed(&message), "refused 10 at 0\n");
    message.resize(1_000_000, b' ');
    assert_eq!(listed(&message), "refused 10 at 0\n");
}
