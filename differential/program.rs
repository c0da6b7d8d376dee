//! The program `encode`, which AC3_PROGRAM names: what it prints.
use std::io::{ErrorKind, Write};
use std::process::{Command, Stdio};

/// What the program prints to this standard input.
pub fn printed(input: &[u8]) -> Vec<u8> {
    let path = std::env::var_os("AC3_PROGRAM").expect("AC3_PROGRAM names the program");
    let mut program = Command::new(path).stdin(Stdio::piped()).stdout(Stdio::piped()).spawn().expect("the program starts");
    match program.stdin.take().expect("a standard input").write_all(input) {
        Err(e) if e.kind() != ErrorKind::BrokenPipe => panic!("the program's standard input: {e}"), // it need not read what is too long
        _ => {}
    }
    let output = program.wait_with_output().expect("the program ends");
    assert!(output.status.success(), "the program ended with {}", output.status);
    output.stdout
}

/// The number of the refusal that it printed, or 0.
pub fn refusal(printed: &[u8]) -> u32 {
    let number = std::str::from_utf8(printed).ok().and_then(|text| text.strip_prefix("refused "));
    number.map_or(0, |text| text.trim_end().parse().expect("a refusal's number"))
}
