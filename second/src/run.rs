//! Runs a program on bytes, for tests of programs.

use std::ffi::OsStr;
use std::io::Write;
use std::process::{Command, Stdio};
use std::thread;

/// What a program prints on standard output, whatever it tells on standard error; it must end with exit status 0.
pub fn bytes_of(program: impl AsRef<OsStr>, arguments: &[&str], input: &[u8]) -> Vec<u8> {
    let mut child = Command::new(program)
        .args(arguments)
        .stdin(Stdio::piped())
        .stdout(Stdio::piped())
        .stderr(Stdio::piped())
        .spawn()
        .expect("the program starts");
    let mut stdin = child.stdin.take().expect("piped");
    let output = thread::scope(|scope| {
        // A program may print before it has read all, and may stop reading before the end of a long input.
        scope.spawn(move || stdin.write_all(input));
        child.wait_with_output().expect("the program ends")
    });
    let told = String::from_utf8_lossy(&output.stderr);
    assert!(output.status.success(), "{:?} {told}", output.status);
    output.stdout
}

/// The same of a program that prints text.
pub fn output_of(program: impl AsRef<OsStr>, arguments: &[&str], input: &[u8]) -> String {
    String::from_utf8(bytes_of(program, arguments, input)).expect("text")
}
