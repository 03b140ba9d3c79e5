//! The program that lists a stack, run with pipes.

use std::io::Write;
use std::process::{Command, Stdio};
use std::thread;
use std::time::Duration;

const PROGRAM: &str = "target/bin/stack_list";

/// What the program prints for a stack, which it is given piece by piece.
pub type StackList = fn(&[&[u8]]) -> Vec<u8>;

/// Between two pieces, so that the program sees the first one alone.
const PAUSE: Duration = Duration::from_millis(5);

/// What the program prints; other text if it does not end by itself.
pub fn stack_list(pieces: &[&[u8]]) -> Vec<u8> {
    let mut child = Command::new(PROGRAM)
        .stdin(Stdio::piped())
        .stdout(Stdio::piped())
        .spawn()
        .expect("the program can be started");
    let mut input = child.stdin.take().expect("a pipe to the program");
    thread::scope(|scope| {
        scope.spawn(move || {
            for (index, piece) in pieces.iter().enumerate() {
                if index > 0 {
                    thread::sleep(PAUSE);
                }
                // A program may stop reading once it knows its answer.
                if input.write_all(piece).is_err() {
                    break;
                }
            }
        });
        let output = child.wait_with_output().expect("the program's output");
        match output.status.code() {
            Some(_) => output.stdout,
            None => output.status.to_string().into_bytes(),
        }
    })
}
