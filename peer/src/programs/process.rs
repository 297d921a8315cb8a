//! The program that is compared, run once for each book.

use std::io::{self, ErrorKind, Write};
use std::path::Path;
use std::process::{ChildStdin, Command, Output, Stdio};
use std::thread;

/// Runs the program with the book on its standard input.
pub fn run(program: &Path, book: &[u8]) -> io::Result<Output> {
    // So that a bare name, too, is a file here and not a command of the system.
    let mut child = Command::new(Path::new(".").join(program))
        .stdin(Stdio::piped())
        .stdout(Stdio::piped())
        .stderr(Stdio::piped())
        .spawn()?;
    let input = child.stdin.take();
    // A pipe holds less than the longest book: were the book written first and
    // the output read after it, both programs might wait for each other.
    thread::scope(|scope| {
        let writer = scope.spawn(|| input.map_or(Ok(()), |input| feed(input, book)));
        let output = child.wait_with_output();
        let fed = writer
            .join()
            .unwrap_or_else(|_| Err(io::Error::other("the writer of the input panicked")));
        fed.and(output)
    })
}

/// Takes the pipe, so that it is closed behind the book. A program may stop
/// reading as soon as it knows its answer.
fn feed(mut input: ChildStdin, book: &[u8]) -> io::Result<()> {
    match input.write_all(book) {
        Err(error) if error.kind() == ErrorKind::BrokenPipe => Ok(()),
        written => written,
    }
}

#[cfg(all(test, unix))]
mod tests {
    use super::*;

    #[test]
    fn more_than_a_pipe_holds_goes_both_ways() {
        let book: Vec<u8> = (0..1_000_000u32).map(|number| number as u8).collect();
        let output = run(Path::new("/bin/cat"), &book).unwrap();
        assert!(output.status.success() && output.stderr.is_empty());
        assert_eq!(output.stdout, book);
    }

    #[test]
    fn a_program_need_not_read_its_input() {
        let output = run(Path::new("/bin/false"), &[0; 1_000_000]).unwrap();
        assert!(!output.status.success());
    }

    #[test]
    fn a_missing_program_is_an_error() {
        assert!(run(Path::new("no/such/program"), &[]).is_err());
        // There is one by that name, but not in this directory.
        assert!(run(Path::new("true"), &[]).is_err());
    }
}
