//! A second reading of the scope paper (01), with what is in force of the change
//! requests (02): a, c, d, e, f, g, j, and b, which changes nothing that is answered.
//!
//! Everything here was written from the papers alone, and `door` and `library` from
//! `include/chainplater.h` besides. The header has words for the table too, and they were
//! read: how it stands on a page, and how long it can be, is from there, and what it says
//! from the paper, as it was before. So is how a record keeps the command that is held.
//! None of this package comes from the Rattle source, by copying or by looking: two
//! programs that share an author's misreading agree with each other and prove nothing.
//! Every landing that changes this package keeps it that way.
//!
//! Sixteen points were not reached so: what `pair::rank` answers for a channel that
//! no group has, and `book::body` for an entry whose body is not all in the
//! book; that 31 and 32 come right behind 25, in 02, f, and so before 26 of their
//! entry; that a request was last sent, in 02 d, if the step before sent it, and no
//! earlier one; that conditions are refused, in 02, c, as they are handed in, with
//! an alarm as without; the byte that tells of an alarm; that, in 02, j, a 0 stands
//! for what a K1 value does not have; that, in 02, e, 16 also stands for a table that
//! has fewer entries than are said to be listed; that it comes before 12; that a list
//! is looked up in only if it is that of the whole capture; what `switches` prints,
//! names and all; that, in 02, a, 11 comes before the verdict, and so for a capture
//! without an explanation too; what `causes` prints; that, in 02, g, options which there
//! are not are refused by 25, before all else, where settings are handed in, and by 3 in a
//! record; that a command is denied also while the held one is outranked; and that with
//! hold one that was last sent need not be held. The third and the fourth take 02 at its
//! word, as the order of 16 and 12 does, and the last two; on the others the papers are
//! silent. What is answered was settled for both programs, and their agreement on it is
//! no evidence.
//!
//! Nor was the closed form of `judge::scan`, which requests can be sent in a step,
//! with an alarm or without: it was handed over. So was the equation by which that scan
//! passes over rows: one that equals the row before, and does not send WTR, leaves it as
//! it was. What speaks for both is that it agrees with the judge by brute force, which
//! was written from the papers alone. That hold changes no verdict was handed over as
//! well, and the scan does not ask for it. The judge by brute force does, with the command
//! that is held in its records: in groups of one section and of two it finds the same, on
//! all captures, as far as `judge::tests::hold` goes. And handed over was the way of
//! `causes::fill`, to keep what a step leaves open in the tables and to settle it from the
//! last step back, and to clear, with hold, in the first step behind a command that sends
//! none. What speaks for that is the controller, which sends the captures under the causes
//! that are found. Handed over, too, was the book of `books::longest`, and how many
//! characters its table has. What speaks for that is a search over all numbers of steps,
//! which was not.
//!
//! The programs are compared by what they print: `sequences` for the byte pair and
//! the controller, `trials` for the capture book, `k1` for what is said of each K1
//! value. For the judge, the list of switches and the causes there are programs of their
//! own on the other side, so `books`, `lists` and `causes` run them on many books. What
//! the first two print is compared with what `judge` and `switches` print here. The
//! causes need not be those that `explain` prints: they are read, and put to the
//! controller.
//!
//! The proved library is linked, and called with the same arguments as this
//! reading: `compare` looks for differences in what they answer and in all they
//! are lent, `bench` for how long they take. `books` calls it too: each book is put to the
//! program and to the library's table, and both are held against what `judge` prints here.
//! A package that was built without the library has no `compare` and no `bench`, and its
//! `books` are put to the program alone, which is told.
//!
//! `peer/run` builds the library and makes all of these comparisons. It also runs
//! the tests of this package, holds the examples to what is expected of them, and
//! ends with `bench`.
//!
//! Where the two readings differ, neither has precedence: the paper decides which
//! one is wrong.

mod bench;
mod block;
mod book;
mod books;
mod causes;
mod compare;
mod controller;
mod door;
mod draws;
mod judge;
#[cfg(linked)]
mod library;
#[cfg(not(linked))]
#[path = "library/missing.rs"]
mod library;
mod lists;
mod pair;
mod programs;
mod rows;
mod sequences;
mod settings;
mod switches;
mod table;
mod trials;

use door::Door;
use library::Library;
use programs::{Comparison, Others};
use std::ffi::OsString;
use std::io::{self, BufWriter, StdoutLock, Write};
use std::path::Path;
use std::process::ExitCode;

const USAGE: &str = "\
usage: peer sequences | trials | k1 | judge | explain | switches
       peer books [PROGRAM] | lists [PROGRAM] | causes [PROGRAM] | compare | bench";

const MISSING: &str = "\
peer: built without crates/chainplater/out/libchainplater.a, which is for x86-64 alone
peer: `peer/run` builds the archive, links it and runs `compare` and `bench`";

type Printer = BufWriter<StdoutLock<'static>>;

fn main() -> ExitCode {
    // `args_os`, because a word that is not Unicode is still only a wrong word.
    let words: Vec<OsString> = std::env::args_os().skip(1).collect();
    match words.as_slice() {
        [word] if word == "sequences" => finish(print(sequences::write)),
        [word] if word == "trials" => finish(print(trials::write)),
        [word] if word == "k1" => finish(print(pair::values::write)),
        [word] if word == "judge" => {
            finish(print(|out| judge::table::Table::print(io::stdin(), out)))
        }
        [word] if word == "explain" => {
            finish(print(|out| causes::table::Table::print(io::stdin(), out)))
        }
        [word] if word == "switches" => {
            finish(print(|out| switches::table::Table::print(io::stdin(), out)))
        }
        [word, program @ ..] if word == "books" && program.len() <= 1 => {
            compare_program(&books::COMPARISON, program.first())
        }
        [word, program @ ..] if word == "lists" && program.len() <= 1 => {
            compare_program(&lists::COMPARISON, program.first())
        }
        [word, program @ ..] if word == "causes" && program.len() <= 1 => {
            compare_program(&causes::printed::COMPARISON, program.first())
        }
        [word] if word == "compare" => with_library(compare_library),
        [word] if word == "bench" => with_library(bench_library),
        _ => {
            complain(USAGE);
            ExitCode::from(2)
        }
    }
}

fn print(write: impl FnOnce(&mut Printer) -> io::Result<()>) -> io::Result<()> {
    let mut out = BufWriter::new(io::stdout().lock());
    write(&mut out)?;
    out.flush()
}

fn finish(printed: io::Result<()>) -> ExitCode {
    match printed {
        Ok(()) => ExitCode::SUCCESS,
        Err(error) => {
            complain(&format!("peer: {error}"));
            ExitCode::FAILURE
        }
    }
}

/// With the file that is named, or else with that of the proved program; and with the
/// library, if it is linked.
fn compare_program(comparison: &Comparison, named: Option<&OsString>) -> ExitCode {
    let program = named.map_or(Path::new(comparison.program), Path::new);
    let library = library::linked();
    let others = Others {
        program,
        library: library.as_ref().map(|library| library as &dyn Door),
    };
    match comparison.compare(others) {
        Ok(finding) => report(finding.clean, &finding.text),
        Err(error) => {
            complain(&format!("peer: cannot run {}: {error}", program.display()));
            ExitCode::from(2)
        }
    }
}

fn compare_library(library: &Library) -> ExitCode {
    match compare::compare(library) {
        Ok(finding) => report(finding.clean, &finding.text),
        failed => finish(failed.map(|_| ())),
    }
}

fn bench_library(library: &Library) -> ExitCode {
    finish(print(|out| bench::write(library, out)))
}

/// Fails if anything was found, or if what was found cannot be printed.
fn report(clean: bool, text: &[u8]) -> ExitCode {
    let printed = finish(print(|out| out.write_all(text)));
    if clean {
        printed
    } else {
        ExitCode::FAILURE
    }
}

/// Does what needs the library, or says that it is missing.
fn with_library(work: impl FnOnce(&Library) -> ExitCode) -> ExitCode {
    match library::linked() {
        Some(library) => work(&library),
        None => {
            complain(MISSING);
            ExitCode::from(2)
        }
    }
}

/// Unlike `eprintln!`, does not panic when standard error cannot be written;
/// the exit code still tells.
fn complain(line: &str) {
    let _ = writeln!(io::stderr(), "{line}");
}
