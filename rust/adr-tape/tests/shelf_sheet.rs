//! The program `shelf_sheet` beside the model: what it prints of dumps, how it
//! takes its input, and what it does where nobody takes its output.

mod program;

use std::fs::File;
use std::io::{ErrorKind, Write};
use std::process::{Child, Command, Output, Stdio};
use std::thread;
use std::time::{Duration, Instant};

use adr_model::geometry::AUX_LENGTH;
use adr_model::sheet::dumps::{dump_of, fields};
use adr_model::sheet::random_dumps::dump_of_seed;
use adr_model::sheet::{sheet_of, LAST_JOB};
use program::shelf_sheet;

const DUMPS: u64 = 600;
/// The program has ended by then, or never does.
const PATIENCE: Duration = Duration::from_secs(20);
/// The sheet of a dump without fields.
const CUT_AT_ONCE: &str = "  JOB      FIRST     BLOCKS\n***************************\n";

fn dump(kinds: &str) -> Vec<u8> {
    dump_of(&fields(0, kinds), 9)
}

fn start(input: impl Into<Stdio>, output: impl Into<Stdio>) -> Child {
    let mut command = Command::new(shelf_sheet());
    command.stdin(input).stdout(output).stderr(Stdio::piped());
    command.spawn().expect("shelf_sheet is a program")
}

/// Gives a dump in pieces of this length, with a rest between; a program that
/// has ended takes no more.
fn give(input: &mut impl Write, dump: &[u8], length: usize, rest: Duration) {
    for piece in dump.chunks(length) {
        match input.write_all(piece).and_then(|()| input.flush()) {
            Err(error) if error.kind() == ErrorKind::BrokenPipe => return,
            given => given.expect("a pipe"),
        }
        thread::sleep(rest);
    }
}

/// What the program prints of a dump that comes in pieces.
fn printed_in_pieces(dump: &[u8], length: usize, rest: Duration) -> Output {
    let mut child = start(Stdio::piped(), Stdio::piped());
    let mut input = child.stdin.take().expect("a pipe");
    thread::scope(|scope| {
        scope.spawn(move || give(&mut input, dump, length, rest));
        child.wait_with_output().expect("it ends")
    })
}

/// The program printed this sheet; of one that does not break off it tells no
/// more, and success.
#[track_caller]
fn is_sheet(output: &Output, sheet: &str, of: &str) {
    let error = String::from_utf8_lossy(&output.stderr);
    assert!(
        output.stdout == sheet.as_bytes(),
        "{of}: printed\n{}\nand not\n{sheet}\nand told: {error}",
        String::from_utf8_lossy(&output.stdout)
    );
    if !sheet.ends_with("*\n") {
        assert_eq!(
            (error.as_ref(), output.status.code()),
            ("", Some(0)),
            "{of}"
        );
    }
}

#[track_caller]
fn prints_sheet(dump: &[u8], of: &str) {
    let output = printed_in_pieces(dump, dump.len().max(1), Duration::ZERO);
    is_sheet(&output, &sheet_of(dump), of);
}

#[test]
fn two_blocks_a_filemark_and_another() {
    let sheet = "  JOB      FIRST     BLOCKS\n    \
                     1          0          2\n    \
                     2          3          0\n";
    let output = printed_in_pieces(&dump("bb//e"), usize::MAX, Duration::ZERO);
    is_sheet(&output, sheet, "two jobs");
}

#[test]
fn random_dumps() {
    for seed in 0..DUMPS {
        prints_sheet(&dump_of_seed(seed), &format!("seed {seed}"));
    }
}

/// A job above 99,999 has no line, whether a filemark ends it or EOD does.
#[test]
fn the_last_job() {
    for more in ["e", "be", "/e"] {
        let kinds = "/".repeat(LAST_JOB as usize) + more;
        let dump = dump(&kinds);
        let output = printed_in_pieces(&dump, dump.len(), Duration::ZERO);
        let as_modelled = output.stdout == sheet_of(&dump).as_bytes();
        assert!(as_modelled, "99,999 filemarks and {more}");
    }
}

#[test]
fn every_length() {
    let whole = [dump("bb//e"), vec![0; 3]].concat();
    for length in 0..=whole.len() {
        prints_sheet(&whole[..length], &format!("{length} bytes"));
    }
}

#[test]
fn input_in_pieces() {
    let whole = dump("b//bbe");
    for (length, rest) in [
        (1, 100),
        (7, 300),
        (511, 2_000),
        (513, 2_000),
        (1_000, 2_000),
    ] {
        let rest = Duration::from_micros(rest);
        for dump in [&whole[..], &whole[..whole.len() - 1]] {
            let output = printed_in_pieces(dump, length, rest);
            let of = format!("{} bytes in pieces of {length}", dump.len());
            is_sheet(&output, &sheet_of(dump), &of);
        }
    }
}

/// What the program came to, which must end by itself.
#[track_caller]
fn ended(mut child: Child) -> Output {
    let start = Instant::now();
    while child.try_wait().expect("a child").is_none() {
        if start.elapsed() > PATIENCE {
            child.kill().expect("a child");
            panic!("it does not end by itself");
        }
        thread::sleep(Duration::from_millis(1));
    }
    child.wait_with_output().expect("it ended")
}

/// What the program came to, given a dump whose end it is not told.
#[track_caller]
fn ended_while_open(mut child: Child, dump: &[u8]) -> Output {
    let mut input = child.stdin.take().expect("a pipe");
    thread::scope(|scope| {
        let giving = scope.spawn(move || {
            give(&mut input, dump, dump.len(), Duration::ZERO);
            input
        });
        let output = ended(child);
        drop(giving.join().expect("an input that is still open"));
        output
    })
}

/// Runs the program by a shell's command line, in which `$SHELF_SHEET` is it.
#[track_caller]
fn shell(line: &str) -> Output {
    let mut command = Command::new("sh");
    command.args(["-c", line]).env("SHELF_SHEET", shelf_sheet());
    command.stdin(Stdio::null()).stdout(Stdio::piped());
    ended(command.stderr(Stdio::piped()).spawn().expect("a shell"))
}

/// An empty dump is read, though cut short; one that can't be read is a failure.
#[test]
fn no_input() {
    for (line, status) in [
        ("\"$SHELF_SHEET\" </dev/null", 0),
        ("\"$SHELF_SHEET\" <&-", 1),
        ("\"$SHELF_SHEET\" </", 1),
        ("\"$SHELF_SHEET\" 0>/dev/null", 1),
    ] {
        let output = shell(line);
        is_sheet(&output, CUT_AT_ONCE, line);
        assert_eq!(output.status.code(), Some(status), "{line}");
    }
}

/// Once the sheet has ended no more input is waited for.
#[test]
fn an_input_that_stays_open() {
    let mut other_type = dump("b/e");
    other_type[AUX_LENGTH + 16] ^= 1;
    for dump in [dump("e"), dump("bb//e"), dump("b<"), dump("<"), other_type] {
        let child = start(Stdio::piped(), Stdio::piped());
        let output = ended_while_open(child, &dump);
        is_sheet(&output, &sheet_of(&dump), "an input that stays open");
    }
}

/// It tells on standard error that it could not print, and fails.
#[track_caller]
fn tells(output: &Output, of: &str) {
    let error = String::from_utf8_lossy(&output.stderr);
    let told = error.starts_with("shelf_sheet: ") && error.ends_with('\n');
    assert!(told, "{of}: {error:?}");
    assert_eq!(output.status.code(), Some(1), "{of}");
}

#[test]
fn an_output_that_takes_nothing() {
    let jobs = "/".repeat(3_000) + "e";
    for kinds in ["e", "bb//e", "<", &jobs] {
        let full = File::options().write(true).open("/dev/full");
        let child = start(Stdio::piped(), full.expect("a device"));
        let output = ended_while_open(child, &dump(kinds));
        tells(&output, &format!("/dev/full, {} fields", kinds.len()));
    }
    for line in ["\"$SHELF_SHEET\" >&-", "\"$SHELF_SHEET\" 1</dev/null"] {
        tells(&shell(line), line);
    }
}

/// Whoever reads the sheet may leave.
#[test]
fn an_output_that_is_left() {
    let mut child = start(Stdio::piped(), Stdio::piped());
    drop(child.stdout.take());
    let jobs = "/".repeat(3_000) + "e";
    ended_while_open(child, &dump(&jobs));
}
