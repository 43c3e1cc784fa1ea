//! What a dropped recorder tells on standard error: in a debug build that its
//! recording is not whole, in others nothing. Each case runs in a process of
//! its own.

use std::convert::Infallible;
use std::env;
use std::panic::{catch_unwind, AssertUnwindSafe};
use std::process::Command;

use adr_tape::{
    record_all, Address, Drive, Element, Geometry, Next, Recorder, Reply, Sense, Setup,
};

const GEOMETRY: Geometry = Geometry::beginning(3_001, 1);
const SETUP: Setup = Setup {
    depth: 4,
    blocks: 2,
    tail: 0,
};

/// Names the case that the process is to run.
const CASE: &str = "ADR_TAPE_UNCLOSED";

/// Each case, and how often it tells.
const CASES: [(&str, fn(), usize); 14] = [
    ("untouched", || drop(open()), 0),
    ("an element accepted", || drop(begun()), 1),
    ("a command given", || drop(sending()), 1),
    ("closed and not done", closed_and_not_done, 1),
    ("done", || finish(&mut begun()), 0),
    ("refused", refused, 0),
    ("refused and going on", refused_and_going_on, 1),
    ("spent", || drop(spent()), 0),
    ("spent, closed and not done", spent_and_closed, 1),
    ("abandoned", || begun().abandon(), 0),
    ("while panicking", while_panicking, 0),
    ("clones, one of them done", clones_one_done, 0),
    ("clones, none of them done", clones_none_done, 1),
    ("the drive failed", the_drive_failed, 0),
];

fn open() -> Recorder {
    Recorder::open(GEOMETRY, SETUP, None).expect("opens")
}

fn begun() -> Recorder {
    let mut recorder = open();
    recorder.accept_filemark().expect("accepts");
    recorder
}

fn sending() -> Recorder {
    let mut recorder = open();
    assert!(matches!(recorder.fetch(), Ok(Next::Send(..))));
    recorder
}

fn finish(recorder: &mut Recorder) {
    recorder.close().expect("closes");
    while recorder.fetch().expect("goes on") != Next::Done {
        recorder.reply(Reply::good()).expect("goes on");
    }
}

fn closed_and_not_done() {
    let mut recorder = open();
    recorder.close().expect("closes");
}

fn refused() {
    let unlawful = Reply::sense(Sense::UNREADABLE);
    assert!(sending().reply(unlawful).is_err());
}

fn refused_and_going_on() {
    assert!(begun().accept_block(&[]).is_err());
}

fn while_panicking() {
    let recorder = AssertUnwindSafe(begun());
    let panicked = catch_unwind(|| {
        let _recorder = recorder;
        panic!("a panic of the host's");
    });
    assert!(panicked.is_err());
}

/// A clone from the midst of a recording outlives it.
fn clones_one_done() {
    let mut recorder = begun();
    let kept = recorder.clone();
    drop(recorder.clone());
    finish(&mut recorder);
    drop(recorder);
    drop(kept);
}

fn clones_none_done() {
    let mut recorder = begun();
    let kept = recorder.clone();
    recorder.accept_filemark().expect("accepts");
    drop(recorder);
    drop(kept);
}

/// A drive that can't be reached.
struct Unreachable;

impl Drive for Unreachable {
    type Error = ();

    fn locate(&mut self, _: Address) -> Result<Reply, ()> {
        Err(())
    }

    fn write(&mut self, _: Address, _: &[u8]) -> Result<Reply, ()> {
        Err(())
    }

    fn read(&mut self, _: Address, _: &mut [u8]) -> Result<Reply, ()> {
        Err(())
    }

    fn read_position(&mut self) -> Result<Reply, ()> {
        Err(())
    }
}

/// The error tells it already.
fn the_drive_failed() {
    let elements = [Ok::<_, Infallible>(Element::Filemark)];
    let recorded = record_all(&mut Unreachable, GEOMETRY, SETUP, None, elements, |_| {});
    assert!(recorded.is_err());
}

/// Refused with 9 at its first element, for the tape ends before it.
fn spent() -> Recorder {
    let setup = Setup { tail: 1, ..SETUP };
    let mut recorder = Recorder::open(GEOMETRY, setup, None).expect("opens");
    recorder.accept_filemark().expect("accepts");
    let mut write = |at: u32| match recorder.fetch() {
        Ok(Next::Send(command, _)) => {
            let first = command == adr_tape::Command::Write(Address(at));
            let sense = if first { Sense::EARLY_END } else { Sense::GOOD };
            recorder.reply(Reply::sense(sense)).expect("goes on");
            true
        }
        next => next.is_ok(),
    };
    while write(10) {}
    assert!(recorder.is_spent());
    recorder
}

fn spent_and_closed() {
    let mut recorder = spent();
    recorder.close().expect("once more");
}

/// Runs the case that the environment names, in a process for it alone.
#[test]
fn run_a_case() {
    if let Ok(name) = env::var(CASE) {
        let case = CASES.iter().find(|(known, ..)| *known == name);
        case.expect("a case of this name").1();
    }
}

#[test]
fn each_case_tells_as_often_as_it_should() {
    let program = env::current_exe().expect("this program");
    for (name, _, told) in CASES {
        let mut child = Command::new(&program);
        child.args(["--exact", "run_a_case"]).env(CASE, name);
        let output = child.output().expect("it runs");
        let error = String::from_utf8_lossy(&output.stderr);
        assert!(output.status.success(), "{name}: {error}");
        let expected = if cfg!(debug_assertions) { told } else { 0 };
        let count = error.matches("a Recorder was dropped").count();
        assert_eq!(count, expected, "{name}: {error}");
    }
}
