//! The power cut in the middle, by hand.

mod common;

use adr_model::header::choose;
use adr_model::{Answer, Geometry, Recording, Reply};
use common::bench::{Bench, Reads, EACH};
use common::*;

const LAST: u32 = 11_999;
const NINE: Answer = Answer::Refused(9);
/// Monday's elements, at 10 to 12 with EOD at 13.
const MONDAY: [u8; 3] = [b'F', 1, 2];
/// All of Monday's, and Tuesday's first one or both.
const AND_ONE: [u8; 4] = [b'F', 1, 2, 9];
const AND_TWO: [u8; 5] = [b'F', 1, 2, 9, b'F'];
/// The copies of a header.
const COPIES: usize = 10;

fn monday() -> Bench {
    Bench::recorded(geometry(), &MONDAY)
}

/// LAST 3,000.
fn smallest() -> Geometry {
    Geometry::beginning(3_001, 1)
}

/// Tuesday's, about to be added behind Monday's and closed.
fn tuesday(bench: &Bench) -> Host {
    let mut host = bench.added(5);
    host.accept(&[9, b'F']);
    host.close();
    host
}

/// What readings come to behind so many frames of Tuesday: ten opening headers,
/// two elements, EOD, ten closing headers.
fn behind(frames: usize) -> (&'static [u8], Result<u32, u8>) {
    match frames {
        0..=10 => (&MONDAY, Ok(13)),
        11 => (&AND_ONE, Err(12)),
        12 => (&AND_TWO, Err(12)),
        _ => (&AND_TWO, Ok(15)),
    }
}

#[test]
fn in_each_stage() {
    for frames in 0..23 {
        for reads in EACH {
            let mut bench = monday();
            let mut host = tuesday(&bench);
            bench.write(&mut host, frames);
            bench.cut(&mut host, reads);
            let (delivered, end) = match (reads, frames) {
                (Reads::New, _) => behind(frames + 1),
                // The frame that is lost is no header's.
                (Reads::Nothing, 10..=12) => (behind(frames).0, Err(12)),
                _ => behind(frames),
            };
            bench.all_read(delivered, end);
        }
    }
}

/// Nothing is written by a LOCATE, and nothing behind the last header.
#[test]
fn between_the_frames() {
    let mut bench = monday();
    let mut host = tuesday(&bench);
    bench.write(&mut host, COPIES);
    host.step(READ_POSITION, good());
    host.step(locate(13), good());
    bench.all_read(&MONDAY, Ok(13));
    assert_eq!(bench.go_on(&mut host), Answer::Done);
    bench.all_read(&AND_TWO, Ok(15));
    assert_eq!(bench.counts(), [Some(3); COPIES]);
}

/// Where the others failed and read as before, old copies are read on, too.
#[test]
fn one_opening_copy() {
    for good_one in 0..COPIES {
        for reads in EACH {
            let mut bench = monday();
            let mut host = tuesday(&bench);
            for copy in 0..COPIES {
                if copy == good_one {
                    bench.write(&mut host, 1);
                } else {
                    bench.fail(&mut host, reads, 0);
                }
            }
            let others = match reads {
                Reads::Before => Some(1),
                Reads::New => Some(2),
                Reads::Nothing => None,
            };
            let mut counts = [others; COPIES];
            counts[good_one] = Some(2);
            assert_eq!(bench.counts(), counts);
            for frames in 11..14 {
                bench.write(&mut host, 1);
                let (delivered, end) = behind(frames);
                bench.all_read(delivered, end);
            }
        }
    }
}

/// The first write fails at the old end and goes to 15.
#[test]
fn the_old_eod() {
    for reads in EACH {
        let mut bench = monday();
        let mut host = tuesday(&bench);
        bench.write(&mut host, COPIES);
        bench.fail(&mut host, reads, 2);
        let one = reads == Reads::New;
        let still = reads == Reads::Before;
        let failed: &[u8] = if one { &AND_ONE } else { &MONDAY };
        bench.all_read(failed, if still { Ok(13) } else { Err(12) });
        for (written, end) in [(AND_ONE.as_slice(), 12), (AND_TWO.as_slice(), 12)] {
            bench.write(&mut host, 1);
            match reads {
                Reads::Before => bench.all_read(&MONDAY, Ok(13)),
                _ => bench.all_read(written, Err(end)),
            }
        }
        // EOD at 17 is an end, but behind the old one that still reads.
        bench.write(&mut host, 1);
        match reads {
            Reads::Before => bench.all_read(&MONDAY, Ok(13)),
            _ => bench.all_read(&AND_TWO, Ok(17)),
        }
        // The first closing copy passes it over.
        assert_eq!(bench.cut(&mut host, Reads::New), 5);
        assert_eq!(bench.read_on(5), (AND_TWO.to_vec(), Ok(17)));
    }
}

/// A fresh recording on Monday's: before its first copy is on tape, and behind.
#[test]
fn a_fresh_recording() {
    for reads in EACH {
        let mut bench = monday();
        let mut host = bench.fresh(0);
        host.block(9);
        bench.cut(&mut host, reads);
        for copy in [6, 9, 2_990, 2_994] {
            assert_eq!(bench.read_on(copy), (MONDAY.to_vec(), Ok(13)));
        }
        if reads == Reads::New {
            assert_eq!(bench.read_on(5), (vec![], Err(12)));
        }
    }
    let mut bench = monday();
    let mut host = bench.fresh(0);
    host.block(9);
    bench.write(&mut host, COPIES);
    bench.all_read(&[], Err(12));
    bench.write(&mut host, 1);
    bench.all_read(&[9], Err(12));
    // On no header at all there is nothing to read but the new one.
    let mut bench = Bench::blank(geometry());
    let mut host = bench.fresh(0);
    host.accept(&[9, b'F']);
    bench.cut(&mut host, Reads::Nothing);
    assert_eq!(bench.counts(), [None; COPIES]);
    let mut host = bench.fresh(0);
    host.accept(&[9, b'F']);
    bench.write(&mut host, COPIES + 2);
    bench.all_read(&[9, b'F'], Err(12));
}

/// The only new copy is lost to the closing headers. No new copy reads, as none
/// did at first, but the old cartridge is gone: what holds before the first new
/// copy holds until then, and not again.
#[test]
fn the_only_new_copy_is_lost() {
    let mut bench = monday();
    let mut host = bench.fresh(0);
    host.block(9);
    host.close();
    bench.write(&mut host, 1);
    for _ in 1..COPIES {
        bench.fail(&mut host, Reads::Before, 0);
    }
    bench.write(&mut host, 2);
    assert_eq!(bench.read_on(5), (vec![9], Ok(11)));
    bench.fail(&mut host, Reads::Nothing, 0);
    for _ in 2..COPIES {
        bench.fail(&mut host, Reads::Before, 0);
    }
    let at = bench.fail_untold(&mut host, Reads::Before);
    host.refused_step(READ_POSITION, error(at, 0), 12);
    let mut counts = [Some(1); COPIES];
    counts[0] = None;
    assert_eq!(bench.counts(), counts);
    // Monday's block 2 is found where its first element is due.
    bench.all_read(&[], Err(10));
}

/// Two unlike headers of one count are no choice, and nothing is promised on the
/// one that the recording was not opened on.
#[test]
fn a_tie() {
    let mut bench = monday();
    bench.keep(6, &header(9, 1, LAST), Reads::New);
    let (one, other) = (&bench.copies[&5], &bench.copies[&6]);
    assert_eq!(choose(&geometry(), one, other), Err(3));
    let mut host = tuesday(&bench);
    bench.cut(&mut host, Reads::Nothing);
    assert_eq!(bench.read_on(7), (MONDAY.to_vec(), Ok(13)));
    assert_eq!(bench.read_on(6), (vec![], Err(12)));
}

/// No tail is kept, and the tape is full: 9, and what is on tape stays.
#[test]
fn a_full_tape() {
    let mut bench = Bench::blank(smallest());
    let mut host = bench.fresh(0);
    host.accept(&[9, b'F']);
    bench.write(&mut host, COPIES);
    bench.fail_up_to(&mut host, 2_985);
    bench.fail(&mut host, Reads::New, 15);
    bench.all_read(&[9], Err(12));
    bench.write(&mut host, 1);
    assert_eq!(bench.go_on(&mut host), NINE);
    host.is_ended();
    assert!(bench.cartridge.frames.contains_key(&3_000));
    bench.all_read(&[9], Err(12));
}

/// A reply is unlawful, and the drive goes on writing what it holds.
#[test]
fn a_refused_session() {
    let mut bench = monday();
    let (reading, _, _) = {
        let mut cartridge = bench.cartridge.clone();
        cartridge.header.clone_from(&bench.copies[&5]);
        cartridge.read()
    };
    let mut host = Host::of(Recording::open_at_end(&reading, 2, 4, 0), 4);
    host.accept(&[9, b'F']);
    bench.write(&mut host, COPIES);
    host.step(READ_POSITION, good());
    host.step(locate(13), good());
    let mut held = Vec::new();
    for at in [13, 14] {
        host.step(write(at), good());
        held.push((at, host.frame.clone()));
    }
    host.refused_step(READ_POSITION, Reply::position(3), 8);
    bench.all_read(&MONDAY, Ok(13));
    for ((at, frame), delivered) in held.iter().zip([AND_ONE.as_slice(), &AND_TWO]) {
        bench.keep(*at, frame, Reads::New);
        bench.all_read(delivered, Err(12));
    }
}

/// A host whose block has failed at the last address for an element, and reads
/// so there; it is given up, and EOD is due at 2,746.
fn giving_up(reads: Reads) -> (Bench, Host) {
    let mut bench = Bench::blank(smallest());
    let mut host = bench.fresh(255);
    host.accept(&[9, b'F']);
    bench.write(&mut host, COPIES);
    bench.fail_up_to(&mut host, 2_745);
    let at = bench.fail_untold(&mut host, reads);
    host.refused_by(READ_POSITION, error(at, 1), 9);
    host.close();
    (bench, host)
}

#[test]
fn while_giving_up() {
    for (failed, reads) in EACH
        .into_iter()
        .flat_map(|one| EACH.map(|other| (one, other)))
    {
        let (mut bench, mut host) = giving_up(failed);
        assert_eq!(bench.cut(&mut host, reads), 2_746);
        // The block that reads has EOD's number, which only the header that
        // names its place takes for an end.
        match (failed, reads) {
            (Reads::New, _) => bench.all_read(&[9], Err(12)),
            (_, Reads::New) => bench.all_read(&[], Ok(2_746)),
            _ => bench.all_read(&[], Err(12)),
        }
        if reads == Reads::New {
            host.bring(good());
            assert_eq!(bench.cut(&mut host, Reads::New), 5);
            let delivered = if failed == Reads::New {
                vec![9]
            } else {
                vec![]
            };
            assert_eq!(bench.read_on(5), (delivered, Ok(2_746)));
        }
    }
}

/// Added to a recording that was given up, and cut before the first element: all
/// that was there, then 12 on the new header and the old end on the old one.
#[test]
fn behind_a_recording_that_was_given_up() {
    let (mut bench, mut host) = giving_up(Reads::New);
    assert_eq!(bench.go_on(&mut host), Answer::Done);
    bench.all_read(&[9], Ok(2_746));
    let mut host = bench.added(5);
    host.filemark();
    for new in 1..=COPIES {
        bench.write(&mut host, 1);
        for (number, (copy, _)) in bench.copies.iter().enumerate() {
            let end = if number < new { Err(12) } else { Ok(2_746) };
            assert_eq!(bench.read_on(*copy), (vec![9], end));
        }
    }
    bench.write(&mut host, 1);
    bench.all_read(&[9, b'F'], Err(12));
}
