//! Header copies, by hand.

mod common;

use adr_model::frame::number_at;
use adr_model::reply::EARLY_END;
use adr_model::{Answer, Recording, Reply};
use common::*;

#[test]
fn one_at_a_time_and_five_at_once() {
    let mut host = Host::open(&geometry(), 1, 1);
    for group in [5, 2_990] {
        host.step(locate(group), good());
        for copy in 0..5 {
            host.step(write(group + copy), good());
            host.step(READ_POSITION, Reply::position(1));
            host.step(READ_POSITION, Reply::position(0));
        }
    }
    host.step(locate(10), good());
    assert_eq!(host.fetch(), Answer::Idle);

    let mut host = Host::open(&geometry(), 5, 1);
    for group in [5, 2_990] {
        host.step(locate(group), good());
        for copy in 0..5 {
            host.step(write(group + copy), good());
        }
        host.step(READ_POSITION, Reply::position(3));
        host.step(READ_POSITION, Reply::position(0));
    }
    host.step(locate(10), good());
}

#[test]
fn fewer_than_the_depth_are_outstanding() {
    let mut host = Host::open(&geometry(), 2, 1);
    host.step(locate(5), good());
    host.step(write(5), good());
    host.step(write(6), good());
    host.step(READ_POSITION, Reply::position(1));
    host.step(write(7), good());
    host.step(READ_POSITION, Reply::position(2));
    host.step(READ_POSITION, Reply::position(0));
    host.step(write(8), good());
    host.step(write(9), good());
    host.refused_step(READ_POSITION, Reply::position(3), 8);
}

#[test]
fn spoilt_copies() {
    let mut host = Host::open(&geometry(), 5, 1);
    host.step(locate(5), good());
    host.step(write(5), good());
    host.step(write(6), good());
    host.step(write(7), error(6, 200));
    host.step(locate(7), good());
    host.step(write(7), good());
    host.step(write(8), good());
    host.step(write(9), good());
    host.step(READ_POSITION, error(9, 0));
    host.step(locate(2_990), good());
    host.step(write(2_990), good());
    host.refused_step(write(2_991), error(2_991, 0), 8);
}

#[test]
fn all_ten_fail() {
    let mut host = Host::open(&geometry(), 5, 1);
    let fail = |host: &mut Host, address: u32| {
        host.step(locate(address), good());
        host.step(write(address), good());
    };
    for address in (5..10).chain(2_990..2_994) {
        fail(&mut host, address);
        if address % 5 == 4 {
            host.step(READ_POSITION, error(address, 0));
        } else {
            host.step(write(address + 1), error(address, 255));
        }
    }
    fail(&mut host, 2_994);
    let mut good_one = host.clone();
    host.refused_step(READ_POSITION, error(2_994, 0), 12);
    good_one.step(READ_POSITION, Reply::position(0));
    good_one.step(locate(10), good());
    // Copies are counted anew for the closing headers.
    good_one.close();
    good_one.step(write(10), good());
    good_one.step(READ_POSITION, Reply::position(0));
    for address in (5..10).chain(2_990..2_994) {
        fail(&mut good_one, address);
        let next = if address % 5 == 4 {
            READ_POSITION
        } else {
            write(address + 1)
        };
        good_one.step(next, error(address, 0));
    }
    fail(&mut good_one, 2_994);
    good_one.refused_step(READ_POSITION, error(2_994, 0), 12);
}

#[test]
fn unlawful_replies() {
    let mut host = Host::open(&geometry(), 5, 1);
    host.step(locate(5), good());
    host.clone().refused_step(write(5), Reply::of(EARLY_END), 8);
    host.clone().refused_step(write(5), error(5, 0), 8);
    host.step(write(5), good());
    host.clone().refused_step(write(6), error(5, 256), 8);
    host.clone().refused_step(write(6), error(4, 0), 8);
    host.clone().refused_step(write(6), error(2_990, 0), 8);
    host.step(write(6), error(5, 255));
    host.step(locate(6), good());
}

#[test]
fn counts_and_passes() {
    let old = header(7, 40, 11_999);
    let (session, outcome) = Recording::open(&geometry(), 255, 1, 0, Some(&old));
    assert_eq!(outcome, ACCEPTED);
    let mut host = Host::open(&geometry(), 255, 1);
    host.session = session;
    host.write_headers();
    let pass = |host: &Host| u16::from_be_bytes([host.frame[22], host.frame[23]]);
    assert_eq!((pass(&host), host.aux(12)), (8, 41));
    assert_eq!(number_at(&host.frame, 32), 0);
    host.step(locate(10), good());
    host.close();
    host.step(write(10), good());
    assert_eq!(host.aux(44), 0);
    host.step(READ_POSITION, Reply::position(0));
    host.write_headers();
    assert_eq!((pass(&host), host.aux(12)), (8, 42));
    assert_eq!(number_at(&host.frame, 32), 10);
    assert_eq!(host.fetch(), Answer::Done);
}
