//! Sizes and offsets of the structs, as `include/adr.h` asserts them.

use std::mem::{offset_of, size_of};

use super::structs::*;

/// Asserts the size of a struct and the offset of each of its fields; a field
/// that is not named does not compile.
macro_rules! layout {
    ($type:ident, $size:literal, { $($field:ident: $offset:literal),+ $(,)? }) => {
        const _: () = {
            assert!(size_of::<$type>() == $size);
            $(assert!(offset_of!($type, $field) == $offset);)+
            // Names every field, so that a new one can't be left out here.
            const fn _every_field(value: &$type) {
                let $type { $($field: _),+ } = value;
            }
        };
    };
}

layout!(Geometry, 12, {
    segtrk: 0,
    trks: 4,
    load: 8,
});
layout!(Reply, 16, {
    buffered: 0,
    position: 4,
    skip: 8,
    key: 12,
    asc: 13,
    ascq: 14,
});
layout!(Place, 8, {
    address: 0,
    number: 4,
});
layout!(Choice, 2, {
    which: 0,
    number: 1,
});
layout!(Command, 8, {
    code: 0,
    address: 4,
});
layout!(Exchange, 12, {
    command: 0,
    awaiting: 8,
    again: 9,
});
layout!(Setup, 3, {
    depth: 0,
    highest: 1,
    tail: 2,
});
layout!(Header, 20, {
    last: 0,
    eod: 4,
    old: 8,
    update: 12,
    pass: 16,
});
layout!(Copies, 28, {
    header: 0,
    group: 20,
    copy: 21,
    outstanding: 22,
    confirmed: 23,
    locate: 24,
});
layout!(Trail, 8, {
    filemarks: 0,
    marker: 4,
});
layout!(Elements, 96, {
    first: 0,
    next: 4,
    limit: 8,
    target: 12,
    trail: 16,
    pending: 24,
    outstanding: 26,
    locate: 28,
    eod: 29,
    marks: 30,
});
layout!(Recording, 144, {
    setup: 0,
    stage: 3,
    closed: 4,
    ended: 5,
    spent: 6,
    exchange: 8,
    copies: 20,
    elements: 48,
});
layout!(Told, 20, {
    last: 0,
    eod: 4,
    old: 8,
    update: 12,
    pass: 16,
});
layout!(Position, 8, {
    next: 0,
    locate: 4,
});
layout!(Reading, 56, {
    told: 0,
    position: 20,
    expected: 28,
    trail: 32,
    exchange: 40,
    finished: 52,
    ended: 53,
});
layout!(Sheet, 24, {
    first: 0,
    next: 8,
    job: 16,
    ended: 20,
});
layout!(RecordOutcome, 148, {
    session: 0,
    number: 144,
});
layout!(RecordFetched, 156, {
    session: 0,
    command: 144,
    answer: 152,
    number: 153,
});
layout!(ReadOpened, 60, {
    session: 0,
    number: 56,
});
layout!(ReadFetched, 68, {
    session: 0,
    command: 56,
    answer: 64,
    number: 65,
});
layout!(ReadReplied, 60, {
    session: 0,
    answer: 56,
    number: 57,
});
layout!(SheetEntered, 32, {
    sheet: 0,
    answer: 24,
    number: 25,
});
