//! The bytes of an image, and checksums that hold again after a change.

pub const PAGE: usize = 4_096;
pub const ROOTS: [usize; 2] = [4_096, 8_192];
pub const CELLS: usize = 12_288;
pub const CELL: usize = 36_864;

/// How the first block of a job starts.
pub const DESCRIPTION: &[u8] = b"ADRJOB 2";

/// Where a header tells the address of EOD.
pub const EOD: std::ops::Range<usize> = 32..36;

/// The first address of the second header group, and the user frame behind it
/// and the defect map.
pub const GROUP: usize = 2_990;
pub const BEHIND_GROUP: usize = 3_000;

/// Bytes of a frame; a cell's label stands behind it.
pub const FRAME: usize = 33_280;
const BLOCK: usize = 32_768;
/// Where an index cell's entries start, and their length.
const ENTRIES: usize = 8;
const ENTRY: usize = 24;
/// Where an entry tells whether a frame reads.
const MARKS: std::ops::Range<usize> = 4..8;

/// The 64-bit number at `at`.
pub fn number(image: &[u8], at: usize) -> usize {
    let bytes = image[at..at + 8].iter();
    bytes.fold(0, |sum, byte| sum * 256 + usize::from(*byte))
}

/// Puts a 64-bit number at `at`.
pub fn set_number(image: &mut [u8], at: usize, number: u64) {
    image[at..at + 8].copy_from_slice(&number.to_be_bytes());
}

/// The newer root.
pub fn newer_root(image: &[u8]) -> usize {
    let newer = ROOTS.into_iter().max_by_key(|root| number(image, root + 8));
    newer.expect("two roots")
}

/// Where the index starts that the newer root names.
pub fn index_of(image: &[u8]) -> usize {
    CELLS + number(image, newer_root(image) + 24) * CELL
}

/// Where the entries of the index start, one for each address.
pub fn entries(image: &[u8]) -> Vec<usize> {
    let count = number(image, newer_root(image) + 32);
    let first = index_of(image) + ENTRIES;
    (0..count).map(|turn| first + turn * ENTRY).collect()
}

/// Where the entry of an address starts.
fn entry_of(image: &[u8], address: usize) -> usize {
    let mut all = entries(image).into_iter();
    let entry = all.find(|entry| number(image, *entry) >> 32 == address);
    entry.expect("an entry")
}

/// Where the frame of an address starts, as the index has it.
pub fn frame_at(image: &[u8], address: usize) -> usize {
    CELLS + number(image, entry_of(image, address) + 8) * CELL
}

/// The addresses of the header's copies.
pub fn header_addresses() -> impl Iterator<Item = usize> {
    (5..10).chain(GROUP..GROUP + 5)
}

/// Changes every copy of the header.
pub fn change_headers(image: &mut [u8], change: impl Fn(&mut [u8])) {
    for address in header_addresses() {
        let start = frame_at(image, address);
        change(&mut image[start..start + FRAME]);
        seal_frame(image, start);
    }
}

/// Lets the frame of one address stand at another.
pub fn move_frame(image: &mut [u8], from: usize, to: usize) {
    let entry = entry_of(image, from);
    image[entry..entry + 4].copy_from_slice(&(to as u32).to_be_bytes());
    seal_index(image);
}

/// Lets nothing read at an address.
pub fn lose_frame(image: &mut [u8], address: usize) {
    let entry = entry_of(image, address);
    image[entry..][MARKS].fill(0);
    seal_index(image);
}

/// The address of EOD that the header tells.
pub fn end_of_data(image: &[u8]) -> usize {
    let header = frame_at(image, 5);
    let told = image[header..][EOD].iter();
    told.fold(0, |sum, byte| sum * 256 + usize::from(*byte))
}

/// Lets every copy of the header tell this address of EOD.
pub fn tell_end(image: &mut [u8], end: usize) {
    let end = (end as u32).to_be_bytes();
    change_headers(image, |header| header[EOD].copy_from_slice(&end));
}

/// Lets the checksums of an index of one cell, and of the roots, hold again.
pub fn seal_index(image: &mut [u8]) {
    let index = index_of(image);
    let sum = crc(&image[index..index + CELL]);
    seal_roots(image, sum);
}

/// Lets the roots hold with an index of this checksum.
pub fn seal_roots(image: &mut [u8], sum: u64) {
    for root in ROOTS {
        set_number(image, root + 40, sum);
        let sum = crc(&image[root..root + PAGE - 8]);
        set_number(image, root + PAGE - 8, sum);
    }
}

/// Lets the checksums of a job's first block hold again, and all that lead
/// to it.
pub fn seal_description(image: &mut [u8], start: usize) {
    let sum = crc(&image[start..start + BLOCK - 8]);
    set_number(image, start + BLOCK - 8, sum);
    seal_frame(image, start);
}

/// Lets the checksum of the frame that starts here hold again, and all that
/// lead to it.
pub fn seal_frame(image: &mut [u8], start: usize) {
    let cell = (start - CELLS) / CELL;
    let sum = crc(&image[start..start + FRAME]);
    for entry in entries(image) {
        if number(image, entry + 8) == cell {
            set_number(image, entry + 16, sum);
        }
    }
    seal_index(image);
}

/// Makes cells as they were before there were labels.
pub fn remove_labels(image: &mut [u8]) {
    for cell in (CELLS..image.len()).step_by(CELL) {
        let is_index = cell == index_of(image);
        if !is_index {
            image[cell + FRAME..cell + CELL].fill(0);
        }
    }
}

/// Where the cells start whose content starts with these bytes.
pub fn cells_with(image: &[u8], start: &[u8]) -> Vec<usize> {
    let cells = (CELLS..image.len()).step_by(CELL);
    cells
        .filter(|cell| image[*cell..].starts_with(start))
        .collect()
}

/// CRC-64/XZ.
pub fn crc(bytes: &[u8]) -> u64 {
    let mut sum = u64::MAX;
    for byte in bytes {
        sum ^= u64::from(*byte);
        for _ in 0..8 {
            let carry = sum & 1;
            sum = (sum >> 1) ^ (carry * 0xC96C_5795_D787_0F42);
        }
    }
    !sum
}
