//! A map as text.

use super::counts::{Counts, NOTABLE};
use super::layout::{Row, Rows};
use super::spots::{Reading, Spot, Spots};
use crate::text::{count, grouped, printable};

/// The damaged addresses that are named; 'adr check' names all of them.
const MOST_NAMED: usize = 4;

/// The character of a spot.
fn character(spot: Spot) -> char {
    match spot {
        Spot::Damaged => '!',
        Spot::Bad => 'x',
        Spot::End => 'E',
        Spot::Filemark => '|',
        Spot::Header => 'H',
        Spot::Block => '#',
        Spot::Stale => '~',
        Spot::DefectMap => 'D',
        Spot::Unused => '.',
    }
}

/// What a kind of spot is called.
pub fn name(spot: Spot) -> &'static str {
    match spot {
        Spot::Damaged => "damaged",
        Spot::Bad => "bad spot",
        Spot::End => "end of data",
        Spot::Filemark => "filemark",
        Spot::Header => "header copy",
        Spot::Block => "block",
        Spot::Stale => "stale frame",
        Spot::DefectMap => "defect map",
        Spot::Unused => "unused",
    }
}

/// The order in which a legend names the kinds.
pub const LEGEND: [Spot; 9] = [
    Spot::Header,
    Spot::Block,
    Spot::Filemark,
    Spot::End,
    Spot::Bad,
    Spot::Damaged,
    Spot::Stale,
    Spot::DefectMap,
    Spot::Unused,
];

/// What a map shows, in a line.
pub fn heading(spots: &Spots, rows: &Rows) -> String {
    let frames = count(u64::from(spots.last) + 1, "frame", "frames");
    let scale = match rows.scale {
        1 => String::from("a character is a frame"),
        scale => format!("a character stands for {} frames", grouped(scale)),
    };
    let title = printable(spots.title.as_bytes());
    format!("{title}: {frames}, {scale}")
}

/// What is wrong with the cartridge.
pub fn wrong(spots: &Spots) -> Vec<String> {
    let reading = match spots.reading {
        Reading::Whole | Reading::GivenUp | Reading::Empty => Vec::new(),
        Reading::NoHeader => vec![String::from("the cartridge holds frames but no header")],
        Reading::Cut(session) => session.told().to_vec(),
        Reading::Stopped(refusal) => vec![format!("reading stopped: {refusal}")],
    };
    reading.into_iter().chain(damage(spots)).collect()
}

/// Where frames are damaged, if any are.
fn damage(spots: &Spots) -> Option<String> {
    let addresses: Vec<u32> = spots.addresses(Spot::Damaged).collect();
    let (named, others) = addresses.split_at(addresses.len().min(MOST_NAMED));
    let mut words: Vec<String> = named.iter().map(u32::to_string).collect();
    if !others.is_empty() {
        let others = u64::try_from(others.len()).unwrap_or(u64::MAX);
        words.push(format!("{} more", grouped(others)));
    }
    let last = words.pop()?;
    Some(if words.is_empty() {
        format!("damaged at address {last}")
    } else {
        format!("damaged at addresses {} and {last}", words.join(", "))
    })
}

/// What a reader of the map should know beside it.
pub fn remarks(spots: &Spots) -> Vec<String> {
    let plain = match spots.reading {
        Reading::Empty => Some("the cartridge holds no recording"),
        Reading::GivenUp => {
            Some("the tape was full: the last element was given up and still reads")
        }
        Reading::Whole | Reading::NoHeader | Reading::Cut(_) | Reading::Stopped(_) => None,
    };
    let remarks = plain.map(String::from).into_iter().chain(wrong(spots));
    remarks.map(|remark| sentence(&remark)).collect()
}

fn sentence(text: &str) -> String {
    let mut letters = text.chars();
    let first = letters.next().map(|letter| letter.to_ascii_uppercase());
    first.into_iter().chain(letters).chain(['.']).collect()
}

/// Draws a map.
pub fn draw(spots: &Spots, rows: &Rows) -> String {
    let mut text = heading(spots, rows);
    text.push_str("\n\n");
    for row in &rows.rows {
        text.push_str(&match row {
            Row::Groups { first, groups } => {
                let shown = groups.iter().map(Counts::shown);
                let characters: String = shown.map(character).collect();
                format!("{:>13}  {characters}\n", grouped(*first))
            }
            Row::Unused { first, count } => {
                let to = grouped(first.saturating_add(*count).saturating_sub(1));
                format!("{:>13}  ... unused to {to}\n", grouped(*first))
            }
        });
    }
    text.push('\n');
    let counts = spots.all_counts();
    for pair in LEGEND.chunks(2) {
        let cells: Vec<String> = pair.iter().map(|spot| legend(&counts, *spot)).collect();
        text.push_str(&format!("  {}\n", cells.join("    ").trim_end()));
    }
    if rows.scale > 1 {
        let notable = NOTABLE.map(|kind| format!("{}, else ", character(kind)));
        text.push_str(&format!(
            "  A character shows {}the kind most of its frames are.\n",
            notable.concat()
        ));
    }
    for remark in remarks(spots) {
        text.push_str(&format!("  {remark}\n"));
    }
    text
}

fn legend(counts: &Counts, spot: Spot) -> String {
    let number = grouped(counts.of(spot));
    format!("{} {:<12} {number:>13}", character(spot), name(spot))
}
