//! A map as a picture.

use std::fmt::Write;

use super::counts::Counts;
use super::layout::{Row, Rows, WIDTH};
use super::spots::{Spot, Spots};
use super::words::{heading, name, remarks, LEGEND};
use crate::text::grouped;

const CELL: usize = 12;
const GAP: usize = 2;
/// The side of a square.
const SIDE: usize = CELL - GAP;
const ROW: usize = 16;
const LEFT: usize = 96;
const TOP: usize = 64;
const RIGHT: usize = 24;
const MARGIN: usize = 24;
const LEGEND_ROW: usize = 22;
const LEGEND_COLUMNS: usize = 5;
const LEGEND_COLUMN: usize = 172;

const INK: &str = "#1f2328";
const PAPER: &str = "#ffffff";
const WARNING: &str = "#d1242f";

fn colour(spot: Spot) -> &'static str {
    match spot {
        Spot::Damaged => "#bf0084",
        Spot::Bad => WARNING,
        Spot::End => INK,
        Spot::Filemark => "#e3a008",
        Spot::Header => "#8250df",
        Spot::Block => "#2da44e",
        Spot::Stale => "#a3b8cc",
        Spot::DefectMap => "#57606a",
        Spot::Unused => "#eceff2",
    }
}

/// Draws a map.
pub fn draw(spots: &Spots, rows: &Rows) -> String {
    let columns = usize::try_from(WIDTH).unwrap_or(64);
    let width = LEFT + columns * CELL + RIGHT;
    let legend_top = TOP + rows.rows.len() * ROW + 28;
    let notes = notes(spots, rows);
    let notes_top = legend_top + LEGEND.len().div_ceil(LEGEND_COLUMNS) * LEGEND_ROW + 14;
    let height = notes_top + notes.len() * ROW + 10;
    let title = escaped(&heading(spots, rows).replace("a character", "a square"));
    let mut picture = format!(
        "<svg xmlns=\"http://www.w3.org/2000/svg\" role=\"img\" aria-label=\"{title}\" \
         viewBox=\"0 0 {width} {height}\" width=\"{width}\" height=\"{height}\" \
         font-family=\"system-ui, sans-serif\" font-size=\"12\">\n\
         <title>{title}</title>\n\
         <rect width=\"{width}\" height=\"{height}\" rx=\"12\" fill=\"{PAPER}\" stroke=\"#d0d7de\"/>\n\
         <text x=\"{MARGIN}\" y=\"36\" font-size=\"16\" font-weight=\"600\" fill=\"{INK}\">{title}</text>\n"
    );
    for (turn, row) in rows.rows.iter().enumerate() {
        draw_row(&mut picture, row, TOP + turn * ROW);
    }
    draw_legend(&mut picture, &spots.all_counts(), legend_top);
    for (turn, (note, colour)) in notes.iter().enumerate() {
        let _ = writeln!(
            picture,
            "<text x=\"{MARGIN}\" y=\"{}\" fill=\"{colour}\">{}</text>",
            notes_top + turn * ROW,
            escaped(note)
        );
    }
    picture.push_str("</svg>\n");
    picture
}

/// What stands below the legend, and in which colours.
fn notes(spots: &Spots, rows: &Rows) -> Vec<(String, &'static str)> {
    let scaled = (rows.scale > 1).then(|| {
        let note = format!(
            "A square stands for {} frames and is divided in proportion to what they are, \
             the worst first.",
            grouped(rows.scale)
        );
        (note, INK)
    });
    let remarks = remarks(spots).into_iter().map(|remark| (remark, WARNING));
    scaled.into_iter().chain(remarks).collect()
}

fn draw_row(picture: &mut String, row: &Row, top: usize) {
    let (first, baseline) = match row {
        Row::Groups { first, .. } | Row::Unused { first, .. } => (*first, top + SIDE),
    };
    let _ = writeln!(
        picture,
        "<text x=\"{}\" y=\"{baseline}\" text-anchor=\"end\" fill=\"#57606a\" \
         font-family=\"ui-monospace, monospace\">{}</text>",
        LEFT - 10,
        grouped(first)
    );
    match row {
        Row::Groups { groups, .. } => {
            for (column, group) in groups.iter().enumerate() {
                square(picture, LEFT + column * CELL, top, group);
            }
        }
        Row::Unused { first, count } => {
            let to = grouped(first.saturating_add(*count).saturating_sub(1));
            let _ = writeln!(
                picture,
                "<text x=\"{LEFT}\" y=\"{baseline}\" fill=\"#8c959f\">unused to {to}</text>"
            );
        }
    }
}

/// Draws a square, divided where a group is of several kinds.
fn square(picture: &mut String, left: usize, top: usize, group: &Counts) {
    let parts = parts(group);
    let whole = parts.len() == 1;
    let rounded = if whole { " rx=\"2\"" } else { "" };
    let mut at = left;
    for (kind, width) in &parts {
        let _ = writeln!(
            picture,
            "<rect x=\"{at}\" y=\"{top}\" width=\"{width}\" height=\"{SIDE}\"{rounded} fill=\"{}\"/>",
            colour(*kind)
        );
        at += width;
    }
    // What is wrong is not told by its colour alone.
    let worst = parts.first().map_or(Spot::Unused, |(kind, _)| *kind);
    let mark = match worst {
        Spot::Damaged => format!("M{} {}h6", left + 2, top + 5),
        Spot::Bad => format!("M{} {}l4 4m0-4l-4 4", left + 3, top + 3),
        _ => return,
    };
    let ink = if whole { PAPER } else { INK };
    let _ = writeln!(
        picture,
        "<path d=\"{mark}\" stroke=\"{ink}\" stroke-width=\"1.5\"/>"
    );
}

/// The kinds in a group and their widths, in proportion as far as every one
/// of them is seen.
fn parts(group: &Counts) -> Vec<(Spot, usize)> {
    let mut parts: Vec<(Spot, u64, u64)> = group
        .present()
        .map(|(kind, number)| (kind, number, 1))
        .collect();
    let side = u64::try_from(SIDE).unwrap_or(0);
    let all = group.all();
    for _ in parts.len()..SIDE {
        // The one furthest below its share grows.
        let lacks = |(_, number, width): &(Spot, u64, u64)| {
            i128::from(number * side) - i128::from(width * all)
        };
        if let Some((_, _, width)) = parts.iter_mut().max_by_key(|part| lacks(part)) {
            *width += 1;
        }
    }
    let width = |width| usize::try_from(width).unwrap_or(SIDE);
    let parts = parts.into_iter();
    parts
        .map(|(kind, _, pixels)| (kind, width(pixels)))
        .collect()
}

fn draw_legend(picture: &mut String, counts: &Counts, top: usize) {
    for (turn, kind) in LEGEND.into_iter().enumerate() {
        let left = MARGIN + turn % LEGEND_COLUMNS * LEGEND_COLUMN;
        let top = top + turn / LEGEND_COLUMNS * LEGEND_ROW;
        square(picture, left, top, &[kind].into_iter().collect());
        let _ = writeln!(
            picture,
            "<text x=\"{}\" y=\"{}\" fill=\"{INK}\">{} <tspan fill=\"#57606a\">{}</tspan></text>",
            left + CELL + 6,
            top + SIDE,
            name(kind),
            grouped(counts.of(kind))
        );
    }
}

fn escaped(text: &str) -> String {
    text.replace('&', "&amp;")
        .replace('<', "&lt;")
        .replace('>', "&gt;")
        .replace('"', "&quot;")
}

#[cfg(test)]
mod tests {
    use super::*;

    #[test]
    fn squares_are_divided_in_proportion() {
        let divided = |counts: &[(Spot, u64)]| {
            let mut group = Counts::default();
            for (kind, number) in counts {
                group.add(*kind, *number);
            }
            let parts = parts(&group);
            assert_eq!(parts.iter().map(|(_, width)| width).sum::<usize>(), SIDE);
            parts
        };
        use Spot::{Bad, Block, Damaged, Filemark, Stale};
        assert_eq!(divided(&[(Block, 7)]), [(Block, 10)]);
        let nine = [(Filemark, 1), (Block, 9)];
        assert_eq!(divided(&nine), nine.map(|(kind, n)| (kind, n as usize)));
        assert_eq!(divided(&[(Block, 1), (Bad, 1)]), [(Bad, 5), (Block, 5)]);
        assert_eq!(
            divided(&[(Block, 350), (Damaged, 1), (Stale, 149)]),
            [(Damaged, 1), (Block, 7), (Stale, 2)]
        );
        let every = super::super::spots::KINDS.map(|kind| (kind, 1_000));
        assert_eq!(divided(&every).len(), every.len());
    }
}
