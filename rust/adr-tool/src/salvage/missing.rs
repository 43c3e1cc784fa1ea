//! What is missing of a job, in words.

use std::fmt::{self, Display};

use crate::size::bytes_in;
use crate::text::grouped;

/// Stretches that are named one by one.
const NAMED: usize = 8;

/// What is missing of a job.
#[derive(Clone, Debug, PartialEq, Eq)]
pub struct Missing {
    /// The missing elements between those found, from one number to another.
    stretches: Vec<(u64, u64)>,
    /// The first and the last block found.
    found: Option<(u64, u64)>,
    /// The numbers of the job's first and last block, where they are known.
    start: Option<u64>,
    end: Option<u64>,
    /// The bytes of the job, if they are known.
    length: Option<u64>,
}

impl Missing {
    /// What is missing of a job of this start, end and length, beside the
    /// blocks of these numbers, which rise. None if nothing is.
    pub fn beside(
        numbers: impl Iterator<Item = u64>,
        start: Option<u64>,
        end: Option<u64>,
        length: Option<u64>,
    ) -> Option<Missing> {
        let mut missing = Missing {
            stretches: Vec::new(),
            found: None,
            start,
            end,
            length,
        };
        let mut next = start;
        for number in numbers {
            missing.note(next, number);
            let first = missing.found.map_or(number, |(first, _)| first);
            missing.found = Some((first, number));
            next = number.checked_add(1);
        }
        if let Some(end) = end {
            missing.note(next, end.saturating_add(1));
        }
        let whole = missing.stretches.is_empty() && start.is_some() && end.is_some();
        (!whole).then_some(missing)
    }

    /// Notes the numbers from one to the one before another.
    fn note(&mut self, from: Option<u64>, to: u64) {
        if let Some(from) = from.filter(|from| *from < to) {
            self.stretches.push((from, to.saturating_sub(1)));
        }
    }

    /// The bytes that are missing: exactly, or at most.
    fn bytes(&self) -> (u64, Option<u64>) {
        let (Some(start), Some(length)) = (self.start, self.length) else {
            return (bytes_in(self.data_blocks()), None);
        };
        let bytes_before = |number: u64| {
            let blocks = number.saturating_sub(start).saturating_sub(1);
            bytes_in(blocks).min(length)
        };
        let in_stretch = |(from, to): &(u64, u64)| {
            bytes_before(to.saturating_add(1)).saturating_sub(bytes_before(*from))
        };
        let missing = self.stretches.iter().map(in_stretch).sum();
        (missing, Some(length))
    }

    /// The missing elements but the job's first and last block.
    fn data_blocks(&self) -> u64 {
        let has = |number: Option<u64>| {
            let within = |(from, to): &(u64, u64)| (*from..=*to).contains(&number.unwrap_or(0));
            number.is_some() && self.stretches.iter().any(within)
        };
        let ends = u64::from(has(self.start)) + u64::from(has(self.end));
        let all = self.stretches.iter();
        let all = all.map(|(from, to)| to.saturating_sub(*from).saturating_add(1));
        all.sum::<u64>().saturating_sub(ends)
    }
}

impl Display for Missing {
    fn fmt(&self, formatter: &mut fmt::Formatter<'_>) -> fmt::Result {
        let mut parts = Vec::new();
        if !self.stretches.is_empty() {
            let bytes = match self.bytes() {
                (bytes, Some(length)) if bytes > 0 => {
                    format!("{} of its {} bytes", grouped(bytes), grouped(length))
                }
                (_, Some(length)) => format!("none of its {} bytes", grouped(length)),
                (bytes, None) => format!("at most {} bytes", grouped(bytes)),
            };
            parts.push(format!("{} ({bytes})", are_missing(&self.stretches)));
        }
        let first = self.found.map(|(first, _)| first);
        if let (None, Some(first)) = (self.start, first.or(self.end)) {
            parts.push(format!(
                "elements before {first} are missing, how many is not known"
            ));
        }
        if let (None, Some((_, last))) = (self.end, self.found) {
            parts.push(format!(
                "elements behind {last} are missing, how many is not known"
            ));
        }
        formatter.write_str(&parts.join("; "))
    }
}

/// That the elements of these stretches are missing.
pub fn are_missing(stretches: &[(u64, u64)]) -> String {
    let named: Vec<String> = stretches
        .iter()
        .take(NAMED)
        .map(|(from, to)| match from == to {
            true => from.to_string(),
            false => format!("{from} to {to}"),
        })
        .collect();
    let rest = match stretches.len().saturating_sub(named.len()) {
        0 => "",
        _ => " and others",
    };
    let named = named.join(", ");
    match stretches {
        [(from, to)] if from == to => format!("element {named} is missing"),
        _ => format!("elements {named}{rest} are missing"),
    }
}

#[cfg(test)]
mod tests {
    use super::*;

    /// What is missing of a job from element 4 to element 9, of five blocks
    /// less one byte less two, beside some of its blocks.
    fn of(numbers: &[u64], start: Option<u64>, end: Option<u64>, length: Option<u64>) -> String {
        let missing = Missing::beside(numbers.iter().copied(), start, end, length);
        missing.map_or(String::new(), |missing| missing.to_string())
    }

    #[test]
    fn words() {
        let length = Some(bytes_in(4) - 1);
        let whole = [4, 5, 6, 7, 8, 9];
        assert_eq!(of(&whole, Some(4), Some(9), length), "");
        assert_eq!(of(&[], Some(4), Some(3), None), "");
        for (numbers, told) in [
            (
                &[4, 5, 7, 8, 9][..],
                "element 6 is missing (32,768 of its 131,071 bytes)",
            ),
            (
                &[4, 6, 9],
                "elements 5, 7 to 8 are missing (98,303 of its 131,071 bytes)",
            ),
            (
                &[5, 6, 7, 8],
                "elements 4, 9 are missing (none of its 131,071 bytes)",
            ),
            (
                &[],
                "elements 4 to 9 are missing (131,071 of its 131,071 bytes)",
            ),
        ] {
            assert_eq!(of(numbers, Some(4), Some(9), length), told);
        }
        assert_eq!(
            of(&[5, 7], Some(4), Some(9), None),
            "elements 4, 6, 8 to 9 are missing (at most 65,536 bytes)"
        );
        assert_eq!(
            of(&[5, 7], None, Some(7), length),
            "element 6 is missing (at most 32,768 bytes); \
             elements before 5 are missing, how many is not known"
        );
        assert_eq!(
            of(&[4, 5], Some(4), None, length),
            "elements behind 5 are missing, how many is not known"
        );
        let every_other: Vec<u64> = (0..30).map(|n| 2 * n).collect();
        let many = of(&every_other, Some(0), Some(58), None);
        assert!(many.starts_with("elements 1, 3, 5, 7, 9, 11, 13, 15 and others are missing"));
    }
}
