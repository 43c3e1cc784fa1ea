//! Medians over rounds.

use std::collections::VecDeque;
use std::time::Instant;

/// Nanoseconds that one of `count` turns takes.
pub fn time(count: u32, mut turn: impl FnMut(u32)) -> f64 {
    let start = Instant::now();
    for number in 0..count {
        turn(number);
    }
    start.elapsed().as_secs_f64() * 1e9 / f64::from(count)
}

pub fn median(mut values: Vec<f64>) -> f64 {
    values.sort_by(f64::total_cmp);
    values.get(values.len() / 2).copied().unwrap_or(f64::NAN)
}

/// The median of the rounds' ratios.
pub fn ratio(times: &[f64], copies: &[f64]) -> f64 {
    let ratios = times.iter().zip(copies).map(|(time, copy)| time / copy);
    median(ratios.collect())
}

/// Something that is measured over buffers `B`.
pub struct Subject<'a, B> {
    name: &'static str,
    /// The nanoseconds of one turn, of many that are timed at once.
    time: Box<dyn FnMut(&mut B) -> f64 + 'a>,
}

/// A subject of which so many turns are timed at once.
pub fn subject<'a, B>(
    name: &'static str,
    count: u32,
    mut turn: impl FnMut(&mut B, u32) + 'a,
) -> Subject<'a, B> {
    Subject {
        name,
        time: Box::new(move |lent| time(count, |number| turn(lent, number))),
    }
}

/// A subject beside a copy.
pub struct Row {
    pub name: &'static str,
    pub time: f64,
    pub copy: f64,
    /// The median of the rounds' ratios.
    pub ratio: f64,
}

/// How often subjects and copy take turns in a round.
const TURNS: u32 = 10;
/// Buffers of earlier rounds that are kept.
const KEPT: usize = 16;

/// Measures subjects and a copy by turns over the same buffers. Each round has
/// buffers of its own, since their places in memory alter all of them.
pub fn rows<'a, B>(
    rounds: u32,
    mut buffers: impl FnMut() -> B,
    mut subjects: Vec<Subject<'a, B>>,
    copy: Subject<'a, B>,
) -> Vec<Row> {
    subjects.push(copy);
    let mut times = vec![Vec::new(); subjects.len()];
    // Some are kept, so that the next are elsewhere.
    let mut used = VecDeque::new();
    for _ in 0..rounds {
        let mut lent = buffers();
        for (times, time) in times.iter_mut().zip(round(&mut subjects, &mut lent)) {
            times.push(time);
        }
        used.push_back(lent);
        if used.len() > KEPT {
            used.pop_front();
        }
    }
    let copies = times.pop().unwrap_or_default();
    let measured = subjects.iter().zip(times).map(|(subject, times)| Row {
        name: subject.name,
        ratio: ratio(&times, &copies),
        time: median(times),
        copy: median(copies.clone()),
    });
    measured.collect()
}

/// The mean of each subject's turns in one round; the first turn is not
/// counted.
fn round<B>(subjects: &mut [Subject<B>], lent: &mut B) -> Vec<f64> {
    let mut sums = vec![0.0; subjects.len()];
    for turn in 0..=TURNS {
        for (sum, subject) in sums.iter_mut().zip(subjects.iter_mut()) {
            let time = (subject.time)(lent);
            if turn > 0 {
                *sum += time / f64::from(TURNS);
            }
        }
    }
    sums
}
