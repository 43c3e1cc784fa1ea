//! The faults that `--faults SEED` injects.

use adr_model::hostility::Hostility;
use adr_model::random::Random;

/// How a drive behaves: without a seed it does as it is told.
///
/// A seed picks faults that a recording gets over: write errors, reported
/// late and with frames buffered behind them, failed addresses at which the old
/// frame, the new one or nothing is read, busy replies, corrected reads.
pub fn hostility(seed: Option<u64>) -> Hostility {
    let Some(seed) = seed else {
        // Blank stretches are passed over 32 addresses at a time.
        return Hostility {
            blank: 1_000,
            ..Hostility::NONE
        };
    };
    let mut random = Random::new(seed ^ 0xFA17);
    let mut pick = |rates: &[u32]| random.one_of(rates).copied().unwrap_or(0);
    Hostility {
        progress: pick(&[200, 400, 700]),
        failure: pick(&[15, 30, 60]),
        reads_new: pick(&[0, 200, 400]),
        reads_nothing: pick(&[300, 600]),
        report: pick(&[300, 600, 1_000]),
        skip: pick(&[4, 10, 20]),
        busy: pick(&[0, 50, 200]),
        busy_located: pick(&[0, 500]),
        recovered: pick(&[0, 20, 200]),
        blank: pick(&[300, 1_000]),
        stopped: pick(&[0, 1]) == 1,
        ..Hostility::NONE
    }
}
