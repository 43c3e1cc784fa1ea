//! Figures and names as they are printed.

/// A number with commas between its thousands.
pub fn grouped(number: u64) -> String {
    let digits = number.to_string();
    let mut text = String::new();
    for (at, digit) in digits.chars().enumerate() {
        if at > 0 && (digits.len() - at).is_multiple_of(3) {
            text.push(',');
        }
        text.push(digit);
    }
    text
}

/// So many of something.
pub fn count(number: u64, one: &str, several: &str) -> String {
    if number == 1 {
        format!("1 {one}")
    } else {
        format!("{} {several}", grouped(number))
    }
}

/// Bytes in a unit that suits them.
pub fn amount(bytes: u64) -> String {
    let (mut unit, mut tenths) = ("bytes", u128::from(bytes) * 10);
    for larger in ["kB", "MB", "GB", "TB"] {
        if tenths < 10_000 {
            break;
        }
        (unit, tenths) = (larger, tenths / 1_000);
    }
    if unit == "bytes" {
        return format!("{bytes} bytes");
    }
    format!("{}.{} {unit}", tenths / 10, tenths % 10)
}

/// Seconds as hours, minutes and seconds.
pub fn duration(seconds: u64) -> String {
    let (minutes, seconds) = (seconds / 60, seconds % 60);
    let (hours, minutes) = (minutes / 60, minutes % 60);
    if hours > 0 {
        format!("{hours}:{minutes:02}:{seconds:02}")
    } else {
        format!("{minutes}:{seconds:02}")
    }
}

/// Seconds since 1970, or before it, as a date and time of day, UTC.
pub fn date(seconds: i64) -> String {
    let (days, second) = (seconds.div_euclid(86_400), seconds.rem_euclid(86_400));
    let (year, month, day) = civil(days);
    let (hour, minute) = (second / 3_600, second / 60 % 60);
    format!("{year:04}-{month:02}-{day:02} {hour:02}:{minute:02}")
}

/// The year, month and day so many days after 1970-01-01.
fn civil(days: i64) -> (i64, i64, i64) {
    // Counted from 0000-03-01, so that a leap day is the last of its year.
    let days = days + 719_468;
    let (era, day_of_era) = (days.div_euclid(146_097), days.rem_euclid(146_097));
    let year_of_era =
        (day_of_era - day_of_era / 1_460 + day_of_era / 36_524 - day_of_era / 146_096) / 365;
    let day_of_year = day_of_era - (365 * year_of_era + year_of_era / 4 - year_of_era / 100);
    let shifted = (5 * day_of_year + 2) / 153;
    let day = day_of_year - (153 * shifted + 2) / 5 + 1;
    let month = if shifted < 10 {
        shifted + 3
    } else {
        shifted - 9
    };
    let year = era * 400 + year_of_era + i64::from(month <= 2);
    (year, month, day)
}

/// A name from a tape, safe to print: control characters as `?`.
pub fn printable(name: &[u8]) -> String {
    String::from_utf8_lossy(name)
        .chars()
        .map(|letter| if letter.is_control() { '?' } else { letter })
        .collect()
}

#[cfg(test)]
mod tests {
    use super::*;

    #[test]
    fn figures() {
        assert_eq!(grouped(0), "0");
        assert_eq!(grouped(999), "999");
        assert_eq!(grouped(1_000), "1,000");
        assert_eq!(grouped(1_234_567), "1,234,567");
        assert_eq!(count(1, "job", "jobs"), "1 job");
        assert_eq!(count(2_000, "job", "jobs"), "2,000 jobs");
        assert_eq!(amount(999), "999 bytes");
        assert_eq!(amount(1_000), "1.0 kB");
        assert_eq!(amount(u64::MAX), "18446744.0 TB");
        assert_eq!(duration(59), "0:59");
        assert_eq!(duration(3_661), "1:01:01");
    }

    #[test]
    fn dates() {
        assert_eq!(date(0), "1970-01-01 00:00");
        assert_eq!(date(951_782_399), "2000-02-28 23:59");
        assert_eq!(date(951_782_400), "2000-02-29 00:00");
        assert_eq!(date(1_709_164_800), "2024-02-29 00:00");
        assert_eq!(date(4_102_444_799), "2099-12-31 23:59");
        assert_eq!(date(-1), "1969-12-31 23:59");
        assert_eq!(date(-2_203_891_200), "1900-03-01 00:00");
        assert_eq!(date(-2_203_891_201), "1900-02-28 23:59");
        assert_eq!(date(-62_167_219_201), "-001-12-31 23:59");
        for extreme in [i64::MIN, i64::MAX] {
            assert!(!date(extreme).is_empty());
        }
    }

    #[test]
    fn names() {
        assert_eq!(printable(b"a\nb\x1b[2J"), "a?b?[2J");
    }
}
