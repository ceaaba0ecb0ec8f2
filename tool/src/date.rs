//! A timestamp of a segment, in nanoseconds since 1970, as people read it.

/// The number, and the day and second that it stands for.
pub fn shown(nanoseconds: u64) -> String {
    let seconds = nanoseconds / 1_000_000_000;
    let (days, second) = (seconds / 86_400, seconds % 86_400);
    let (year, month, day) = date(days);
    let (hour, minute, second) = (second / 3_600, second / 60 % 60, second % 60);
    format!("{nanoseconds} ({year}-{month:02}-{day:02} {hour:02}:{minute:02}:{second:02} UTC)")
}

/// Year, month and day of a day since 1970. Counted in years from March on, a leap day is
/// the last of its year, and months have lengths of 153 days in five.
fn date(days: u64) -> (u64, u64, u64) {
    // 719,468 days from March of the year 0; 146,097 days are 400 years.
    let days = days + 719_468;
    let (era, day) = (days / 146_097, days % 146_097);
    let year = (day - day / 1_460 + day / 36_524 - day / 146_096) / 365;
    let day = day - (365 * year + year / 4 - year / 100);
    let month = (5 * day + 2) / 153;
    let day = day - (153 * month + 2) / 5 + 1;
    let (month, later) = if month < 10 { (month + 3, 0) } else { (month - 9, 1) };
    (era * 400 + year + later, month, day)
}

#[cfg(test)]
mod tests {
    use super::*;

    #[test]
    fn dates() {
        assert_eq!(shown(3_000), "3000 (1970-01-01 00:00:00 UTC)");
        assert_eq!(shown(951_782_400_000_000_000), "951782400000000000 (2000-02-29 00:00:00 UTC)");
        assert_eq!(shown(1_798_761_599_999_999_999), "1798761599999999999 (2026-12-31 23:59:59 UTC)");
        assert_eq!(shown(u64::MAX), "18446744073709551615 (2554-07-21 23:34:33 UTC)");
    }

    /// Every day follows the one before it.
    #[test]
    fn days_follow_one_another() {
        let every = |years: u64, year: u64| year.is_multiple_of(years);
        let leap = |year: u64| every(4, year) && (!every(100, year) || every(400, year));
        let (mut year, mut month, mut day) = (1970, 1, 1);
        for days in 0..220_000 {
            assert_eq!(date(days), (year, month, day));
            let length =
                [31, if leap(year) { 29 } else { 28 }, 31, 30, 31, 30, 31, 31, 30, 31, 30, 31][month as usize - 1];
            (year, month, day) = match (month, day) {
                (12, 31) => (year + 1, 1, 1),
                _ if day == length => (year, month + 1, 1),
                _ => (year, month, day + 1),
            };
        }
    }
}
