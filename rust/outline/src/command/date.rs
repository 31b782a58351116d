//! The date of a page: as asked, as SOURCE_DATE_EPOCH says, or the clock's, in UTC.

use std::time::{SystemTime, UNIX_EPOCH};

const DAY: u64 = 24 * 60 * 60;

/// The variable that makes pages the same whenever they are made: seconds since 1970.
const EPOCH: &str = "SOURCE_DATE_EPOCH";

/// The date as 2026-11-17, or why there is none.
pub fn date(asked: Option<&str>) -> Result<String, String> {
    if let Some(asked) = asked {
        let is_date = as_days(asked).is_some();
        let wanted = || format!("`--date` wants a day as 2026-11-17, found `{asked}`");
        return is_date.then(|| asked.to_string()).ok_or_else(wanted);
    }
    let seconds = match std::env::var(EPOCH) {
        Ok(text) => {
            text.parse().map_err(|_| format!("{EPOCH} is no number of seconds: `{text}`"))?
        }
        Err(_) => SystemTime::now().duration_since(UNIX_EPOCH).map_or(0, |past| past.as_secs()),
    };
    Ok(of_days(seconds / DAY))
}

/// The day with this number since 1970-01-01.
fn of_days(days: u64) -> String {
    let (mut year, mut left) = (1970, days);
    while left >= year_days(year) {
        left -= year_days(year);
        year += 1;
    }
    let mut month = 1;
    while left >= month_days(year, month) {
        left -= month_days(year, month);
        month += 1;
    }
    format!("{year:04}-{month:02}-{:02}", left + 1)
}

/// The number of a day that is written like one.
fn as_days(text: &str) -> Option<(u64, u64, u64)> {
    let mut parts = text.split('-');
    let mut part = |letters: usize| {
        let part = parts.next().filter(|part| part.len() == letters)?;
        part.bytes().all(|byte| byte.is_ascii_digit()).then(|| part.parse::<u64>().ok())?
    };
    let (year, month, day) = (part(4)?, part(2)?, part(2)?);
    let fits = (1..=12).contains(&month) && (1..=month_days(year, month)).contains(&day);
    (fits && parts.next().is_none()).then_some((year, month, day))
}

fn is_leap(year: u64) -> bool {
    year.is_multiple_of(4) && (!year.is_multiple_of(100) || year.is_multiple_of(400))
}

fn year_days(year: u64) -> u64 {
    if is_leap(year) {
        366
    } else {
        365
    }
}

fn month_days(year: u64, month: u64) -> u64 {
    match month {
        2 if is_leap(year) => 29,
        2 => 28,
        4 | 6 | 9 | 11 => 30,
        _ => 31,
    }
}

#[cfg(test)]
mod tests {
    use super::*;

    #[test]
    fn days_have_their_dates() {
        let days =
            [(0, "1970-01-01"), (59, "1970-03-01"), (789, "1972-02-29"), (11_016, "2000-02-29")];
        for (number, day) in days.into_iter().chain([(20_774, "2026-11-17")]) {
            assert_eq!(of_days(number), day);
        }
    }

    #[test]
    fn what_is_asked_for_is_a_day() {
        assert_eq!(date(Some("2024-02-29")), Ok("2024-02-29".into()));
        for bad in
            ["2023-02-29", "2024-13-01", "2024-1-01", "2024-01-00", "24-01-01", "2024-01-01-", "x"]
        {
            assert!(date(Some(bad)).is_err(), "{bad}");
        }
    }
}
