//! The calendar (02 No. 3): which dates are real, by the Gregorian rule.

/// Every fourth year, but of the hundreds only every fourth; so year 0 is one.
pub fn is_leap_year(year: i64) -> bool {
    year % 4 == 0 && (year % 100 != 0 || year % 400 == 0)
}

/// The last day of a month, 1 to 12.
pub fn month_end(year: i64, month: i64) -> i64 {
    match month {
        2 if is_leap_year(year) => 29,
        2 => 28,
        4 | 6 | 9 | 11 => 30,
        _ => 31,
    }
}
