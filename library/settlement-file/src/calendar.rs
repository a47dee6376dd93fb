//! Days of document 01: day 0 is 1 January 2000.

/// One more than the last day, 31 December 2099.
pub const DAY_COUNT: u64 = 36_525;

/// How many days a month of the years 2000 to 2099 has.
pub fn days_in_month(year: u64, month: u64) -> u64 {
    match month {
        4 | 6 | 9 | 11 => 30,
        // 2000 is a leap year and 2100 is outside, so every fourth year is one.
        2 if year.is_multiple_of(4) => 29,
        2 => 28,
        _ => 31,
    }
}

/// The first day of a month of the years 2000 to 2099.
pub fn first_day(year: u64, month: u64) -> u64 {
    let years = (2000..year.min(2100)).flat_map(|y| (1..=12).map(move |m| (y, m)));
    let months = (1..month).map(|m| (year, m));
    years.chain(months).map(|(y, m)| days_in_month(y, m)).sum()
}

#[cfg(test)]
mod tests {
    use super::*;

    #[test]
    fn months_follow_each_other() {
        let mut day = 0;
        for year in 2000..2100 {
            for month in 1..=12 {
                assert_eq!(first_day(year, month), day);
                day += days_in_month(year, month);
            }
        }
        assert_eq!(day, DAY_COUNT);
        assert_eq!(first_day(2024, 3), 8826);
    }
}
