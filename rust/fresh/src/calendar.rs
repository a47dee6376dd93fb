//! Days of document 01: day 0 is 1 January 2000, day 36,524 is 31 December 2099.

/// One more than the last day.
pub const DAY_COUNT: u32 = 36_525;
pub const HOURS: u8 = 24;

fn is_leap(year: u32) -> bool {
    (year.is_multiple_of(4) && !year.is_multiple_of(100)) || year.is_multiple_of(400)
}

pub fn days_in_month(year: u32, month: u32) -> u32 {
    match month {
        4 | 6 | 9 | 11 => 30,
        2 if is_leap(year) => 29,
        2 => 28,
        _ => 31,
    }
}

/// First day of a month of the years 2000 to 2099, counted month by month.
pub fn first_day_of_month(year: u32, month: u32) -> u32 {
    let whole_years: u32 = (2000..year)
        .map(|y| (1..=12).map(|m| days_in_month(y, m)).sum::<u32>())
        .sum();
    let months: u32 = (1..month).map(|m| days_in_month(year, m)).sum();
    whole_years + months
}

#[cfg(test)]
mod tests {
    use super::*;

    #[test]
    fn days_of_document_01() {
        assert_eq!(first_day_of_month(2000, 1), 0);
        assert_eq!(first_day_of_month(2024, 2), 8797);
        assert_eq!(first_day_of_month(2024, 3), 8826);
        assert_eq!(first_day_of_month(2024, 4), 8857);
        assert_eq!(first_day_of_month(2099, 12) + 31, DAY_COUNT);
    }
}
