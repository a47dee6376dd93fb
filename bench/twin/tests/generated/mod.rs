//! Elements and messages from a seed, and the months that they are tried in.

use settlement_file::{Counts, Element, Month, first_day};

const fn month(year: u64, month: u64) -> Month {
    Month { year, month }
}

/// The last month in which every state counts and the first one after it, others of
/// both rules, and the first and the last month of all.
pub const MONTHS: [Month; 8] = [
    month(2018, 12),
    month(2019, 1),
    month(2004, 2),
    month(2024, 3),
    month(2000, 1),
    month(2099, 12),
    month(2018, 1),
    month(2019, 12),
];

pub fn number(state: &mut u64) -> u64 {
    *state = state.wrapping_add(0x9e37_79b9_7f4a_7c15);
    let mut z = *state;
    z = (z ^ (z >> 30)).wrapping_mul(0xbf58_476d_1ce4_e5b9);
    z = (z ^ (z >> 27)).wrapping_mul(0x94d0_49bb_1331_11eb);
    z ^ (z >> 31)
}

/// Elements at prices of which one Wh or one day is often half an øre, a quarter of that,
/// or nearly half.
pub fn cheap_elements(count: u64, state: &mut u64) -> (Vec<Element>, Vec<i64>) {
    let mut prices = Vec::new();
    let elements = (0..count).map(|_| {
        let [kind, owner] = [3, 2].map(|limit| 1 + (number(state) % limit) as u8);
        let any = number(state) as i64 % 9_999;
        let price = [5_000, -5_000, 1_250, any][number(state) as usize % 4];
        let is_hourly = kind == 3 && number(state).is_multiple_of(2);
        prices.extend((0..24).map(|hour| match kind {
            _ if hour > 0 && !is_hourly => 0,
            1 => 31 * price,
            2 => price,
            _ => 1_000 * price + number(state) as i64 % 2,
        }));
        let marks = if is_hourly { 8 } else { 0 };
        Element { kind, owner, marks }
    });
    (elements.collect(), prices)
}

/// Every second point is connected before the month; the others do not exist yet.
pub fn first_states(month: Month, counts: Counts) -> impl Iterator<Item = [u64; 9]> {
    let first = first_day(month.year, month.month);
    let day = first.saturating_sub(26);
    (0..counts.points)
        .step_by(2)
        .map(move |point| [5, 1, 0, first + 14, point, 0, day, 0, 2])
}

/// A message of any kind, mostly accepted, about a day of the month or near it. A point
/// that does not exist before the month does not in its first days either.
pub fn random_message(
    month: Month,
    counts: Counts,
    elements: &[Element],
    state: &mut u64,
) -> [u64; 9] {
    let mut below = |limit| number(state) % limit;
    let first = first_day(month.year, month.month);
    let (point, element) = (below(counts.points), below(counts.elements));
    let (day, hour) = ((first + below(45)).saturating_sub(6), below(24));
    let state_day = if point % 2 == 0 {
        day
    } else {
        day.max(first + 8)
    };
    let Element { kind, owner, .. } = elements[element as usize];
    let (owner, quantity) = (owner.into(), if kind == 3 { 1 } else { 1 + below(3) });
    let most_wh = if below(8) == 0 { 9_999_999 } else { 3 };
    let told = |kind, role, element, day, hour, value| {
        [kind, role, 0, first + 14, point, element, day, hour, value]
    };
    match 1 + below(8) {
        kind @ (1 | 3) => told(kind, owner, element, day, 0, quantity),
        2 => told(2, owner, element, day, 0, 0),
        4 => told(4, 2, 0, day, 0, below(counts.suppliers + 1)),
        5 => told(5, 1, 0, state_day, 0, 1 + below(4)),
        6 => told(6, 1, 0, day, hour, below(most_wh + 1)),
        7 => told(7, 1, 0, 0, 0, below(2)),
        _ => [8, 2, 0, first + 14, 0, 0, 0, 0, 0],
    }
}
