//! Up to December 2018 a day counts in every state, from January 2019 on only where the
//! point is connected or disconnected: the same messages in both months, and lines worked
//! out by hand.

use settlement_file::{Counts, Element, Month, days_in_month, first_day};
use twin::{Book, message, open};

const DECEMBER_2018: Month = Month {
    year: 2018,
    month: 12,
};
const JANUARY_2019: Month = Month {
    year: 2019,
    month: 1,
};

const NEW: u64 = 1;
const CONNECTED: u64 = 2;
const DISCONNECTED: u64 = 3;
const CLOSED: u64 = 4;

const SUBSCRIPTION: u64 = 0;
const TARIFF: u64 = 1;
const FEE: u64 = 2;

/// The numbers of these messages.
const LINK: u64 = 1;
const STOP: u64 = 2;
const QUANTITY: u64 = 3;

/// A book with a supplier for each point and three elements of the grid company: in a
/// month of 31 days one krone a day, half a krone a kWh, and a fee of two kroner. Days are
/// counted from the first of the month, which is 0.
struct Trial {
    book: Book,
    first: u64,
}

impl Trial {
    fn open(month: Month) -> Trial {
        let counts = Counts {
            points: 6,
            suppliers: 6,
            elements: 3,
        };
        let elements = [1, 3, 2].map(|kind| Element {
            kind,
            owner: 1,
            marks: 0,
        });
        let mut prices = [0; 72];
        prices[0] = 31_000_000;
        prices[24] = 500_000;
        prices[48] = 2_000_000;
        Trial {
            book: open(month, counts, &elements, &prices).expect("a right opening"),
            first: first_day(month.year, month.month),
        }
    }

    fn send(&mut self, kind: u64, role: u64, about: [u64; 2], day: i64, told: [u64; 2]) -> u64 {
        let ([point, element], [hour, value]) = (about, told);
        let day = self.first.strict_add_signed(day);
        let fields = [kind, role, 0, self.first, point, element, day, hour, value];
        message(&mut self.book, &fields, &mut Vec::new())
    }

    /// A link, a quantity of 1 or a stop.
    fn about_link(&mut self, kind: u64, point: u64, element: u64, day: i64) -> u64 {
        self.send(kind, 1, [point, element], day, [0, u64::from(kind != STOP)])
    }

    fn link(&mut self, point: u64, element: u64, day: i64) {
        assert_eq!(self.about_link(LINK, point, element, day), 0);
    }

    fn state(&mut self, point: u64, day: i64, state: u64) {
        assert_eq!(self.send(5, 1, [point, 0], day, [0, state]), 0);
    }

    fn holder(&mut self, point: u64, day: i64, holder: u64) {
        assert_eq!(self.send(4, 2, [point, 0], day, [0, holder]), 0);
    }

    fn reading(&mut self, point: u64, day: i64, hour: u64, wh: u64) {
        assert_eq!(self.send(6, 1, [point, 0], day, [hour, wh]), 0);
    }

    /// Of subscription, tariff and fee. The amounts are those of the quantities.
    fn quantities(&self, supplier: u64) -> [i64; 3] {
        let units = [
            (SUBSCRIPTION, 1_000_000_000),
            (TARIFF, 500_000),
            (FEE, 2_000_000_000),
        ];
        units.map(|(element, unit)| {
            let line = self.book.line(supplier, element).expect("a line");
            assert_eq!(line.amount, i128::from(unit * line.quantity));
            line.quantity
        })
    }

    fn day_without_holder(&self, point: u64) -> Option<u64> {
        let day = self.book.day_without_holder(point).expect("a point");
        day.map(|day| u64::from(day) - self.first)
    }
}

/// The states of points 0 to 4, by first day. Point 4 does not exist before day 20.
const STATES: [&[(i64, u64)]; 5] = [
    &[(-10, NEW)],
    &[(-10, DISCONNECTED)],
    &[(-10, CONNECTED), (10, CLOSED)],
    &[(-10, NEW), (4, CONNECTED), (20, DISCONNECTED), (25, CLOSED)],
    &[(20, NEW), (25, CONNECTED)],
];

/// A book in which supplier p + 1 holds point p, with subscription and tariff linked and
/// 1,000 Wh on each day. All states but a point's first come before or after the rest.
fn with_states(month: Month, states_first: bool) -> Trial {
    let mut trial = Trial::open(month);
    for (point, states) in (0..).zip(STATES) {
        let (first, later) = states.split_at(if states_first { states.len() } else { 1 });
        for (day, state) in first {
            trial.state(point, *day, *state);
        }
        trial.holder(point, -30, point + 1);
        for element in [SUBSCRIPTION, TARIFF] {
            trial.link(point, element, first[0].0.max(-5));
        }
        for day in 0..31 {
            trial.reading(point, day, 12, 1000);
        }
        for (day, state) in later {
            trial.state(point, *day, *state);
        }
    }
    for (point, day) in [(0, 12), (1, 12), (3, 12), (4, 22)] {
        trial.link(point, FEE, day);
    }
    trial
}

#[test]
fn states_side_by_side() {
    for states_first in [true, false] {
        let [old, new] = [DECEMBER_2018, JANUARY_2019].map(|month| {
            let trial = with_states(month, states_first);
            [1, 2, 3, 4, 5].map(|supplier| trial.quantities(supplier))
        });
        let all = [31, 31_000, 1];
        // Point 2 is closed from day 10 on and goes on counting; point 4 counts from its
        // first state on.
        assert_eq!(old, [all, all, [31, 31_000, 0], all, [11, 11_000, 1]]);
        // Days 0 to 9 of point 2, 4 to 24 of point 3, 25 to 30 of point 4.
        assert_eq!(
            new,
            [[0; 3], all, [10, 10_000, 0], [21, 21_000, 1], [6, 6_000, 0]]
        );
    }
}

#[test]
fn later_messages_about_closed_days() {
    let [old, new] = [DECEMBER_2018, JANUARY_2019].map(|month| {
        let mut trial = with_states(month, true);
        trial.holder(2, 20, 6);
        trial.reading(2, 12, 12, 1500);
        trial.reading(2, 21, 0, 250);
        assert_eq!(trial.about_link(STOP, 2, SUBSCRIPTION, 9), 0);
        [3, 6].map(|supplier| trial.quantities(supplier))
    });
    assert_eq!(old, [[9, 20_500, 0], [0, 11_250, 0]]);
    assert_eq!(new, [[9, 10_000, 0], [0; 3]]);
}

#[test]
fn links_are_refused_alike() {
    for month in [DECEMBER_2018, JANUARY_2019] {
        let mut trial = with_states(month, true);
        let before = [1, 2, 3, 4, 5, 6].map(|supplier| trial.quantities(supplier));
        // Before the first state, and on a point without any.
        assert_eq!(trial.about_link(LINK, 4, FEE, 19), 11);
        assert_eq!(trial.about_link(LINK, 5, SUBSCRIPTION, 0), 11);
        for kind in [LINK, STOP, QUANTITY] {
            assert_eq!(trial.about_link(kind, 2, SUBSCRIPTION, 10), 12);
            assert_eq!(trial.about_link(kind, 3, FEE, 26), 12);
        }
        let after = [1, 2, 3, 4, 5, 6].map(|supplier| trial.quantities(supplier));
        assert_eq!(after, before);
    }
}

#[test]
fn days_without_a_holder() {
    let [old, new] = [DECEMBER_2018, JANUARY_2019].map(|month| {
        let mut trial = Trial::open(month);
        let mut days = vec![trial.day_without_holder(0)];
        trial.state(0, -10, NEW);
        days.push(trial.day_without_holder(0));
        trial.link(0, SUBSCRIPTION, -5);
        days.push(trial.day_without_holder(0));
        trial.state(0, 7, DISCONNECTED);
        days.push(trial.day_without_holder(0));
        trial.state(0, 7, CLOSED);
        days.push(trial.day_without_holder(0));
        trial.holder(0, -10, 1);
        trial.holder(0, 9, 0);
        days.push(trial.day_without_holder(0));
        // Linked from its first state on.
        trial.state(1, 20, NEW);
        trial.link(1, TARIFF, 20);
        days.push(trial.day_without_holder(1));
        days
    });
    let day = Some;
    assert_eq!(old, [None, None, day(0), day(0), day(0), day(9), day(20)]);
    assert_eq!(new, [None, None, None, day(7), None, None, None]);
}

#[test]
fn every_month() {
    for month in (2000..=2099).flat_map(|year| (1..=12).map(move |month| Month { year, month })) {
        let mut trial = Trial::open(month);
        // The point and its supplier have the state's number.
        for state in [NEW, CONNECTED, DISCONNECTED, CLOSED] {
            trial.state(state, 0, CONNECTED);
            trial.link(state, TARIFF, 0);
            trial.holder(state, 0, state);
            trial.reading(state, 0, 0, 1);
            trial.state(state, 0, state);
        }
        let days = days_in_month(month.year, month.month) as i64;
        trial.reading(NEW, days - 1, 23, 1);
        let [new, connected, disconnected, closed] =
            [NEW, CONNECTED, DISCONNECTED, CLOSED].map(|state| trial.quantities(state)[1]);
        assert_eq!([connected, disconnected], [1, 1]);
        let others = if month.year <= 2018 { [2, 1] } else { [0, 0] };
        assert_eq!([new, closed], others, "{month:?}");
    }
}
