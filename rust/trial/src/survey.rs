//! Counts of what happens in many runs, so that no question stays untried.

use fresh::Event;
use fresh::book::{LAST_YEAR_OF_EVERY_STATE, ROUND, Record, connected_or_disconnected};
use std::collections::BTreeSet;
use std::fmt;

#[derive(Default)]
pub struct Survey {
    pub files: u64,
    pub opened: u64,
    /// Opened books of months up to December 2018.
    pub old_months: u64,
    /// Of those, the files that print something else if only connected and
    /// disconnected points count.
    pub old_months_by_states: u64,
    /// By kind; place 0 is not used.
    pub accepted: [u64; 9],
    /// By question; refusals that end a run included.
    pub refused: [u64; 19],
    /// By kind of record; place 0 is not used.
    pub records: [u64; 4],
    pub negative_amounts: u64,
    pub negative_quantities: u64,
    /// A record that moves the amount alone, or the quantity alone.
    pub amount_alone: u64,
    pub quantity_alone: u64,
    /// Records after which the line stands at zero: it had records before.
    pub zero_balances: u64,
    /// Records with a balance whose amount is below zero.
    pub negative_balances: u64,
    /// Records with a negative amount and a positive balance, and the other way round.
    pub less_of_positive: u64,
    pub more_of_negative: u64,
    /// For each accepted round, the lines that had records before and have none in it.
    pub lines_without_record: u64,
    /// Records of a line that had none in the round before, but earlier ones.
    pub later_records: u64,
    /// Accepted rounds that wrote no record.
    pub empty_rounds: u64,
}

/// The lines of one run, by supplier and element.
#[derive(Default)]
struct Lines {
    with_records: BTreeSet<(u8, u8)>,
    /// Of those, the ones without a record in the last round.
    passed: BTreeSet<(u8, u8)>,
}

impl Survey {
    /// Runs a file and counts what happens.
    pub fn add_file(&mut self, bytes: &[u8]) {
        let events = fresh::run(bytes);
        self.add(&events);
        if is_of_old_month(&events) {
            self.old_months += 1;
            let narrower = fresh::run_counting(bytes, |_| connected_or_disconnected);
            self.old_months_by_states += u64::from(narrower != events);
        }
    }

    fn add(&mut self, events: &[Event]) {
        self.files += 1;
        let mut lines = Lines::default();
        for (place, event) in events.iter().enumerate() {
            match event {
                Event::Book { .. } => self.opened += 1,
                Event::Accepted { kind } => {
                    self.accepted[usize::from(*kind)] += 1;
                    if *kind == ROUND {
                        self.add_round(&records_from(&events[place + 1..]), &mut lines);
                    }
                }
                // Counted with its round.
                Event::Record(_) => {}
                Event::Refused { question, .. } => self.refused[usize::from(*question)] += 1,
            }
        }
    }

    fn add_round(&mut self, records: &[&Record], lines: &mut Lines) {
        self.empty_rounds += u64::from(records.is_empty());
        let mut passed = lines.with_records.clone();
        for record in records {
            self.add_record(record);
            let line = (record.supplier, record.element);
            self.later_records += u64::from(lines.passed.contains(&line));
            lines.with_records.insert(line);
            passed.remove(&line);
        }
        self.lines_without_record += passed.len() as u64;
        lines.passed = passed;
    }

    fn add_record(&mut self, record: &Record) {
        self.records[usize::from(record.kind)] += 1;
        self.negative_amounts += u64::from(record.amount < 0);
        self.negative_quantities += u64::from(record.quantity < 0);
        self.amount_alone += u64::from(record.quantity == 0);
        self.quantity_alone += u64::from(record.amount == 0);
        let balance = record.balance_amount;
        self.zero_balances += u64::from(record.balance_quantity == 0 && balance == 0);
        self.negative_balances += u64::from(balance < 0);
        self.less_of_positive += u64::from(record.amount < 0 && balance > 0);
        self.more_of_negative += u64::from(record.amount > 0 && balance < 0);
    }
}

fn is_of_old_month(events: &[Event]) -> bool {
    matches!(events.first(), Some(Event::Book { year, .. }) if *year <= LAST_YEAR_OF_EVERY_STATE)
}

/// The records at the front: those of a round, where it stands before them.
fn records_from(events: &[Event]) -> Vec<&Record> {
    let records = events.iter().map_while(|event| match event {
        Event::Record(record) => Some(record),
        _ => None,
    });
    records.collect()
}

impl fmt::Display for Survey {
    fn fmt(&self, f: &mut fmt::Formatter<'_>) -> fmt::Result {
        writeln!(f, "files {} opened {}", self.files, self.opened)?;
        writeln!(f, "months up to December 2018: {}", self.old_months)?;
        writeln!(
            f,
            "of those, where days in other states than connected and disconnected are seen: {}",
            self.old_months_by_states
        )?;
        for (question, count) in self.refused.iter().enumerate().skip(1) {
            writeln!(f, "refused by question {question}: {count}")?;
        }
        let kinds = [
            "link", "stop", "quantity", "holder", "state", "reading", "block", "round",
        ];
        for (name, count) in kinds.iter().zip(&self.accepted[1..]) {
            writeln!(f, "accepted {name}: {count}")?;
        }
        writeln!(f, "rounds without a record: {}", self.empty_rounds)?;
        for (kind, count) in self.records.iter().enumerate().skip(1) {
            writeln!(f, "records of kind {kind}: {count}")?;
        }
        writeln!(
            f,
            "records with a negative amount: {}",
            self.negative_amounts
        )?;
        writeln!(
            f,
            "records with a negative quantity: {}",
            self.negative_quantities
        )?;
        writeln!(
            f,
            "records that move the amount alone: {}",
            self.amount_alone
        )?;
        writeln!(
            f,
            "records that move the quantity alone: {}",
            self.quantity_alone
        )?;
        writeln!(f, "records with a balance of zero: {}", self.zero_balances)?;
        writeln!(
            f,
            "records with a balance below zero: {}",
            self.negative_balances
        )?;
        writeln!(
            f,
            "records with a negative amount and a balance above zero: {}",
            self.less_of_positive
        )?;
        writeln!(
            f,
            "records with a positive amount and a balance below zero: {}",
            self.more_of_negative
        )?;
        writeln!(
            f,
            "lines with earlier records and none in a round: {}",
            self.lines_without_record
        )?;
        writeln!(
            f,
            "records of lines with earlier ones and none in the round before: {}",
            self.later_records
        )
    }
}
