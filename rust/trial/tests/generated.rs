//! Generated files run without a panic, try every question that a file can
//! reach and the states that count on both sides of 2019, add up to their
//! balances, and are the same on every machine.

use fresh::Event;
use fresh::book::{
    CLOSED, DISCONNECTED, LAST_YEAR_OF_EVERY_STATE, NEW, States, StatesByYear,
    connected_or_disconnected, counting_states, every_state,
};
use fresh::file::{Field, Reader};
use std::collections::BTreeMap;
use trial::generator::{generate, generate_large};
use trial::survey::Survey;

const QUESTIONS_OUT_OF_REACH: [usize; 3] = [3, 5, 18];

#[test]
fn every_question_is_tried() {
    let mut survey = Survey::default();
    for seed in 0..3_000 {
        survey.add_file(&generate(seed));
    }
    println!("{survey}");
    // A tenth of all files and more, and half of those show which states count.
    assert!(survey.old_months >= 300);
    assert!(2 * survey.old_months_by_states >= survey.old_months);
    for question in 1..=18 {
        let count = survey.refused[question];
        if QUESTIONS_OUT_OF_REACH.contains(&question) {
            assert_eq!(count, 0, "question {question}");
        } else {
            assert!(count >= 20, "question {question}: {count}");
        }
    }
    for kind in 1..=8 {
        assert!(survey.accepted[kind] >= 500, "kind {kind}");
    }
    for kind in 1..=3 {
        assert!(survey.records[kind] >= 500, "records of kind {kind}");
    }
    assert!(survey.negative_amounts >= 500);
    // The situations in which a balance could be mistaken for something else.
    assert!(survey.zero_balances >= 500);
    assert!(survey.negative_balances >= 500);
    assert!(survey.less_of_positive >= 500);
    assert!(survey.more_of_negative >= 500);
    assert!(survey.lines_without_record >= 500);
    assert!(survey.later_records >= 500);
}

fn every_state_but<const STATE: u8>(year: u16) -> States {
    if year <= LAST_YEAR_OF_EVERY_STATE {
        |state| state.is_some_and(|state| state != STATE)
    } else {
        connected_or_disconnected
    }
}

/// A program that chooses the states in one of these ways prints something else for
/// at least so many of a thousand files.
#[test]
fn wrong_states_are_seen() {
    let slips: [(&str, StatesByYear, u32); 7] = [
        ("two states always", |_| connected_or_disconnected, 100),
        ("every state always", |_| every_state, 100),
        (
            "2018 as a later year",
            |y| counting_states(y.saturating_add(1)),
            40,
        ),
        (
            "2019 as an earlier year",
            |y| counting_states(y.saturating_sub(1)),
            40,
        ),
        ("new left out", every_state_but::<NEW>, 50),
        ("disconnected left out", every_state_but::<DISCONNECTED>, 40),
        ("closed left out", every_state_but::<CLOSED>, 50),
    ];
    let files: Vec<Vec<u8>> = (0..1_000).map(generate).collect();
    for (slip, states_of, least) in slips {
        let differs = |file: &&Vec<u8>| fresh::run_counting(file, states_of) != fresh::run(file);
        let count = files.iter().filter(differs).count() as u32;
        println!("{slip}: {count}");
        assert!(count >= least, "{slip}: {count}");
    }
}

fn is_of_old_month(file: &[u8]) -> bool {
    let month = Reader::new(file).next_field();
    matches!(month, Some(Ok(Field::Month(m))) if m.year <= LAST_YEAR_OF_EVERY_STATE)
}

#[test]
fn a_tenth_of_the_large_files_are_of_old_months() {
    let old: Vec<u64> = (1..=120)
        .filter(|seed| is_of_old_month(&generate_large(*seed)))
        .collect();
    println!("{} of 120", old.len());
    assert!(old.len() >= 12);
    // Every third is four times as large: two of the others are enough.
    for seed in old.into_iter().filter(|seed| seed % 3 != 0).take(2) {
        let file = generate_large(seed);
        let narrower = fresh::run_counting(&file, |_| connected_or_disconnected);
        assert!(narrower != fresh::run(&file), "seed {seed}");
    }
}

/// Each printed balance is the sum of what was printed for its line so far, and its
/// amount has the one form that amounts have.
fn assert_balances(printed: &str, seed: u64) {
    let mut sums: BTreeMap<(i128, i128), (i128, i128)> = BTreeMap::new();
    for line in printed.lines() {
        let Some(numbers) = line.strip_prefix("record ") else {
            continue;
        };
        let numbers: Result<Vec<i128>, _> = numbers.split(' ').map(str::parse).collect();
        let [
            _kind,
            supplier,
            element,
            quantity,
            kroner,
            billionths,
            balance_quantity,
            balance_kroner,
            balance_billionths,
        ] = numbers.unwrap()[..]
        else {
            panic!("seed {seed}: {line}");
        };
        let (quantity_sum, amount_sum) = sums.entry((supplier, element)).or_default();
        *quantity_sum += quantity;
        *amount_sum += in_billionths(kroner, billionths);
        assert_eq!(
            (*quantity_sum, *amount_sum),
            (
                balance_quantity,
                in_billionths(balance_kroner, balance_billionths)
            ),
            "seed {seed}: {line}"
        );
        // Days, pieces and Wh are never below zero; an amount may be.
        assert!(balance_quantity >= 0, "seed {seed}: {line}");
    }
}

fn in_billionths(kroner: i128, billionths: i128) -> i128 {
    assert!((0..1_000_000_000).contains(&billionths), "{billionths}");
    kroner * 1_000_000_000 + billionths
}

#[test]
fn balances_are_the_sums_of_the_records() {
    for seed in 0..3_000 {
        assert_balances(&fresh::output(&generate(seed)), seed);
    }
    // Some hundred rounds over the same lines.
    for seed in 1..=2 {
        assert_balances(&fresh::output(&generate_large(seed)), seed);
    }
}

/// The lines of an output come in the order that document 01 gives them.
#[test]
fn runs_have_their_form() {
    for seed in 0..1_000 {
        let events = fresh::run(&generate(seed));
        assert!(!events.is_empty(), "seed {seed}");
        for (place, event) in events.iter().enumerate() {
            match event {
                Event::Book { .. } => assert_eq!(place, 0, "seed {seed}"),
                Event::Refused {
                    message: 0,
                    question,
                } => {
                    assert_eq!(place + 1, events.len(), "seed {seed}");
                    assert!((1..=4).contains(question), "seed {seed}");
                }
                Event::Refused { question, .. } => {
                    assert!((6..=17).contains(question), "seed {seed}");
                }
                Event::Record(record) => {
                    assert!(record.quantity != 0 || record.amount != 0, "seed {seed}");
                }
                Event::Accepted { .. } => {}
            }
        }
    }
}

/// Every prefix of a file is a file that runs.
#[test]
fn every_prefix_runs() {
    for seed in 0..20 {
        let bytes = generate(seed);
        for length in 0..bytes.len().min(400) {
            fresh::output(&bytes[..length]);
        }
    }
}

/// A sum over the bytes of the first seeds, so that a change of the generator
/// does not go unnoticed.
#[test]
fn the_same_seed_gives_the_same_bytes() {
    let mut sum: u64 = 0xcbf2_9ce4_8422_2325;
    for seed in 0..200 {
        for byte in generate(seed) {
            sum = (sum ^ u64::from(byte)).wrapping_mul(0x0000_0100_0000_01b3);
        }
    }
    assert_eq!(sum, 0x2dab_7900_43cf_8172);
}
