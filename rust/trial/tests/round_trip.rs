//! Any bytes have a text form that converts back to the same bytes.

use trial::generator::{Random, generate};
use trial::{bytes_to_text, text_to_bytes};

fn assert_round_trip(bytes: &[u8]) {
    let text = bytes_to_text(bytes);
    assert_eq!(text_to_bytes(&text).as_deref(), Ok(bytes), "{text}");
}

#[test]
fn generated_files() {
    for seed in 0..500 {
        assert_round_trip(&generate(seed));
    }
}

/// Bytes that are small now and then, so that tags and lengths come up.
fn random_bytes(random: &mut Random, length: u64) -> Vec<u8> {
    (0..length)
        .map(|_| {
            let limit = [2, 4, 24, 256][random.below(4) as usize];
            random.below(limit) as u8
        })
        .collect()
}

#[test]
fn random_bytes_of_every_length() {
    let mut random = Random::new(1);
    for length in 0..300 {
        for _ in 0..5 {
            assert_round_trip(&random_bytes(&mut random, length));
        }
    }
}

#[test]
fn fields_of_random_bytes() {
    // Whole fields with right lengths and any content.
    let mut random = Random::new(2);
    for _ in 0..5_000 {
        let (tag, length) = [(1, 6), (2, 11), (2, 195), (3, 19), (4, 7)][random.below(5) as usize];
        let value = random_bytes(&mut random, length);
        let mut bytes = vec![tag, 0, length as u8];
        bytes.extend(value);
        assert_round_trip(&bytes);
    }
}

#[test]
fn a_field_of_the_greatest_length() {
    let mut bytes = vec![9, 255, 255];
    bytes.resize(3 + 65_535, 7);
    assert_round_trip(&bytes);
    bytes.pop();
    assert_round_trip(&bytes);
}

#[test]
fn text_is_written_in_words() {
    let text = "month 2024 3 points 1 suppliers 2\n\
        element subscription grid vat pass-on 20000000\n\
        element tariff energinet tax hourly 5 22*-1 0\n\
        element 9 0 marks 16 -9223372036854775808\n\
        state point 0 day 8826 state connected from grid received 8826\n\
        holder point 0 day 8826 supplier 1 from energinet received 8826\n\
        link point 0 element 0 day 8826 quantity 2 from grid received 8826\n\
        stop point 0 element 0 day 8831 from grid received 8826\n\
        quantity point 0 element 0 day 8835 quantity 3 from supplier 2 received 8826\n\
        reading point 0 day 8840 hour 23 wh 1000 from grid received 8826\n\
        block point 0 from grid received 8826\n\
        unblock point 0 from grid received 8826\n\
        round from energinet received 8826\n\
        message kind 8 role 2 sender 0 received 8826 point 0 element 0 day 0 hour 1 value 0\n\
        field 4 01 ff\n\
        raw 03 00\n";
    let bytes = text_to_bytes(text).unwrap();
    assert_eq!(bytes_to_text(&bytes), text);
}

#[test]
fn slips_in_the_text_are_named() {
    let slips = [
        "month 2024 3 points 1",
        "month 70000 3 points 1 suppliers 1",
        "element tariff grid hourly 1",
        "element fee grid 1 2",
        "element fee grid",
        "link point 0 element 0 day 1 from grid received 0",
        "link point 0 element 0 day 1 quantity 1 received 0",
        "link point 0 point 0 element 0 day 1 quantity 1 from grid received 0",
        "round from nobody received 0",
        "round from energinet received",
        "raw 0",
        "raw 0g",
        "cut 1",
        "put 0 01",
        "remove 0 1",
        "frobnicate",
    ];
    for slip in slips {
        let answer = text_to_bytes(slip);
        assert!(answer.is_err(), "{slip} gave {answer:?}");
    }
}
