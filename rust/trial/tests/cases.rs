//! Every stored case through fresh settlement.

use trial::cases::{case_directory, read_cases};
use trial::{bytes_to_text, text_to_bytes};

#[test]
fn every_case_prints_what_it_must() {
    let cases = read_cases(&case_directory()).unwrap();
    assert!(!cases.is_empty());
    let mut differing = Vec::new();
    for case in &cases {
        let printed = fresh::output(&case.bytes);
        if printed != case.expected {
            differing.push(format!(
                "{}\nexpected:\n{}printed:\n{printed}",
                case.name, case.expected
            ));
        }
    }
    println!("{} cases", cases.len());
    assert!(differing.is_empty(), "{}", differing.join("\n"));
}

#[test]
fn every_case_survives_the_round_trip() {
    for case in read_cases(&case_directory()).unwrap() {
        let text = bytes_to_text(&case.bytes);
        assert_eq!(text_to_bytes(&text), Ok(case.bytes), "{}", case.name);
    }
}
