//! Writes a supplier's ledger file, sixteen bytes: what it owes for the grid company's
//! elements and then what it owes for Energinet's, each as a packed amount. The month is
//! a settlement file on standard input, as for `library-settle`; a message that is
//! refused changes nothing, and `settle` prints which are.
//!
//! From the repository's folder, for supplier 1 of the example month:
//!
//! ```text
//! library/build
//! cargo run --offline --manifest-path rust/Cargo.toml --bin text-to-bytes < examples/march.txt > march
//! cargo run --offline --manifest-path library/Cargo.toml --example ledger-file -- 1 < march > ledger
//! cargo run --offline --manifest-path library/Cargo.toml --example ledger-file -- --kroner 1 < march
//! ```
//!
//! The last prints both amounts as text: `grid company 19.85` and `Energinet 0.00`. The
//! status is 0, or 1 with a sentence on standard error where nothing was written, or 2
//! where the arguments are others.

use settlement_book::{Book, read_packed};
use std::io::{Read, Write};
use std::process::ExitCode;

/// As many as a book can have.
const MOST_POINTS: u64 = 256;

/// The owners of elements, in the order of the ledger file.
const OWNERS: [(u64, &str); 2] = [(1, "grid company"), (2, "Energinet")];

/// What is written for a supplier of a settlement file, as bytes or as text, or what is
/// wrong.
fn ledger(file: &[u8], supplier: u64, is_text: bool) -> Result<Vec<u8>, String> {
    let book: Book = settlement_file::settled(file, MOST_POINTS)
        .map_err(|question| format!("the file is refused by question {question}"))?;
    let mut ledger = Vec::new();
    for (owner, name) in OWNERS {
        let packed = book.packed_sum(supplier, owner).map_err(|refusal| {
            let last = book.counts().suppliers;
            format!("supplier {supplier} is {refusal}; the book has suppliers 1 to {last}")
        })?;
        // Nothing goes to the ledger that it could not read.
        let ore = read_packed(&packed).map_err(|refusal| format!("{packed:02x?} is {refusal}"))?;
        if is_text {
            ledger.extend(format!("{name} {}\n", in_kroner(ore)).bytes());
        } else {
            ledger.extend(packed);
        }
    }
    Ok(ledger)
}

fn in_kroner(ore: i64) -> String {
    let sign = if ore < 0 { "-" } else { "" };
    let size = ore.abs();
    format!("{sign}{}.{:02}", size / 100, size % 100)
}

/// The supplier, and whether text is asked for.
fn asked(arguments: &[String]) -> Option<(u64, bool)> {
    match arguments {
        [supplier] => Some((supplier.parse().ok()?, false)),
        [option, supplier] if option == "--kroner" => Some((supplier.parse().ok()?, true)),
        _ => None,
    }
}

fn main() -> std::io::Result<ExitCode> {
    let arguments: Vec<String> = std::env::args().skip(1).collect();
    let Some((supplier, is_text)) = asked(&arguments) else {
        eprintln!("ledger-file [--kroner] SUPPLIER < FILE");
        return Ok(ExitCode::from(2));
    };
    let mut file = Vec::new();
    std::io::stdin().read_to_end(&mut file)?;
    match ledger(&file, supplier, is_text) {
        Ok(ledger) => {
            let mut output = std::io::stdout();
            output.write_all(&ledger)?;
            // Bytes without a line end would wait for the end, where no error is told.
            output.flush()?;
            Ok(ExitCode::SUCCESS)
        }
        Err(sentence) => {
            eprintln!("ledger-file: {sentence}");
            Ok(ExitCode::FAILURE)
        }
    }
}

#[cfg(test)]
mod tests {
    use super::*;

    /// The example month: document 01's listing.
    fn march() -> Vec<u8> {
        trial::text_to_bytes(include_str!("../../examples/march.txt")).unwrap()
    }

    /// A day of the subscription is 20 kroner by 31, which is 0.645161, and it is linked
    /// twice over. Supplier 1 has 15 days of it and 1,000 Wh at half a krone a kWh:
    /// 30 × 0.645161 + 0.5 = 19.85483. Supplier 2 has 16 days and 2,500 Wh:
    /// 32 × 0.645161 + 1.25 = 21.895152. Energinet has no element there.
    #[test]
    fn the_ledger_files_of_march() {
        let energinet = [0, 0, 0, 0, 0, 0, 0, 0x0c];
        let first = [0, 0, 0, 0, 0, 0x01, 0x98, 0x5c];
        let second = [0, 0, 0, 0, 0, 0x02, 0x19, 0x0c];
        let march = march();
        assert_eq!(
            ledger(&march, 1, false).unwrap(),
            [first, energinet].concat()
        );
        assert_eq!(
            ledger(&march, 2, false).unwrap(),
            [second, energinet].concat()
        );
        let text = |supplier| String::from_utf8(ledger(&march, supplier, true).unwrap()).unwrap();
        assert_eq!(text(1), "grid company 19.85\nEnerginet 0.00\n");
        assert_eq!(text(2), "grid company 21.90\nEnerginet 0.00\n");
    }

    /// Of a tax: 1,234 Wh at minus 4.05 kroner a kWh are -4.9977 kroner.
    #[test]
    fn energinets_amount_comes_second() {
        let file = "month 2024 3 points 1 suppliers 1
            element tariff energinet tax -4050000
            state point 0 day 8826 state connected from grid received 8826
            holder point 0 day 8826 supplier 1 from energinet received 8826
            link point 0 element 0 day 8826 quantity 1 from energinet received 8826
            reading point 0 day 8830 hour 7 wh 1234 from grid received 8826";
        let file = trial::text_to_bytes(file).unwrap();
        let grid_company = [0, 0, 0, 0, 0, 0, 0, 0x0c];
        let energinet = [0, 0, 0, 0, 0, 0, 0x50, 0x0d];
        assert_eq!(
            ledger(&file, 1, false).unwrap(),
            [grid_company, energinet].concat()
        );
        let text = ledger(&file, 1, true).unwrap();
        assert_eq!(text, b"grid company 0.00\nEnerginet -5.00\n");
    }

    #[test]
    fn what_is_wrong_is_said() {
        let march = march();
        for supplier in [0, 3, u64::MAX] {
            let sentence = format!(
                "supplier {supplier} is refused by question 6; the book has suppliers 1 to 2"
            );
            assert_eq!(ledger(&march, supplier, false), Err(sentence));
        }
        let refused = |question| Err(format!("the file is refused by question {question}"));
        assert_eq!(ledger(&[], 1, false), refused(1));
        // The month alone has no elements; a field that is cut short is broken.
        assert_eq!(ledger(&march[..9], 1, false), refused(2));
        assert_eq!(ledger(&march[..march.len() - 1], 1, false), refused(1));
    }

    #[test]
    fn arguments_are_a_supplier_and_an_option() {
        let asked =
            |words: &[&str]| asked(&words.iter().map(|w| w.to_string()).collect::<Vec<_>>());
        assert_eq!(asked(&["2"]), Some((2, false)));
        assert_eq!(asked(&["--kroner", "2"]), Some((2, true)));
        for others in [
            &[][..],
            &["--kroner"],
            &["2", "--kroner"],
            &["x"],
            &["-1"],
            &["1", "2"],
        ] {
            assert_eq!(asked(others), None, "{others:?}");
        }
    }

    #[test]
    fn kroner_have_two_decimals() {
        for (ore, kroner) in [
            (0, "0.00"),
            (7, "0.07"),
            (-7, "-0.07"),
            (-100, "-1.00"),
            (123_456, "1234.56"),
            (-999_999_999_999_999, "-9999999999999.99"),
        ] {
            assert_eq!(in_kroner(ore), kroner);
        }
    }
}
