//! From the text form to the bytes of the file. The text form is described in
//! `cases/README.md`.

use crate::encode;
use crate::repeat::{Line, expand};
use fresh::book::{
    BLOCK, CLOSED, CONNECTED, DISCONNECTED, ENERGINET, FEE, GRID_COMPANY, HOLDER, LINK, NEW,
    QUANTITY, READING, ROUND, STATE, STOP, SUBSCRIPTION, SUPPLIER, TARIFF,
};
use fresh::file::{Element, MARK_HOURLY, MARK_PASS_ON, MARK_TAX, MARK_VAT, Message, Month};

pub fn text_to_bytes(source: &str) -> Result<Vec<u8>, String> {
    let mut bytes = Vec::new();
    for line in expand(source)? {
        append_line(&mut bytes, &line)?;
    }
    Ok(bytes)
}

/// Adds what one line says, or changes the bytes so far.
pub fn append_line(bytes: &mut Vec<u8>, line: &Line) -> Result<(), String> {
    let words: Vec<&str> = line.text.split_whitespace().collect();
    append_words(bytes, &words)
        .map_err(|slip| format!("line {}: {}: {}", line.number, slip, line.text))
}

fn append_words(bytes: &mut Vec<u8>, words: &[&str]) -> Result<(), String> {
    match words {
        ["month", rest @ ..] => append_field(bytes, 1, &month(rest)?),
        ["element", rest @ ..] => append_field(bytes, 2, &element(rest)?),
        ["field", tag, hex @ ..] => append_field(bytes, number(tag)?, &hex_bytes(hex)?),
        ["raw", hex @ ..] => {
            bytes.extend(hex_bytes(hex)?);
            Ok(())
        }
        ["cut", length] => {
            let length = place(length, bytes.len())?;
            bytes.truncate(length);
            Ok(())
        }
        ["put", at, hex @ ..] => {
            let new = hex_bytes(hex)?;
            let at = place(at, bytes.len())?;
            match bytes.get_mut(at..at + new.len()) {
                Some(old) => old.copy_from_slice(&new),
                None => return Err("past the end".to_string()),
            }
            Ok(())
        }
        ["remove", at, count] => {
            let at = place(at, bytes.len())?;
            let count = place(count, bytes.len() - at)?;
            bytes.drain(at..at + count);
            Ok(())
        }
        [word, rest @ ..] => append_field(bytes, 3, &message(word, rest)?),
        [] => Ok(()),
    }
}

fn append_field(bytes: &mut Vec<u8>, tag: u8, value: &[u8]) -> Result<(), String> {
    bytes.extend(encode::field(tag, value).ok_or("value too long")?);
    Ok(())
}

fn month(words: &[&str]) -> Result<Vec<u8>, String> {
    let [year, month, "points", points, "suppliers", suppliers] = words else {
        return Err("month YEAR MONTH points N suppliers N".to_string());
    };
    Ok(encode::month_value(&Month {
        year: number(year)?,
        month: number(month)?,
        points: number(points)?,
        suppliers: number(suppliers)?,
    }))
}

fn element(words: &[&str]) -> Result<Vec<u8>, String> {
    let [kind, owner, rest @ ..] = words else {
        return Err("element KIND OWNER MARKS... PRICES...".to_string());
    };
    let kind = match *kind {
        "subscription" => SUBSCRIPTION,
        "fee" => FEE,
        "tariff" => TARIFF,
        other => number(other)?,
    };
    let owner = match *owner {
        "grid" => GRID_COMPANY,
        "energinet" => ENERGINET,
        other => number(other)?,
    };
    let mut marks = 0;
    let mut prices: Vec<i64> = Vec::new();
    let mut rest = rest.iter();
    while let Some(word) = rest.next() {
        match *word {
            "vat" => marks |= MARK_VAT,
            "pass-on" => marks |= MARK_PASS_ON,
            "tax" => marks |= MARK_TAX,
            "hourly" => marks |= MARK_HOURLY,
            "marks" => marks |= number::<u8>(rest.next().ok_or("marks N")?)?,
            // A price, or `COUNT*PRICE` for several that are alike.
            _ => match word.split_once('*') {
                Some((count, price)) => {
                    let price: i64 = number(price)?;
                    prices.extend((0..number::<u8>(count)?).map(|_| price));
                }
                None => prices.push(number(word)?),
            },
        }
    }
    // The length follows from the marks; `field 2` writes any other length.
    let price_count = if marks & MARK_HOURLY != 0 { 24 } else { 1 };
    if prices.len() != price_count {
        return Err(format!("{price_count} prices are due"));
    }
    Ok(encode::element_value(&Element {
        kind,
        owner,
        marks,
        prices,
    }))
}

/// A message by its name, with fields in any order. Fields that its kind does
/// not use may be given too, so that a wrong message can be written.
fn message(word: &str, words: &[&str]) -> Result<Vec<u8>, String> {
    let (kind, needed): (u8, &[&str]) = match word {
        "link" => (LINK, &["point", "element", "day", "value"]),
        "stop" => (STOP, &["point", "element", "day"]),
        "quantity" => (QUANTITY, &["point", "element", "day", "value"]),
        "holder" => (HOLDER, &["point", "day", "value"]),
        "state" => (STATE, &["point", "day", "value"]),
        "reading" => (READING, &["point", "day", "hour", "value"]),
        "block" | "unblock" => (BLOCK, &["point"]),
        "round" => (ROUND, &[]),
        "message" => (0, &[]),
        _ => return Err("unknown word".to_string()),
    };
    let is_generic = word == "message";
    let mut m = Message {
        kind,
        value: u32::from(word == "block"),
        ..Message::default()
    };
    let mut given: Vec<&str> = Vec::new();
    let mut rest = words.iter();
    while let Some(key) = rest.next() {
        let mut next = || rest.next().copied().ok_or(format!("{key} what?"));
        let field = match *key {
            "kind" if is_generic => {
                m.kind = number(next()?)?;
                "kind"
            }
            "from" => {
                match next()? {
                    "grid" => m.role = GRID_COMPANY,
                    "energinet" => m.role = ENERGINET,
                    "supplier" => {
                        m.role = SUPPLIER;
                        m.sender = number(next()?)?;
                    }
                    _ => return Err("from grid, energinet or supplier N".to_string()),
                }
                "role"
            }
            "role" => {
                m.role = number(next()?)?;
                "role"
            }
            "sender" => {
                m.sender = number(next()?)?;
                "sender"
            }
            "received" => {
                m.received = number(next()?)?;
                "received"
            }
            "point" => {
                m.point = number(next()?)?;
                "point"
            }
            "element" => {
                m.element = number(next()?)?;
                "element"
            }
            "day" => {
                m.day = number(next()?)?;
                "day"
            }
            "hour" => {
                m.hour = number(next()?)?;
                "hour"
            }
            "state" if kind == STATE => {
                m.value = match next()? {
                    "new" => u32::from(NEW),
                    "connected" => u32::from(CONNECTED),
                    "disconnected" => u32::from(DISCONNECTED),
                    "closed" => u32::from(CLOSED),
                    other => number(other)?,
                };
                "value"
            }
            "quantity" if matches!(kind, LINK | QUANTITY) => {
                m.value = number(next()?)?;
                "value"
            }
            "supplier" if kind == HOLDER => {
                m.value = number(next()?)?;
                "value"
            }
            "wh" if kind == READING => {
                m.value = number(next()?)?;
                "value"
            }
            "value" => {
                m.value = number(next()?)?;
                "value"
            }
            other => return Err(format!("unknown field {other}")),
        };
        if given.contains(&field) {
            return Err(format!("{field} twice"));
        }
        given.push(field);
    }
    let always: &[&str] = if is_generic {
        &[]
    } else {
        &["role", "received"]
    };
    for field in needed.iter().chain(always) {
        if !given.contains(field) {
            return Err(format!("{field} is missing"));
        }
    }
    Ok(encode::message_value(&m))
}

fn number<N: std::str::FromStr>(word: &str) -> Result<N, String> {
    word.parse()
        .map_err(|_| format!("{word} is no number that fits its field"))
}

/// A place in or a length of what is there.
fn place(word: &str, most: usize) -> Result<usize, String> {
    let place: usize = number(word)?;
    if place > most {
        return Err(format!("{place} is past the end {most}"));
    }
    Ok(place)
}

fn hex_bytes(words: &[&str]) -> Result<Vec<u8>, String> {
    let digits: Option<Vec<u8>> = words
        .iter()
        .flat_map(|word| word.chars())
        .map(|c| c.to_digit(16).map(|digit| digit as u8))
        .collect();
    let digits = digits.ok_or("no hexadecimal digits")?;
    if digits.len() % 2 != 0 {
        return Err("half a byte".to_string());
    }
    Ok(digits
        .chunks(2)
        .map(|pair| 16 * pair[0] + pair[1])
        .collect())
}
