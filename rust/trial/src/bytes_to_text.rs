//! From any bytes to the text form, which converts back to the same bytes.

use fresh::book::{
    BLOCK, CLOSED, CONNECTED, DISCONNECTED, ENERGINET, FEE, GRID_COMPANY, HOLDER, LINK, NEW,
    QUANTITY, READING, ROUND, STATE, STOP, SUBSCRIPTION, SUPPLIER, TARIFF,
};
use fresh::file::{
    Element, Field, MARK_HOURLY, MARK_PASS_ON, MARK_TAX, MARK_VAT, Message, Reader, split_field,
};

pub fn bytes_to_text(bytes: &[u8]) -> String {
    let mut text = String::new();
    let mut rest = bytes;
    while !rest.is_empty() {
        let Some((tag, value, after)) = split_field(rest) else {
            text.push_str(&format!("raw{}\n", hex(rest)));
            break;
        };
        let whole = &rest[..rest.len() - after.len()];
        let line = match Reader::new(whole).next_field() {
            Some(Ok(Field::Month(m))) => format!(
                "month {} {} points {} suppliers {}",
                m.year, m.month, m.points, m.suppliers
            ),
            Some(Ok(Field::Element(element))) => element_line(&element),
            Some(Ok(Field::Message(message))) => message_line(&message),
            _ => format!("field {tag}{}", hex(value)),
        };
        text.push_str(&line);
        text.push('\n');
        rest = after;
    }
    text
}

fn element_line(element: &Element) -> String {
    let kind = match element.kind {
        SUBSCRIPTION => "subscription".to_string(),
        FEE => "fee".to_string(),
        TARIFF => "tariff".to_string(),
        other => other.to_string(),
    };
    let owner = match element.owner {
        GRID_COMPANY => "grid".to_string(),
        ENERGINET => "energinet".to_string(),
        other => other.to_string(),
    };
    let mut line = format!("element {kind} {owner}");
    let names = [
        (MARK_VAT, " vat"),
        (MARK_PASS_ON, " pass-on"),
        (MARK_TAX, " tax"),
        (MARK_HOURLY, " hourly"),
    ];
    let mut unnamed = element.marks;
    for (mark, name) in names {
        if element.marks & mark != 0 {
            line.push_str(name);
            unnamed &= !mark;
        }
    }
    if unnamed != 0 {
        line.push_str(&format!(" marks {unnamed}"));
    }
    for alike in element.prices.chunk_by(|a, b| a == b) {
        match alike.len() {
            1 => line.push_str(&format!(" {}", alike[0])),
            count => line.push_str(&format!(" {count}*{}", alike[0])),
        }
    }
    line
}

fn message_line(m: &Message) -> String {
    named_message_line(m).unwrap_or_else(|| {
        format!(
            "message kind {} role {} sender {} received {} point {} element {} day {} hour {} value {}",
            m.kind, m.role, m.sender, m.received, m.point, m.element, m.day, m.hour, m.value
        )
    })
}

/// Nothing where the name of a kind or role would hide a field that is not 0.
fn named_message_line(m: &Message) -> Option<String> {
    let Message {
        point,
        element,
        day,
        hour,
        value,
        received,
        ..
    } = m;
    let sender = match (m.role, m.sender) {
        (GRID_COMPANY, 0) => "grid".to_string(),
        (ENERGINET, 0) => "energinet".to_string(),
        (SUPPLIER, sender) => format!("supplier {sender}"),
        _ => return None,
    };
    let unused = |fields: &[u32]| fields.iter().all(|field| *field == 0);
    let (e, h) = (u32::from(*element), u32::from(*hour));
    let body = match m.kind {
        LINK if unused(&[h]) => {
            format!("link point {point} element {element} day {day} quantity {value}")
        }
        STOP if unused(&[h, *value]) => format!("stop point {point} element {element} day {day}"),
        QUANTITY if unused(&[h]) => {
            format!("quantity point {point} element {element} day {day} quantity {value}")
        }
        HOLDER if unused(&[e, h]) => format!("holder point {point} day {day} supplier {value}"),
        STATE if unused(&[e, h]) => {
            let state = match u8::try_from(*value) {
                Ok(NEW) => "new".to_string(),
                Ok(CONNECTED) => "connected".to_string(),
                Ok(DISCONNECTED) => "disconnected".to_string(),
                Ok(CLOSED) => "closed".to_string(),
                _ => value.to_string(),
            };
            format!("state point {point} day {day} state {state}")
        }
        READING if unused(&[e]) => {
            format!("reading point {point} day {day} hour {hour} wh {value}")
        }
        BLOCK if unused(&[e, *day, h]) && *value == 1 => format!("block point {point}"),
        BLOCK if unused(&[e, *day, h]) && *value == 0 => format!("unblock point {point}"),
        ROUND if unused(&[u32::from(*point), e, *day, h, *value]) => "round".to_string(),
        _ => return None,
    };
    Some(format!("{body} from {sender} received {received}"))
}

fn hex(bytes: &[u8]) -> String {
    bytes.iter().map(|byte| format!(" {byte:02x}")).collect()
}
