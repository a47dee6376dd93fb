//! The bytes of single fields.

use fresh::file::{Element, Message, Month};

/// Tag, length and value; nothing where the value is too long for its length.
pub fn field(tag: u8, value: &[u8]) -> Option<Vec<u8>> {
    let length = u16::try_from(value.len()).ok()?;
    let mut bytes = vec![tag];
    bytes.extend(length.to_be_bytes());
    bytes.extend(value);
    Some(bytes)
}

pub fn month_value(m: &Month) -> Vec<u8> {
    let mut value = Vec::new();
    value.extend(m.year.to_be_bytes());
    value.push(m.month);
    value.extend(m.points.to_be_bytes());
    value.push(m.suppliers);
    value
}

pub fn element_value(element: &Element) -> Vec<u8> {
    let mut value = vec![element.kind, element.owner, element.marks];
    for price in &element.prices {
        value.extend(price.to_be_bytes());
    }
    value
}

pub fn message_value(m: &Message) -> Vec<u8> {
    let mut value = vec![m.kind, m.role, m.sender];
    value.extend(m.received.to_be_bytes());
    value.extend(m.point.to_be_bytes());
    value.push(m.element);
    value.extend(m.day.to_be_bytes());
    value.push(m.hour);
    value.extend(m.value.to_be_bytes());
    value
}
