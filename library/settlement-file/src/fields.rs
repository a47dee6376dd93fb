//! The fields of a file: a month, its elements, then messages.

use crate::{Counts, Element, Month};

/// A field is not whole, or its tag, length or order is wrong.
const BROKEN_FIELD: u64 = 1;

/// What the fields with tags 1 and 2 say.
#[derive(Clone, Debug)]
pub struct Opening {
    pub month: Month,
    pub counts: Counts,
    pub elements: Vec<Element>,
    /// 24 for each element.
    pub prices: Vec<i64>,
}

enum Field<'a> {
    Month(&'a [u8; 6]),
    /// Kind, owner, marks, then one or 24 prices.
    Element(&'a [u8]),
    Message(&'a [u8; 19]),
}

/// Takes the next field off the front of the bytes. Nothing where it is not whole or
/// its tag or length is wrong.
#[inline]
fn next_field<'a>(bytes: &mut &'a [u8]) -> Option<Field<'a>> {
    let [tag, high, low, rest @ ..] = *bytes else {
        return None;
    };
    let length = usize::from(u16::from_be_bytes([*high, *low]));
    let (value, rest) = rest.split_at_checked(length)?;
    *bytes = rest;
    match tag {
        1 => value.try_into().ok().map(Field::Month),
        2 => {
            let wanted = if value.get(2)? & 8 != 0 { 195 } else { 11 };
            (length == wanted).then_some(Field::Element(value))
        }
        3 => value.try_into().ok().map(Field::Message),
        _ => None,
    }
}

impl Opening {
    /// Takes the month off the front of a file, for an opening without elements; or
    /// gives question 1.
    pub fn read_month(bytes: &mut &[u8]) -> Result<Opening, u64> {
        let Some(Field::Month(value)) = next_field(bytes) else {
            return Err(BROKEN_FIELD);
        };
        Ok(Opening {
            month: Month {
                year: u64::from(u16::from_be_bytes([value[0], value[1]])),
                month: u64::from(value[2]),
            },
            counts: Counts {
                points: u64::from(u16::from_be_bytes([value[3], value[4]])),
                suppliers: u64::from(value[5]),
                elements: 0,
            },
            elements: Vec::new(),
            prices: Vec::new(),
        })
    }

    /// Adds the elements that follow the month, and gives the messages behind them; or
    /// question 1, where a field up to the first message is broken.
    pub fn read_elements<'a>(&mut self, mut bytes: &'a [u8]) -> Result<Messages<'a>, u64> {
        let mut messages = bytes;
        while !bytes.is_empty() {
            match next_field(&mut bytes) {
                Some(Field::Element(value)) => self.add_element(value),
                Some(Field::Message(_)) => break,
                _ => return Err(BROKEN_FIELD),
            }
            messages = bytes;
        }
        Ok(Messages(messages))
    }

    fn add_element(&mut self, value: &[u8]) {
        let [kind, owner, marks, prices @ ..] = value else {
            return;
        };
        self.counts.elements += 1;
        self.elements.push(Element {
            kind: *kind,
            owner: *owner,
            marks: *marks,
        });
        let past = self.prices.len() + 24;
        let (prices, _) = prices.as_chunks::<8>();
        self.prices
            .extend(prices.iter().map(|price| i64::from_be_bytes(*price)));
        self.prices.resize(past, 0);
    }
}

/// The messages of a file in order. Question 1 in place of a broken field, which is
/// the last.
pub struct Messages<'a>(&'a [u8]);

impl<'a> Iterator for Messages<'a> {
    type Item = Result<Message<'a>, u64>;

    #[inline]
    fn next(&mut self) -> Option<Self::Item> {
        if self.0.is_empty() {
            return None;
        }
        let Some(Field::Message(value)) = next_field(&mut self.0) else {
            self.0 = &[];
            return Some(Err(BROKEN_FIELD));
        };
        Some(Ok(Message(value)))
    }
}

/// A message of a file.
pub struct Message<'a>(&'a [u8; 19]);

impl Message<'_> {
    /// Kind, role, sender, received, point, element, day, hour and value.
    #[inline]
    pub fn fields(&self) -> [u64; 9] {
        let v = self.0;
        let two = |at: usize| u64::from(u16::from_be_bytes([v[at], v[at + 1]]));
        let four =
            |at: usize| u64::from(u32::from_be_bytes([v[at], v[at + 1], v[at + 2], v[at + 3]]));
        [
            u64::from(v[0]),
            u64::from(v[1]),
            u64::from(v[2]),
            four(3),
            two(7),
            u64::from(v[9]),
            four(10),
            u64::from(v[14]),
            four(15),
        ]
    }
}
