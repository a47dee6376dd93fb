//! The file of document 01: fields of a one-byte tag, a two-byte length, high
//! byte first, and a value. Only single fields are decoded here; their order is
//! looked after in `run`.

pub const MARK_VAT: u8 = 1;
pub const MARK_PASS_ON: u8 = 2;
pub const MARK_TAX: u8 = 4;
pub const MARK_HOURLY: u8 = 8;

/// Tag 1: the month and the counts of the book.
#[derive(Clone, Debug, PartialEq, Eq)]
pub struct Month {
    pub year: u16,
    pub month: u8,
    pub points: u16,
    pub suppliers: u8,
}

/// Tag 2: an element with one price, or 24 where it is marked hourly.
#[derive(Clone, Debug, PartialEq, Eq)]
pub struct Element {
    pub kind: u8,
    pub owner: u8,
    pub marks: u8,
    pub prices: Vec<i64>,
}

/// Tag 3: a message.
#[derive(Clone, Debug, Default, PartialEq, Eq)]
pub struct Message {
    pub kind: u8,
    pub role: u8,
    pub sender: u8,
    pub received: u32,
    pub point: u16,
    pub element: u8,
    pub day: u32,
    pub hour: u8,
    pub value: u32,
}

#[derive(Clone, Debug, PartialEq, Eq)]
pub enum Field {
    Month(Month),
    Element(Element),
    Message(Message),
}

/// A field that is not whole, has an unknown tag or a wrong length.
#[derive(Clone, Copy, Debug, PartialEq, Eq)]
pub struct Broken;

/// Takes whole fields off the front of the input.
pub struct Reader<'a> {
    rest: &'a [u8],
}

impl<'a> Reader<'a> {
    pub fn new(bytes: &'a [u8]) -> Self {
        Reader { rest: bytes }
    }

    /// The bytes that no field has been taken from yet.
    pub fn rest(&self) -> &'a [u8] {
        self.rest
    }

    /// The next field, or nothing at the end of the input. After a broken field
    /// the reader stays where it is.
    pub fn next_field(&mut self) -> Option<Result<Field, Broken>> {
        if self.rest.is_empty() {
            return None;
        }
        let Some((tag, value, rest)) = split_field(self.rest) else {
            return Some(Err(Broken));
        };
        let field = match tag {
            1 => decode_month(value).map(Field::Month),
            2 => decode_element(value).map(Field::Element),
            3 => decode_message(value).map(Field::Message),
            _ => None,
        };
        match field {
            Some(field) => {
                self.rest = rest;
                Some(Ok(field))
            }
            None => Some(Err(Broken)),
        }
    }
}

/// Tag, value and what follows, or nothing where the bytes end too early.
pub fn split_field(bytes: &[u8]) -> Option<(u8, &[u8], &[u8])> {
    let [tag, high, low, rest @ ..] = bytes else {
        return None;
    };
    let length = usize::from(u16::from_be_bytes([*high, *low]));
    let (value, rest) = rest.split_at_checked(length)?;
    Some((*tag, value, rest))
}

fn decode_month(value: &[u8]) -> Option<Month> {
    let value: [u8; 6] = value.try_into().ok()?;
    Some(Month {
        year: u16::from_be_bytes([value[0], value[1]]),
        month: value[2],
        points: u16::from_be_bytes([value[3], value[4]]),
        suppliers: value[5],
    })
}

fn decode_element(value: &[u8]) -> Option<Element> {
    let [kind, owner, marks, prices @ ..] = value else {
        return None;
    };
    let price_count = if marks & MARK_HOURLY != 0 { 24 } else { 1 };
    if prices.len() != 8 * price_count {
        return None;
    }
    let prices = prices
        .chunks_exact(8)
        .map(|p| i64::from_be_bytes([p[0], p[1], p[2], p[3], p[4], p[5], p[6], p[7]]))
        .collect();
    Some(Element {
        kind: *kind,
        owner: *owner,
        marks: *marks,
        prices,
    })
}

fn decode_message(value: &[u8]) -> Option<Message> {
    let v: [u8; 19] = value.try_into().ok()?;
    Some(Message {
        kind: v[0],
        role: v[1],
        sender: v[2],
        received: u32::from_be_bytes([v[3], v[4], v[5], v[6]]),
        point: u16::from_be_bytes([v[7], v[8]]),
        element: v[9],
        day: u32::from_be_bytes([v[10], v[11], v[12], v[13]]),
        hour: v[14],
        value: u32::from_be_bytes([v[15], v[16], v[17], v[18]]),
    })
}
