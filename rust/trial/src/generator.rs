//! Random files with a bias to collisions: few days, few pairs of point and
//! element, month edges, back-dated holders, states that change under a link,
//! deadlines' edges, and now and then a full table. Almost a third are of months
//! up to December 2018. Most are valid, some are damaged. The same seed gives the
//! same bytes on every machine.

use crate::encode;
use fresh::book::{
    BLOCK, CLOSED, CONNECTED, DISCONNECTED, ENERGINET, FEE, GRID_COMPANY, HOLDER,
    LAST_YEAR_OF_EVERY_STATE, LINK, NEW, QUANTITY, READING, ROUND, STATE, STOP, SUBSCRIPTION,
    SUPPLIER, TARIFF,
};
use fresh::calendar::{DAY_COUNT, days_in_month, first_day_of_month};
use fresh::file::{Element, MARK_HOURLY, MARK_PASS_ON, MARK_TAX, MARK_VAT, Message, Month};

const LAST_DAY: i64 = DAY_COUNT as i64 - 1;

/// The splitmix64 sequence.
pub struct Random {
    state: u64,
}

impl Random {
    pub fn new(seed: u64) -> Self {
        Random { state: seed }
    }

    pub fn next_number(&mut self) -> u64 {
        self.state = self.state.wrapping_add(0x9e37_79b9_7f4a_7c15);
        let mut z = self.state;
        z = (z ^ (z >> 30)).wrapping_mul(0xbf58_476d_1ce4_e5b9);
        z = (z ^ (z >> 27)).wrapping_mul(0x94d0_49bb_1331_11eb);
        z ^ (z >> 31)
    }

    pub fn below(&mut self, limit: u64) -> u64 {
        self.next_number() % limit
    }

    fn between(&mut self, first: i64, last: i64) -> i64 {
        first + self.below((last - first + 1) as u64) as i64
    }

    fn percent(&mut self, chance: u64) -> bool {
        self.below(100) < chance
    }

    fn pick<T: Copy>(&mut self, items: &[T]) -> T {
        items[self.below(items.len() as u64) as usize]
    }

    fn place(&mut self, length: usize) -> usize {
        self.below(length as u64) as usize
    }
}

pub fn generate(seed: u64) -> Vec<u8> {
    let mut r = Random::new(seed);
    match r.below(100) {
        0 => random_bytes(&mut r),
        1..=6 => ordinary(&mut r, Opening::Wrong).concat(),
        7..=16 => {
            let fields = ordinary(&mut r, Opening::Right);
            damage(&mut r, fields)
        }
        17..=19 => full_table(&mut r).concat(),
        _ => ordinary(&mut r, Opening::Right).concat(),
    }
}

/// A file of over 64 KiB, or of over 256 KiB for every third seed: many messages
/// of one ordinary world.
pub fn generate_large(seed: u64) -> Vec<u8> {
    let mut r = Random::new(seed);
    let count = if seed % 3 == 0 { 12_500 } else { 3_200 };
    let month = random_month(&mut r);
    let elements: Vec<Element> = (0..r.pick(&[2, 3, 5, 8]))
        .map(|_| random_element(&mut r))
        .collect();
    let world = World::new(&mut r, &month, elements.clone());
    let mut messages = Vec::new();
    set_up(&mut r, &world, &mut messages);
    for _ in 0..count {
        messages.push(random_message(&mut r, &world));
    }
    messages.push(round(&world));
    encode_all(&month, &elements, &messages).concat()
}

fn random_bytes(r: &mut Random) -> Vec<u8> {
    let length = r.pick(&[0, 1, 2, 3, 9, 23, 45, 100]);
    // Small bytes look like tags and lengths more often.
    let limit = r.pick(&[4, 20, 256]);
    (0..length).map(|_| r.below(limit) as u8).collect()
}

#[derive(PartialEq, Eq)]
enum Opening {
    Right,
    Wrong,
}

/// What the messages of one file are chosen from.
struct World {
    first_day: i64,
    last_day: i64,
    points: u16,
    suppliers: u8,
    elements: Vec<Element>,
    /// The few days that messages meet on.
    meeting_days: Vec<i64>,
    /// Up to 2019, the first year in which not every state counts: states change more.
    states_matter: bool,
}

impl World {
    fn new(r: &mut Random, month: &Month, elements: Vec<Element>) -> World {
        let (year, month_number) = (u32::from(month.year), u32::from(month.month));
        let first_day = i64::from(first_day_of_month(year, month_number));
        let last_day = first_day + i64::from(days_in_month(year, month_number)) - 1;
        let mut meeting_days = vec![first_day, last_day];
        for _ in 0..r.below(4) {
            meeting_days.push(r.between(first_day, last_day));
        }
        for _ in 0..r.below(3) {
            meeting_days.push(r.pick(&[
                first_day - 1,
                last_day + 1,
                first_day + 1,
                last_day - 1,
                first_day - 40,
                last_day + 40,
            ]));
        }
        if r.percent(10) {
            meeting_days.push(r.pick(&[0, LAST_DAY]));
        }
        for day in &mut meeting_days {
            *day = (*day).clamp(0, LAST_DAY);
        }
        World {
            first_day,
            last_day,
            points: month.points,
            suppliers: month.suppliers,
            elements,
            meeting_days,
            states_matter: month.year <= LAST_YEAR_OF_EVERY_STATE + 1,
        }
    }

    fn day(&self, r: &mut Random) -> i64 {
        let day = match r.below(100) {
            0..=79 => r.pick(&self.meeting_days),
            80..=92 => r.between(self.first_day, self.last_day),
            93..=97 => r.between(self.first_day - 100, self.last_day + 100),
            _ => r.between(0, LAST_DAY),
        };
        day.clamp(0, LAST_DAY)
    }

    fn point(&self, r: &mut Random) -> u16 {
        few_of(r, u64::from(self.points)) as u16
    }

    fn supplier(&self, r: &mut Random) -> u8 {
        1 + few_of(r, u64::from(self.suppliers)) as u8
    }

    fn element(&self, r: &mut Random) -> usize {
        few_of(r, self.elements.len() as u64) as usize
    }
}

/// Of many numbers mostly the first few, so that messages meet.
fn few_of(r: &mut Random, count: u64) -> u64 {
    let few = if r.percent(95) { 4 } else { count };
    r.below(count.min(few))
}

fn ordinary(r: &mut Random, opening: Opening) -> Vec<Vec<u8>> {
    let mut month = random_month(r);
    let element_count = r.pick(&[1, 2, 2, 3, 3, 4, 5, 8]);
    let element_count = if r.percent(1) { 64 } else { element_count };
    let mut elements: Vec<Element> = (0..element_count).map(|_| random_element(r)).collect();
    let world = World::new(r, &month, elements.clone());
    let mut messages = Vec::new();
    set_up(r, &world, &mut messages);
    for _ in 0..r.pick(&[3, 10, 20, 30, 40, 60]) {
        messages.push(random_message(r, &world));
    }
    if r.percent(70) {
        messages.push(round(&world));
    }
    if r.percent(10) {
        move_reading(r, &world, &mut messages);
    }
    if opening == Opening::Wrong {
        spoil_opening(r, &mut month, &mut elements);
        if r.percent(20) {
            messages.clear();
        }
    }
    encode_all(&month, &elements, &messages)
}

fn encode_all(month: &Month, elements: &[Element], messages: &[Message]) -> Vec<Vec<u8>> {
    let mut fields = vec![encode::field(1, &encode::month_value(month))];
    fields.extend(
        elements
            .iter()
            .map(|e| encode::field(2, &encode::element_value(e))),
    );
    fields.extend(
        messages
            .iter()
            .map(|m| encode::field(3, &encode::message_value(m))),
    );
    // None of these values is too long for its length.
    fields.into_iter().flatten().collect()
}

fn random_month(r: &mut Random) -> Month {
    let (year, month) = match r.below(20) {
        0 => (2000, 1),
        1 => (2000, 2),
        2 | 3 => (2099, 12),
        4 => (2023, 2),
        5..=7 => (2024, 3),
        // On both sides of the change of the states that count.
        8..=10 => (LAST_YEAR_OF_EVERY_STATE, 12),
        11..=13 => (LAST_YEAR_OF_EVERY_STATE + 1, 1),
        14 => any_month(r, LAST_YEAR_OF_EVERY_STATE),
        _ => any_month(r, 2099),
    };
    Month {
        year,
        month,
        points: r.pick(&[1, 1, 1, 2, 2, 3, 16]),
        suppliers: r.pick(&[1, 2, 2, 3, 3, 16]),
    }
}

fn any_month(r: &mut Random, last_year: u16) -> (u16, u8) {
    let year = r.between(2000, i64::from(last_year));
    (year as u16, r.between(1, 12) as u8)
}

fn random_element(r: &mut Random) -> Element {
    let kind = r.pick(&[SUBSCRIPTION, SUBSCRIPTION, FEE, TARIFF, TARIFF]);
    let owner = r.pick(&[GRID_COMPANY, ENERGINET]);
    let mut marks = r.pick(&[0, MARK_VAT]);
    if kind != FEE && r.percent(30) {
        marks |= MARK_PASS_ON;
    }
    if kind == TARIFF && owner == ENERGINET && r.percent(50) {
        marks |= MARK_TAX;
    }
    let mut price_count = 1;
    if kind == TARIFF && r.percent(30) {
        marks |= MARK_HOURLY;
        price_count = 24;
    }
    Element {
        kind,
        owner,
        marks,
        prices: (0..price_count).map(|_| random_price(r, kind)).collect(),
    }
}

fn largest_price(kind: u8) -> i64 {
    if kind == TARIFF {
        9_999_999
    } else {
        9_999_999_999
    }
}

fn random_price(r: &mut Random, kind: u8) -> i64 {
    let largest = largest_price(kind);
    let size = match r.below(10) {
        0 => 0,
        1 => 1,
        2 => r.between(14, 16),
        3 => largest,
        4 | 5 => r.between(0, 1000),
        _ => r.between(0, largest),
    };
    if r.percent(35) { -size } else { size }
}

/// Puts one or two things of the opening out of their limits.
fn spoil_opening(r: &mut Random, month: &mut Month, elements: &mut Vec<Element>) {
    for _ in 0..r.between(1, 2) {
        match r.below(8) {
            0 => month.year = r.pick(&[1999, 2100, 0, 65535]),
            1 => month.month = r.pick(&[0, 13, 255]),
            2 => month.points = r.pick(&[0, 17, 256, 257, 65535]),
            3 => month.suppliers = r.pick(&[0, 17, 255]),
            4 => {
                let new_count = r.pick(&[0, 64, 65]);
                while elements.len() < new_count {
                    elements.push(random_element(r));
                }
                elements.truncate(new_count);
            }
            _ if elements.is_empty() => {}
            _ => {
                let place = r.place(elements.len());
                spoil_element(r, &mut elements[place]);
            }
        }
    }
}

fn spoil_element(r: &mut Random, element: &mut Element) {
    match r.below(6) {
        0 => element.kind = r.pick(&[0, 4, 255]),
        1 => element.owner = r.pick(&[0, 3, 255]),
        2 => element.marks |= r.pick(&[16, 32, 64, 128]),
        3 => element.marks |= r.pick(&[MARK_PASS_ON, MARK_TAX]),
        4 => {
            element.marks |= MARK_HOURLY;
            element.prices.resize(24, 0);
        }
        _ => {
            let over = largest_price(element.kind) + 1;
            let place = r.place(element.prices.len());
            element.prices[place] = r.pick(&[over, -over, i64::MIN, i64::MAX]);
        }
    }
}

/// Most files begin with points that are connected, held and linked.
fn set_up(r: &mut Random, world: &World, messages: &mut Vec<Message>) {
    if r.percent(5) {
        return;
    }
    let early = (world.first_day - r.pick(&[0, 1, 100, 1000, 1000])).max(0);
    for point in 0..world.points.min(4) {
        let from = if r.percent(80) { early } else { world.day(r) };
        let is_new = world.states_matter && r.percent(20);
        let first_state = if is_new { NEW } else { CONNECTED };
        messages.push(state(world, point, from, first_state));
        let from = if r.percent(70) { early } else { world.day(r) };
        let supplier = world.supplier(r);
        messages.push(holder(world, point, from, supplier));
        for number in 0..world.elements.len() {
            if r.percent(60) {
                let mut m = random_link(r, world, LINK);
                m.point = point;
                aim_at_element(r, world, &mut m, number);
                // Linked all along, so that stops and quantities find a period.
                if r.percent(50) {
                    m.day = early as u32;
                    m.received = m.day;
                }
                messages.push(m);
            }
        }
        for _ in 0..r.below(4) {
            messages.push(reading(r, world, point));
        }
        let chance = if world.states_matter { 80 } else { 10 };
        if r.percent(chance) {
            change_state(r, world, point, messages);
        }
    }
}

/// Another state from a day of the month on, for good or for some days. The point's
/// links go on meanwhile.
fn change_state(r: &mut Random, world: &World, point: u16, messages: &mut Vec<Message>) {
    let day = r.between(world.first_day, world.last_day);
    let other = r.pick(&[NEW, NEW, DISCONNECTED, CLOSED, CLOSED]);
    messages.push(state(world, point, day, other));
    if r.percent(60) {
        let back = r.between(day, world.last_day) + 1;
        messages.push(state(world, point, back.min(LAST_DAY), CONNECTED));
    }
}

fn random_message(r: &mut Random, world: &World) -> Message {
    let mut m = match r.below(100) {
        0..=19 => random_link(r, world, LINK),
        20..=33 => random_link(r, world, STOP),
        34..=48 => random_link(r, world, QUANTITY),
        49..=62 => {
            let point = world.point(r);
            let day = world.day(r);
            let supplier = if r.percent(10) { 0 } else { world.supplier(r) };
            holder(world, point, day, supplier)
        }
        63..=69 => {
            let point = world.point(r);
            let day = world.day(r);
            let new_state = r.pick(&[NEW, CONNECTED, CONNECTED, CONNECTED, DISCONNECTED, CLOSED]);
            state(world, point, day, new_state)
        }
        70..=84 => {
            let point = world.point(r);
            reading(r, world, point)
        }
        85..=89 => Message {
            kind: BLOCK,
            role: GRID_COMPANY,
            received: world.first_day as u32,
            point: world.point(r),
            value: r.below(2) as u32,
            ..Message::default()
        },
        _ => round(world),
    };
    if m.kind > QUANTITY && r.percent(10) {
        m.received = r.between(0, LAST_DAY) as u32;
    }
    if r.percent(3) {
        wrong_sender(r, world, &mut m);
    }
    if r.percent(4) {
        spoil_message(r, world, &mut m);
    }
    m
}

fn round(world: &World) -> Message {
    Message {
        kind: ROUND,
        role: ENERGINET,
        received: world.last_day as u32,
        ..Message::default()
    }
}

fn holder(world: &World, point: u16, day: i64, supplier: u8) -> Message {
    Message {
        kind: HOLDER,
        role: ENERGINET,
        received: world.first_day as u32,
        point,
        day: day as u32,
        value: u32::from(supplier),
        ..Message::default()
    }
}

fn state(world: &World, point: u16, day: i64, new_state: u8) -> Message {
    Message {
        kind: STATE,
        role: GRID_COMPANY,
        received: world.first_day as u32,
        point,
        day: day as u32,
        value: u32::from(new_state),
        ..Message::default()
    }
}

fn reading(r: &mut Random, world: &World, point: u16) -> Message {
    let day = if r.percent(90) {
        world.day(r).clamp(world.first_day, world.last_day)
    } else {
        world.day(r)
    };
    Message {
        kind: READING,
        role: GRID_COMPANY,
        received: world.last_day as u32,
        point,
        day: day as u32,
        hour: r.pick(&[0, 0, 23, 12]),
        value: r.pick(&[0, 1, 1000, 2500, 9_999_999]),
        ..Message::default()
    }
}

/// Rounds before and after a reading moves to another hour.
fn move_reading(r: &mut Random, world: &World, messages: &mut Vec<Message>) {
    let point = world.point(r);
    let mut m = reading(r, world, point);
    m.hour = 0;
    m.value = 1000;
    messages.push(m.clone());
    messages.push(round(world));
    m.value = 0;
    messages.push(m.clone());
    m.hour = r.pick(&[1, 23]);
    m.value = 1000;
    messages.push(m);
    messages.push(round(world));
}

/// A link, stop or quantity message, mostly from one who may send it in time.
fn random_link(r: &mut Random, world: &World, kind: u8) -> Message {
    let mut m = Message {
        kind,
        point: world.point(r),
        day: world.day(r) as u32,
        ..Message::default()
    };
    // A quantity message for a tariff is always refused: look twice.
    let mut number = world.element(r);
    if kind == QUANTITY && world.elements[number].kind == TARIFF {
        number = world.element(r);
    }
    aim_at_element(r, world, &mut m, number);
    let day = i64::from(m.day);
    let received = match r.below(100) {
        0..=69 => day + r.between(-20, 20),
        70..=79 => world.first_day,
        80..=84 => day + r.between(89, 92),
        85..=89 => day + r.between(20, 23),
        90..=94 => day - r.between(1094, 1097),
        _ => day + r.between(-1200, 1200),
    };
    m.received = received.clamp(0, LAST_DAY) as u32;
    m
}

/// Chooses the element with a sender and a quantity that suit it.
fn aim_at_element(r: &mut Random, world: &World, m: &mut Message, number: usize) {
    let element = &world.elements[number];
    let is_tariff = element.kind == TARIFF;
    m.element = number as u8;
    m.sender = 0;
    m.role = element.owner;
    if is_tariff && element.owner == ENERGINET {
        m.role = r.pick(&[ENERGINET, SUPPLIER, SUPPLIER]);
        if element.marks & MARK_TAX != 0 {
            m.role = r.pick(&[ENERGINET, SUPPLIER, GRID_COMPANY]);
        }
    }
    if m.role == SUPPLIER {
        m.sender = world.supplier(r);
    }
    m.value = match m.kind {
        STOP => 0,
        LINK if is_tariff && r.percent(95) => 1,
        _ => r.pick(&[1, 1, 2, 3, 7, 999]),
    };
}

fn wrong_sender(r: &mut Random, world: &World, m: &mut Message) {
    m.role = r.pick(&[GRID_COMPANY, ENERGINET, SUPPLIER]);
    m.sender = 0;
    if m.role == SUPPLIER {
        m.sender = world.supplier(r);
    }
}

/// Puts one field at or past a limit, whether the kind uses it or not.
fn spoil_message(r: &mut Random, world: &World, m: &mut Message) {
    match r.below(10) {
        0 => m.kind = r.pick(&[0, 9, 255]),
        1 => m.role = r.pick(&[0, 4, 255]),
        2 => m.sender = r.pick(&[0, 1, world.suppliers, world.suppliers + 1, 255]),
        3 => m.received = r.pick(&[0, DAY_COUNT - 1, DAY_COUNT, u32::MAX]),
        4 | 5 => m.point = r.pick(&[world.points - 1, world.points, 256, u16::MAX]),
        6 => {
            let count = world.elements.len() as u8;
            m.element = r.pick(&[count - 1, count, 255]);
        }
        7 => m.day = r.pick(&[0, DAY_COUNT - 1, DAY_COUNT, u32::MAX]),
        8 => m.hour = r.pick(&[1, 23, 24, 255]),
        _ => {
            let past_suppliers = u32::from(world.suppliers) + 1;
            m.value = r.pick(&[0, 2, 5, past_suppliers, 1000, 10_000_000, u32::MAX]);
        }
    }
}

/// Fills one of the tables to about its last place, then goes on as usual.
fn full_table(r: &mut Random) -> Vec<Vec<u8>> {
    let mut month = random_month(r);
    month.points = month.points.min(3);
    let mut elements = vec![
        Element {
            kind: SUBSCRIPTION,
            owner: ENERGINET,
            marks: 0,
            prices: vec![random_price(r, SUBSCRIPTION)],
        },
        Element {
            kind: FEE,
            owner: ENERGINET,
            marks: 0,
            prices: vec![random_price(r, FEE)],
        },
    ];
    for _ in 0..r.below(3) {
        elements.push(random_element(r));
    }
    let mut world = World::new(r, &month, elements.clone());
    let mut messages = Vec::new();
    for point in 0..world.points {
        messages.push(state(&world, point, 0, CONNECTED));
        messages.push(holder(&world, point, 0, 1));
    }
    let count = 1024 - r.pick(&[0, 1, 2, 3]) - r.pick(&[0, i64::from(world.points)]);
    // Around the month, so that the rows count; the days stay within 0 to 36,524.
    let from = (world.first_day - r.between(0, 1000)).clamp(1, LAST_DAY - 1100);
    let link = |kind: u8, element: u8, day: i64, quantity: u32| Message {
        kind,
        role: ENERGINET,
        received: day as u32,
        element,
        day: day as u32,
        value: quantity,
        ..Message::default()
    };
    match r.below(5) {
        // Fees on one day each.
        0 => messages.extend((0..count).map(|i| link(LINK, 1, from + i, 1))),
        // One subscription split again and again.
        1 => {
            messages.push(link(LINK, 0, from, 1));
            messages.extend((1..count).map(|i| link(QUANTITY, 0, from + i, 1 + i as u32 % 3)));
        }
        // A subscription linked backwards: every link runs to the next period.
        2 => messages.extend((0..count).map(|i| link(LINK, 0, from + count - i, 2))),
        3 => {
            for i in 0..count {
                let supplier = world.supplier(r);
                messages.push(holder(&world, 0, from + i, supplier));
            }
        }
        _ => {
            for i in 0..count {
                let new_state = r.pick(&[CONNECTED, CONNECTED, DISCONNECTED, NEW]);
                messages.push(state(&world, 0, from + i, new_state));
            }
        }
    }
    messages.push(round(&world));
    world
        .meeting_days
        .extend([from, from + count - 1, from + count, from + 500]);
    for _ in 0..30 {
        messages.push(random_message(r, &world));
    }
    messages.push(round(&world));
    encode_all(&month, &elements, &messages)
}

/// Breaks a whole file in one or two places.
fn damage(r: &mut Random, mut fields: Vec<Vec<u8>>) -> Vec<u8> {
    // Whole fields in the wrong place.
    if r.percent(40) {
        let from = r.place(fields.len());
        let to = r.place(fields.len());
        match r.below(3) {
            0 => fields.swap(from, to),
            1 => fields.insert(to, fields[from].clone()),
            _ => {
                fields.remove(from);
            }
        }
        return fields.concat();
    }
    let mut bytes = fields.concat();
    for _ in 0..r.between(1, 2) {
        if bytes.is_empty() {
            break;
        }
        // Most of a file is messages; the opening shall have its share.
        let most = if r.percent(30) { 60 } else { bytes.len() };
        let at = r.place(bytes.len().min(most));
        match r.below(5) {
            0 => bytes.truncate(at),
            1 => bytes[at] = r.below(256) as u8,
            2 => bytes[at] ^= 1 << r.below(8),
            3 => bytes.insert(at, r.below(4) as u8),
            _ => {
                bytes.remove(at);
            }
        }
    }
    if r.percent(10) {
        bytes.push(r.below(4) as u8);
    }
    bytes
}
