//! Random sessions as the bytes of the program's input, and random histories of the eight calls as values.

use support::{Random, Seed};

use crate::calls::{bad_link, call, fills, first_minute, guard, listed, net, order, pick, style, suits, Style};
use crate::lines::{answer, link_bytes, opening, order_bytes, read_order};
use crate::plain::{Answer, Call, Desk};
use crate::{Link, Request, BOOKINGS, LINKS, MAX_CAPACITY, MAX_GUARD, PATH_LINKS};

/// The input of a session. One in ten stops at its head; one in four ends in a piece of 1 to 15 bytes.
pub fn session(seed: u64) -> Vec<u8> {
    let mut random = Random::new(seed);
    let style = style(&mut random);
    if random.once_in(10) {
        let links = net(&mut random, style);
        let guard = guard(&mut random);
        return damaged_head(&mut random, &links, guard);
    }
    let orders = match random.below(25) {
        0 => random.within(300, 600),
        _ if fills(style) => random.within(70, 160),
        _ => random.within(0, 80),
    };
    let guard = guard(&mut random);
    let mut bytes = orders_file(&mut random, style, guard, orders);
    if random.once_in(4) {
        let piece = order_bytes(&Call::Cancel(1));
        bytes.extend(&piece[..random.within(1, 15) as usize]);
    }
    bytes
}

/// The input of a session that the program reads in three blocks.
pub fn long_session(seed: u64) -> Vec<u8> {
    let mut random = Random::new(seed);
    let style = style(&mut random);
    let orders = random.within(8_300, 9_500);
    let guard = guard(&mut random);
    orders_file(&mut random, style, guard, orders)
}

/// The bytes of a valid head with this guard and of so many orders, a few of them damaged, each suited to what the desk then
/// holds.
pub fn orders_file(random: &mut Random, style: Style, guard: u32, orders: u64) -> Vec<u8> {
    let mut bytes = head_bytes(&net(random, style), guard);
    let (mut desk, _) = opening(&bytes).expect("a valid head");
    let mut piece = order_bytes(&Call::MoveClock(first_minute(random, style)));
    for _ in 0..orders {
        answer(&mut desk, &piece);
        bytes.extend(piece);
        piece = order_piece(random, style, &desk);
        while read_order(&piece).is_ok_and(|call| !suits(style, &desk, &call)) {
            piece = order_piece(random, style, &desk);
        }
    }
    bytes
}

/// The fullest desk: 64 links, 64 bookings of 31 links each, and 129 events; no guard.
pub fn fullest() -> Desk {
    chain(LINKS as u32, BOOKINGS as u32)
}

/// A chain of up to 31 links, the others beside its first ones, and bookings of the whole chain, each a minute after the one
/// before; no guard.
pub fn chain(links: u32, bookings: u32) -> Desk {
    let hops = links.min(PATH_LINKS as u32);
    let link = |number: u32| Link { from: number % hops, to: number % hops + 1, capacity: MAX_CAPACITY };
    let links: Vec<Link> = (0..links).map(link).collect();
    let mut desk = Desk::set_up(&links, 0).expect("valid links");
    for number in 1..=bookings {
        let request = Request { from: 0, to: hops, bandwidth: 10_000, duration: 999, earliest: number, latest: number };
        desk.book(number, &request).expect("room for each booking");
    }
    desk
}

fn head_bytes(links: &[Link], guard: u32) -> Vec<u8> {
    let mut bytes = vec![links.len() as u8, guard as u8];
    links.iter().for_each(|link| bytes.extend(link_bytes(link)));
    bytes
}

/// A head with one or two damages, sometimes with an order behind it; or no byte at all.
fn damaged_head(random: &mut Random, links: &[Link], guard: u32) -> Vec<u8> {
    if random.once_in(8) {
        return Vec::new();
    }
    let mut bytes = head_bytes(links, guard);
    if random.once_in(2) {
        bytes.extend(order_bytes(&Call::Cancel(1)));
    }
    let some_link = |random: &mut Random| 2 + 8 * random.below(links.len() as u64) as usize;
    for _ in 0..random.within(1, 2) {
        match random.below(8) {
            0 => bytes[0] = *pick(random, &[0, LINKS as u8 + 1, 200, 255]),
            1 => bytes.truncate(random.within(2, 1 + 8 * links.len() as u64) as usize),
            2 => bytes.truncate(1),
            3 => {
                let long = random.within(MAX_GUARD as u64 + 1, 255) as u8;
                bytes.iter_mut().skip(1).take(1).for_each(|byte| *byte = long);
            }
            4 => {
                let bit = random.within(30, 63) as usize;
                flip(&mut bytes, some_link(random) * 8 + bit);
            }
            5 | 6 => {
                let record = link_bytes(&bad_link(random));
                let place = some_link(random);
                bytes.iter_mut().skip(place).zip(record).for_each(|(byte, new)| *byte = new);
            }
            _ => {
                let place = some_link(random);
                bytes.iter_mut().skip(place).take(8).for_each(|byte| *byte = random.next() as u8);
            }
        }
    }
    bytes
}

/// The bytes of an order, one in twenty of them damaged: a bit changed, another kind, or any bytes.
fn order_piece(random: &mut Random, style: Style, desk: &Desk) -> [u8; 16] {
    let mut bytes = order_bytes(&order(random, style, desk));
    match random.below(160) {
        0..=3 => flip(&mut bytes, random.below(128) as usize),
        4..=6 => bytes[0] = bytes[0] & 0x0F | (random.next() as u8) << 4,
        7 => bytes.iter_mut().for_each(|byte| *byte = random.next() as u8),
        _ => {}
    }
    bytes
}

/// Changes a bit, counted from the front; a bit past the end is left alone.
fn flip(bytes: &mut [u8], bit: usize) {
    if let Some(byte) = bytes.get_mut(bit / 8) {
        *byte ^= 0x80 >> (bit % 8);
    }
}

/// The desks of 200 random histories, after each of 30 steps, with where each stands.
pub fn each_desk(first_seed: u64, mut tried: impl FnMut(&Desk, &str)) {
    for seed in first_seed..first_seed + 200 {
        let _seed = Seed(seed);
        let mut history = History::new(seed);
        for step in 0..30 {
            history.step();
            tried(&history.desk, &format!("seed {seed:#x}, step {step}"));
        }
    }
}

/// A history of calls on one desk. Each step makes a call that suits what the desk holds.
pub struct History {
    random: Random,
    style: Style,
    just_set_up: bool,
    pub desk: Desk,
}

impl History {
    /// The history behind a set-up with the links and the guard of `desk`, which is accepted.
    pub fn new(seed: u64) -> History {
        let mut random = Random::new(seed);
        let style = style(&mut random);
        let links = net(&mut random, style);
        let desk = Desk::set_up(&links, guard(&mut random)).expect("a valid net and guard");
        History { random, style, just_set_up: true, desk }
    }

    /// A next call with the independent desk's answer; `desk` is then what stands after it.
    pub fn step(&mut self) -> (Call, Answer) {
        let call = if self.just_set_up {
            Call::MoveClock(first_minute(&mut self.random, self.style))
        } else {
            self.suitable_call()
        };
        let answer = self.desk.answer(&call);
        self.just_set_up = answer == Answer::SetUp;
        (call, answer)
    }

    fn suitable_call(&mut self) -> Call {
        loop {
            let call = call(&mut self.random, self.style, &self.desk);
            if suits(self.style, &self.desk, &call) {
                return call;
            }
        }
    }

    /// The fields of a listing on the desk, with a window of any length.
    pub fn listed(&mut self) -> Request {
        listed(&mut self.random, self.style, &self.desk)
    }

    /// A booking of another number and its cancellation, which leave the desk as it is; none if the booking is refused.
    pub fn detour(&mut self) -> Option<[(Call, Answer); 2]> {
        let Call::Book(number, request) = self.suitable_call() else { return None };
        let mut desk = self.desk.clone();
        let calls = [Call::Book(number, request), Call::Cancel(number)];
        let [booked, cancelled] = calls.each_ref().map(|call| desk.answer(call));
        let [book, cancel] = calls;
        matches!(booked, Answer::Booked(_)).then_some([(book, booked), (cancel, cancelled)])
    }
}
