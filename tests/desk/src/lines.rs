//! The records of document 01 and what its program writes for an input of any bytes.

use crate::plain::{Answer, Call, Desk, Start};
use crate::{Link, Refused, Request, LINKS, MAX_MINUTE};

pub const LINK_BYTES: usize = 8;
pub const ORDER_BYTES: usize = 16;
/// A latest start of all ones, which means open.
pub const OPEN: u32 = 0x3FFF_FFFF;

/// The program's whole output.
pub fn output(input: &[u8]) -> String {
    let (mut desk, orders) = match opening(input) {
        Ok(opened) => opened,
        Err(refusal) => return format!("desk refused {refusal}\n"),
    };
    let mut text = format!("desk links {}\n", desk.links.len());
    for (place, piece) in orders.chunks(ORDER_BYTES).enumerate() {
        text += &line(place + 1, piece, &answer(&mut desk, piece));
    }
    text
}

/// The desk that the first bytes set up, and the bytes of the orders behind them. Refuses 12 for no byte, 1 for the count
/// of links, 12 for no guard or too few bytes, 11 for a bad record, 4 for the guard, 2 for a bad link.
pub fn opening(input: &[u8]) -> Result<(Desk, &[u8]), u32> {
    let (&count, rest) = input.split_first().ok_or(12u32)?;
    let count = count as usize;
    if count == 0 || count > LINKS {
        return Err(1);
    }
    let (&guard, rest) = rest.split_first().ok_or(12u32)?;
    if rest.len() < count * LINK_BYTES {
        return Err(12);
    }
    let (records, orders) = rest.split_at(count * LINK_BYTES);
    let links = records.chunks(LINK_BYTES).map(read_link).collect::<Result<Vec<Link>, u32>>()?;
    Ok((Desk::set_up(&links, guard as u32)?, orders))
}

/// The desk's answer to the bytes of an order.
pub fn answer(desk: &mut Desk, piece: &[u8]) -> Answer {
    match read_order(piece) {
        Ok(call) => desk.answer(&call),
        Err(refusal) => Answer::refused(refusal),
    }
}

/// The line of an answered order.
pub fn line(place: usize, piece: &[u8], answer: &Answer) -> String {
    let outcome = match (read_order(piece), answer) {
        (_, Answer::Refused(Refused { number: 8, at })) => format!("refused 8 at {at}"),
        (_, Answer::Refused(Refused { number, .. })) => format!("refused {number}"),
        (Ok(Call::Book(number, _)), Answer::Booked(start)) => format!("booked {number} {}", start_words(start)),
        (Ok(Call::Cancel(number)), Answer::Cancelled) => format!("cancelled {number}"),
        (Ok(Call::MoveClock(minute)), Answer::Moved) => format!("clock {minute}"),
        (Ok(Call::Offer(_)), Answer::Offered(start)) => format!("offer {}", start_words(start)),
        (order, answer) => panic!("{answer:?} is no answer to {order:?}"),
    };
    format!("{place} {outcome}\n")
}

fn start_words(start: &Start) -> String {
    let links: Vec<String> = start.path.iter().map(|link| link.to_string()).collect();
    format!("start {} links {}", start.minute, links.join(" "))
}

/// The bits of a record, taken from the front.
struct Bits(u128);

impl Bits {
    fn take(&mut self, width: u32) -> u32 {
        let field = (self.0 >> (128 - width)) as u32;
        self.0 <<= width;
        field
    }
}

/// A link's record. Refuses 12 for its length, 11 for a set bit behind its fields.
pub fn read_link(bytes: &[u8]) -> Result<Link, u32> {
    let record = <[u8; LINK_BYTES]>::try_from(bytes).map_err(|_| 12u32)?;
    let mut bits = Bits((u64::from_be_bytes(record) as u128) << 64);
    let link = Link { from: bits.take(5), to: bits.take(5), capacity: bits.take(20) };
    if bits.0 != 0 {
        return Err(11);
    }
    Ok(link)
}

/// An order's record, as the call it asks for. Refuses 12 for its length, 11 for its kind or an unused field that is set.
pub fn read_order(bytes: &[u8]) -> Result<Call, u32> {
    let record = <[u8; ORDER_BYTES]>::try_from(bytes).map_err(|_| 12u32)?;
    let mut bits = Bits(u128::from_be_bytes(record));
    let (kind, number) = (bits.take(4), bits.take(14));
    let mut request = Request {
        from: bits.take(5),
        to: bits.take(5),
        bandwidth: bits.take(20),
        duration: bits.take(20),
        earliest: bits.take(30),
        latest: bits.take(30),
    };
    let only_earliest = Request { earliest: request.earliest, ..Request::default() };
    let unused_are_zero = match kind {
        1 => true,
        2 => request == Request::default(),
        3 => number == 0 && request == only_earliest,
        4 => number == 0,
        _ => false,
    };
    if !unused_are_zero {
        return Err(11);
    }
    if request.latest == OPEN {
        request.latest = MAX_MINUTE;
    }
    Ok(match kind {
        1 => Call::Book(number, request),
        2 => Call::Cancel(number),
        3 => Call::MoveClock(request.earliest),
        _ => Call::Offer(request),
    })
}

/// A link's record, each field cut to its width.
pub fn link_bytes(link: &Link) -> [u8; LINK_BYTES] {
    let bits = packed(&[(link.from, 5), (link.to, 5), (link.capacity, 20), (0, 30), (0, 4)]);
    (bits as u64).to_be_bytes()
}

/// The record of a call that is an order, each field cut to its width.
pub fn order_bytes(call: &Call) -> [u8; ORDER_BYTES] {
    let (kind, number, request) = match call {
        Call::Book(number, request) => (1, *number, *request),
        Call::Cancel(number) => (2, *number, Request::default()),
        Call::MoveClock(minute) => (3, 0, Request { earliest: *minute, ..Request::default() }),
        Call::Offer(request) => (4, 0, *request),
        Call::SetUp { .. } | Call::List(..) | Call::Show { .. } | Call::Sold { .. } => {
            panic!("no order asks for {call:?}")
        }
    };
    let Request { from, to, bandwidth, duration, earliest, latest } = request;
    let ends_and_size = [(from, 5), (to, 5), (bandwidth, 20), (duration, 20)];
    let bits = packed(&[(kind, 4), (number, 14)]) << 110 | packed(&ends_and_size) << 60;
    (bits | packed(&[(earliest, 30), (latest, 30)])).to_be_bytes()
}

/// The fields with their widths, one behind the other.
fn packed(fields: &[(u32, u32)]) -> u128 {
    fields.iter().fold(0, |bits, &(field, width)| bits << width | field as u128 & ((1 << width) - 1))
}
