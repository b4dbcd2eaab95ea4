//! Readers and writers of orders and links, made from documents 01 and 02 alone and not from the library.

use crate::{Link, LinkRecord, OrderRecord, Request};

const OPEN: u32 = (1 << 30) - 1;
const LAST_MINUTE: u32 = 1_000_000_000;

pub fn read_order(bytes: &[u8]) -> OrderRecord {
    let Ok(sixteen) = <[u8; 16]>::try_from(bytes) else {
        return OrderRecord { refusal: 12, ..OrderRecord::default() };
    };
    let bits = u128::from_be_bytes(sixteen);
    let field = |behind: u32, width: u32| ((bits >> behind) & ((1 << width) - 1)) as u32;
    let (kind, number, from, to) = (field(124, 4), field(110, 14), field(105, 5), field(100, 5));
    let (bandwidth, duration, earliest, latest) = (field(80, 20), field(60, 20), field(30, 30), field(0, 30));
    let unused = match kind {
        1 => 0,
        2 => from | to | bandwidth | duration | earliest | latest,
        3 => number | from | to | bandwidth | duration | latest,
        4 => number,
        _ => 1,
    };
    if unused != 0 {
        return OrderRecord { refusal: 11, ..OrderRecord::default() };
    }
    let open = latest == OPEN;
    OrderRecord {
        refusal: 0,
        kind,
        number,
        request: Request { from, to, bandwidth, duration, earliest, latest: if open { LAST_MINUTE } else { latest } },
        latest_open: open as u32,
    }
}

pub fn read_link(bytes: &[u8]) -> LinkRecord {
    let Ok(eight) = <[u8; 8]>::try_from(bytes) else {
        return LinkRecord { refusal: 12, ..LinkRecord::default() };
    };
    let bits = u64::from_be_bytes(eight);
    if bits & ((1 << 34) - 1) != 0 {
        return LinkRecord { refusal: 11, ..LinkRecord::default() };
    }
    let (from, to, capacity) = ((bits >> 59) as u32, (bits >> 54 & 31) as u32, (bits >> 34 & 0xFFFFF) as u32);
    LinkRecord { refusal: 0, link: Link { from, to, capacity } }
}

/// What the writer refuses and writes; the piece is left as it is where there is a refusal.
pub fn write_order(bytes: &mut [u8], order: &OrderRecord) -> u32 {
    let Ok(sixteen) = <&mut [u8; 16]>::try_from(bytes) else {
        return 12;
    };
    let r = &order.request;
    let open = order.latest_open != 0;
    let latest = if open { OPEN } else { r.latest };
    let filled = [order.number, r.from, r.to, r.bandwidth, r.duration, r.earliest, latest].map(|figure| figure != 0);
    let allowed = match order.kind {
        1 => [true; 7],
        2 => [true, false, false, false, false, false, false],
        3 => [false, false, false, false, false, true, false],
        4 => [false, true, true, true, true, true, true],
        _ => return 11,
    };
    if filled.iter().zip(allowed).any(|(&filled, allowed)| filled && !allowed) {
        return 11;
    }
    let widths = [4, 14, 5, 5, 20, 20, 30, 30];
    let figures = [order.kind, order.number, r.from, r.to, r.bandwidth, r.duration, r.earliest, latest];
    if figures.iter().zip(widths).any(|(figure, width)| figure >> width != 0) || (!open && latest == OPEN) {
        return 4;
    }
    let bits = figures.iter().zip(widths).fold(0u128, |bits, (&figure, width)| bits << width | figure as u128);
    *sixteen = bits.to_be_bytes();
    0
}

pub fn write_link(bytes: &mut [u8], link: &Link) -> u32 {
    let Ok(eight) = <&mut [u8; 8]>::try_from(bytes) else {
        return 12;
    };
    if link.from > 31 || link.to > 31 || link.capacity > 0xFFFFF {
        return 4;
    }
    *eight = ((link.from as u64) << 59 | (link.to as u64) << 54 | (link.capacity as u64) << 34).to_be_bytes();
    0
}
