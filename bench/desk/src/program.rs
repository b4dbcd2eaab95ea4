//! The program over an unverified desk: the orders of standard input, and the lines that document 01 prescribes.

use std::io::{Read, Write};

use desk_tests::lines::{read_link, read_order, LINK_BYTES, ORDER_BYTES};
use desk_tests::plain::Call;
use desk_tests::{Link, Refused, Request, LINKS};

use crate::shared::Start;

/// A desk that has been set up, as the program asks it.
pub trait Desk: Sized {
    fn set_up(links: Vec<Link>, guard: u32) -> Result<Self, u32>;
    fn book(&mut self, number: u32, request: &Request) -> Result<Start, Refused>;
    fn offer(&mut self, request: &Request) -> Result<Start, Refused>;
    fn cancel(&mut self, number: u32) -> Result<(), u32>;
    fn move_clock(&mut self, minute: u32) -> Result<(), u32>;
}

/// Runs the orders of standard input on a desk.
pub fn main<D: Desk>() -> std::io::Result<()> {
    let mut input = Vec::new();
    std::io::stdin().lock().read_to_end(&mut input)?;
    let mut out = Lines(Vec::new());
    run::<D>(&input, &mut out);
    std::io::stdout().lock().write_all(&out.0)
}

fn run<D: Desk>(input: &[u8], out: &mut Lines) {
    let opened = read_links(input).and_then(|(links, guard, orders)| {
        let count = links.len();
        Ok((count, D::set_up(links, guard)?, orders))
    });
    let (count, mut desk, orders) = match opened {
        Ok(opened) => opened,
        Err(refusal) => return out.line("desk refused", refusal),
    };
    out.line("desk links", count as u32);
    for (place, piece) in orders.chunks(ORDER_BYTES).enumerate() {
        out.number(place as u32 + 1);
        match order(&mut desk, piece, out) {
            Ok(()) => out.words("\n"),
            Err(Refused { number: 8, at }) => out.line(" refused 8 at", at),
            Err(Refused { number, .. }) => out.line(" refused", number),
        }
    }
}

/// The links, the guard and the bytes of the orders.
fn read_links(input: &[u8]) -> Result<(Vec<Link>, u32, &[u8]), u32> {
    let (&count, rest) = input.split_first().ok_or(12u32)?;
    if !(1..=LINKS).contains(&(count as usize)) {
        return Err(1);
    }
    let (&guard, rest) = rest.split_first().ok_or(12u32)?;
    let (records, orders) = rest.split_at_checked(count as usize * LINK_BYTES).ok_or(12u32)?;
    Ok((records.chunks(LINK_BYTES).map(read_link).collect::<Result<_, u32>>()?, guard as u32, orders))
}

/// Runs one order and writes what stands behind its place, unless it is refused.
fn order<D: Desk>(desk: &mut D, piece: &[u8], out: &mut Lines) -> Result<(), Refused> {
    match read_order(piece)? {
        Call::Book(number, request) => {
            let start = desk.book(number, &request)?;
            out.told(" booked", number);
            out.start(&start);
        }
        Call::Offer(request) => {
            let start = desk.offer(&request)?;
            out.words(" offer");
            out.start(&start);
        }
        Call::Cancel(number) => {
            desk.cancel(number)?;
            out.told(" cancelled", number);
        }
        Call::MoveClock(minute) => {
            desk.move_clock(minute)?;
            out.told(" clock", minute);
        }
        Call::SetUp { .. } | Call::List(..) | Call::Show { .. } | Call::Sold { .. } => {
            unreachable!("no order asks for this")
        }
    }
    Ok(())
}

/// The bytes that are written.
struct Lines(Vec<u8>);

impl Lines {
    fn words(&mut self, words: &str) {
        self.0.extend_from_slice(words.as_bytes());
    }

    fn number(&mut self, mut number: u32) {
        let mut digits = [0; 10];
        let mut first = digits.len();
        loop {
            first -= 1;
            digits[first] = b'0' + (number % 10) as u8;
            number /= 10;
            if number == 0 {
                break;
            }
        }
        self.0.extend_from_slice(&digits[first..]);
    }

    /// Words with a number behind them.
    fn told(&mut self, words: &str, number: u32) {
        self.words(words);
        self.words(" ");
        self.number(number);
    }

    fn line(&mut self, words: &str, number: u32) {
        self.told(words, number);
        self.words("\n");
    }

    fn start(&mut self, start: &Start) {
        self.told(" start", start.minute);
        self.words(" links");
        start.path[..start.count as usize].iter().for_each(|&link| self.told("", link));
    }
}
