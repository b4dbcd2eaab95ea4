//! Runs the orders of standard input on the unverified desk by other algorithms: the tables stay with it, so no order checks
//! them, and its net and number of rows are kept.

use desk_bench::sets::{on_sound, set_up, Net};
use desk_bench::shared::Start;
use desk_bench::{lent, program};
use desk_tests::tables::Tables;
use desk_tests::{Link, Refused, Request};

struct Desk {
    net: Net,
    tables: Tables,
    rows: usize,
}

impl program::Desk for Desk {
    fn set_up(links: Vec<Link>, guard: u32) -> Result<Desk, u32> {
        let mut tables = Tables::filled_with(0);
        set_up(&links, &mut lent(&mut tables), guard)?;
        Ok(Desk { net: Net::new(&links), tables, rows: 1 })
    }

    fn book(&mut self, number: u32, request: &Request) -> Result<Start, Refused> {
        on_sound::book(&self.net, &mut lent(&mut self.tables), &mut self.rows, number, request)
    }

    fn offer(&mut self, request: &Request) -> Result<Start, Refused> {
        on_sound::offer(&self.net, &lent(&mut self.tables), self.rows, request)
    }

    fn cancel(&mut self, number: u32) -> Result<(), u32> {
        on_sound::cancel(&mut lent(&mut self.tables), &mut self.rows, number)
    }

    fn move_clock(&mut self, minute: u32) -> Result<(), u32> {
        on_sound::move_clock(&mut lent(&mut self.tables), &mut self.rows, minute)
    }
}

fn main() -> std::io::Result<()> {
    program::main::<Desk>()
}
