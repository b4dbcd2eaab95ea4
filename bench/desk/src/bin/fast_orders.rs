//! Runs the orders of standard input on the unverified desk as it stands: each order checks the tables.

use desk_bench::shared::Start;
use desk_bench::{fast, lent, program};
use desk_tests::tables::Tables;
use desk_tests::{Link, Refused, Request};

struct Desk {
    links: Vec<Link>,
    tables: Tables,
}

impl program::Desk for Desk {
    fn set_up(links: Vec<Link>, guard: u32) -> Result<Desk, u32> {
        let mut tables = Tables::filled_with(0);
        fast::set_up(&links, &mut lent(&mut tables), guard)?;
        Ok(Desk { links, tables })
    }

    fn book(&mut self, number: u32, request: &Request) -> Result<Start, Refused> {
        fast::book(&self.links, &mut lent(&mut self.tables), number, request)
    }

    fn offer(&mut self, request: &Request) -> Result<Start, Refused> {
        fast::offer(&self.links, &lent(&mut self.tables), request)
    }

    fn cancel(&mut self, number: u32) -> Result<(), u32> {
        fast::cancel(&self.links, &mut lent(&mut self.tables), number)
    }

    fn move_clock(&mut self, minute: u32) -> Result<(), u32> {
        fast::move_clock(&self.links, &mut lent(&mut self.tables), minute)
    }
}

fn main() -> std::io::Result<()> {
    program::main::<Desk>()
}
