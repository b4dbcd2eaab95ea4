//! A plain desk with the same checks and tables, by other algorithms: soundness in one pass, masks of links and path search on sets
//! of bits, changes made in place. What has no other algorithm is `shared` with the desk as it stands, set-up too.

mod net;
pub mod on_sound;
mod one_pass;
mod trial;

use desk_tests::{Link, Refused, Request};

use crate::shared::{check_sizes, check_sizes_and_list, shown, sold, Start, Tables};

pub use crate::fast::set_up;
pub use net::Net;

/// Refuses 1, 3, 4, 5, 6, 7, 8.
pub fn book(links: &[Link], tables: &mut Tables, number: u32, request: &Request) -> Result<Start, Refused> {
    let mut rows = check_tables(links, tables)?;
    on_sound::book(&Net::new(links), tables, &mut rows, number, request)
}

/// Refuses 1, 3, 4, 5, 8.
pub fn offer(links: &[Link], tables: &Tables, request: &Request) -> Result<Start, Refused> {
    let rows = check_tables(links, tables)?;
    on_sound::offer(&Net::new(links), tables, rows, request)
}

/// Writes every start there is as ranges into the list, and answers their number. Refuses 1, 13, 3, 4, 5.
pub fn list(links: &[Link], tables: &Tables, request: &Request, list: &mut [u32]) -> Result<u32, u32> {
    check_sizes_and_list(links, tables, list)?;
    let rows = one_pass::sound(links, tables).ok_or(3u32)?;
    on_sound::list(&Net::new(links), tables, rows, request, list)
}

/// Refuses 1, 3, 4, 9.
pub fn cancel(links: &[Link], tables: &mut Tables, number: u32) -> Result<(), u32> {
    let mut rows = check_tables(links, tables)?;
    on_sound::cancel(tables, &mut rows, number)
}

/// Refuses 1, 3, 4, 10.
pub fn move_clock(links: &[Link], tables: &mut Tables, minute: u32) -> Result<(), u32> {
    let mut rows = check_tables(links, tables)?;
    on_sound::move_clock(tables, &mut rows, minute)
}

/// Refuses 1, 3, 4.
pub fn show(links: &[Link], tables: &Tables, link: u32, minute: u32) -> Result<u32, u32> {
    let rows = check_tables(links, tables)?;
    shown(links, tables, rows, link, minute)
}

/// Refuses 1, 3, 4.
pub fn sold_work(links: &[Link], tables: &Tables, link: u32) -> Result<u64, u32> {
    check_tables(links, tables)?;
    sold(links, tables, link)
}

/// Checks sizes and soundness, and answers the number of rows.
fn check_tables(links: &[Link], tables: &Tables) -> Result<usize, u32> {
    check_sizes(links, tables)?;
    one_pass::sound(links, tables).ok_or(3)
}
