//! Times the calls of the proved desk through its exported calls, beside both unverified ones, in one table: on the fullest desk,
//! on those that take longest to search, on a typical day, and on desks of growing size. Each call checks that the tables are
//! sound. A call that changes them is given a copy each time; what the copying alone takes is subtracted.

mod desks;

use std::cell::RefCell;
use std::hint::black_box;

use desk_bench::{lent, Calls, FAST, SETS};
use desk_tests::plain::Call;
use desk_tests::tables::{self, Tables};
use desk_tests::{exported, Link, LIST_FIGURES};
use timing::{least_of_batches, print_heading, print_ratios};

use desks::Work;

/// Runs a call on the proved desk.
fn run_proved(links: &[Link], tables: &mut Tables, call: &Call) {
    match call {
        Call::SetUp { links, guard } => drop(black_box(exported::set_up(links, tables, *guard))),
        Call::Book(number, request) => drop(black_box(exported::book(links, tables, *number, request))),
        Call::Offer(request) => drop(black_box(exported::offer(links, tables, request))),
        Call::List(_, request) => drop(black_box(exported::list(links, tables, request, &mut [0; LIST_FIGURES]))),
        Call::Cancel(number) => drop(black_box(exported::cancel(links, tables, *number))),
        Call::MoveClock(minute) => drop(black_box(exported::move_clock(links, tables, *minute))),
        Call::Show { link, minute } => drop(black_box(exported::show(links, tables, *link, *minute))),
        Call::Sold { link } => drop(black_box(exported::sold_work(links, tables, *link))),
    }
}

/// Runs a call on an unverified desk.
fn run(calls: &Calls, links: &[Link], tables: &mut Tables, call: &Call) {
    let tables = &mut lent(tables);
    match call {
        Call::SetUp { links, guard } => drop(black_box((calls.set_up)(links, tables, *guard))),
        Call::Book(number, request) => drop(black_box((calls.book)(links, tables, *number, request))),
        Call::Offer(request) => drop(black_box((calls.offer)(links, tables, request))),
        Call::List(_, request) => drop(black_box((calls.list)(links, tables, request, &mut [0; LIST_FIGURES]))),
        Call::Cancel(number) => drop(black_box((calls.cancel)(links, tables, *number))),
        Call::MoveClock(minute) => drop(black_box((calls.move_clock)(links, tables, *minute))),
        Call::Show { link, minute } => drop(black_box((calls.show)(links, tables, *link, *minute))),
        Call::Sold { link } => drop(black_box((calls.sold_work)(links, tables, *link))),
    }
}

/// Times a call, which each desk answers as the independent one does, and prints its row.
fn time(Work { what, desk, call }: &Work) {
    let (links, full) = (&desk.links, tables::of(desk));
    let expected = desk.clone().answer(call);
    assert_eq!(exported::answer(links, &mut full.clone(), call), expected, "{what}");
    for calls in [FAST, SETS] {
        assert_eq!(calls.answer(links, &mut full.clone(), call), expected, "{what}");
    }
    let changes = matches!(call, Call::Book(..) | Call::Cancel(_) | Call::MoveClock(_));
    let proved = |tables: &mut Tables| run_proved(links, tables, call);
    let unverified = |tables: &mut Tables| run(&FAST, links, tables, call);
    let same_algorithms = |tables: &mut Tables| run(&SETS, links, tables, call);
    let copying = |_: &mut Tables| ();
    let works: [&dyn Fn(&mut Tables); 4] = [&proved, &unverified, &same_algorithms, &copying];
    // All meet the same tables, wherever in memory they lie.
    let tables = RefCell::new(full.clone());
    let mut ways = works.map(|work| {
        let (full, tables) = (&full, &tables);
        move || {
            let tables = &mut *tables.borrow_mut();
            if changes {
                tables.clone_from(full);
            }
            work(black_box(tables));
        }
    });
    let times = least_of_batches(&mut ways);
    print_ratios(what, [0, 1, 2].map(|way| (times[way] - times[3]) / 1e3));
}

fn main() {
    print_heading("microseconds");
    for (what, works) in [
        ("the fullest desk", desks::fullest()),
        ("a line of 32 nodes", desks::long_line()),
        ("a typical day", desks::typical_day()),
        ("growth", desks::growth()),
    ] {
        println!("{what}");
        works.iter().for_each(time);
    }
}
