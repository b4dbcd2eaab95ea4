//! The edges of the rule, one by one.

use choice_tests::desk::{Booking, Desk, Link};
use choice_tests::{choose_start, minutes, ChoiceRecord, Question, LAST_MINUTE, LONGEST};

/// Three links, 0 to 1, 1 to 2 and 0 to 2, with 10, 10 and 4 Mb/s, as in document 01's session.
fn desk(clock: u32, bookings: Vec<Booking>) -> Desk {
    let link = |from, to, capacity| Link { from, to, capacity };
    Desk { clock, links: vec![link(0, 1, 10), link(1, 2, 10), link(0, 2, 4)], bookings }
}

fn booking(start: u32, end: u32, bandwidth: u32, links: &[usize]) -> Booking {
    Booking { start, end, bandwidth, links: links.to_vec() }
}

fn ask(bandwidth: u32, duration: u32, low: u32, latest: u32) -> Question {
    Question { source: 0, destination: 2, bandwidth, duration, low, latest }
}

#[track_caller]
fn expect(desk: &Desk, q: Question, answer: ChoiceRecord) {
    assert_eq!(choose_start(&desk.ends(), &desk.tables(), &q), answer);
    assert_eq!(minutes::choose(desk, &q), answer);
}

#[test]
fn low_that_is_no_event() {
    expect(&desk(0, vec![]), ask(4, 10, 7, 7), ChoiceRecord::start(7, &[2]));
}

#[test]
fn fewest_links_before_lower_numbers() {
    expect(&desk(0, vec![]), ask(5, 10, 0, 0), ChoiceRecord::start(0, &[0, 1]));
    expect(&desk(0, vec![]), ask(4, 10, 0, 0), ChoiceRecord::start(0, &[2]));
}

#[test]
fn bandwidth_equal_to_the_free_figure() {
    let held = desk(0, vec![booking(0, 5, 7, &[0, 1])]);
    expect(&held, ask(10, 3, 5, 5), ChoiceRecord::start(5, &[0, 1]));
    expect(&held, ask(11, 3, 5, 5), ChoiceRecord::refused(5));
    expect(&held, ask(10, 3, 0, 4), ChoiceRecord::refused(0));
}

#[test]
fn latest_start_is_counted() {
    let held = desk(0, vec![booking(0, 5, 7, &[0, 1])]);
    expect(&held, ask(5, 4, 2, 5), ChoiceRecord::start(5, &[0, 1]));
    expect(&held, ask(5, 4, 2, 4), ChoiceRecord::refused(2));
}

#[test]
fn free_at_some_minutes_only_is_not_usable() {
    // link 0 is free up to minute 6, link 1 from minute 6 on: never both throughout before 12
    let held = desk(0, vec![booking(6, 12, 7, &[0]), booking(0, 6, 7, &[1])]);
    expect(&held, ask(5, 3, 0, 11), ChoiceRecord::refused(0));
    expect(&held, ask(5, 3, 0, 12), ChoiceRecord::start(12, &[0, 1]));
}

#[test]
fn span_ends_before_the_next_booking() {
    let held = desk(0, vec![booking(10, 20, 7, &[0])]);
    expect(&held, ask(5, 10, 0, 0), ChoiceRecord::start(0, &[0, 1]));
    expect(&held, ask(5, 11, 0, 0), ChoiceRecord::refused(10));
}

#[test]
fn the_first_event_is_tried() {
    let held = desk(3, vec![booking(3, 8, 7, &[0]), booking(20, 30, 1, &[2])]);
    expect(&held, ask(5, 4, 3, 100), ChoiceRecord::start(8, &[0, 1]));
}

#[test]
fn break_off_at_the_first_missing_minute() {
    let held = desk(0, vec![booking(10, 20, 7, &[0]), booking(30, 40, 7, &[1])]);
    expect(&held, ask(5, 11, 0, 0), ChoiceRecord::refused(10));
    expect(&held, ask(5, 50, 3, 9), ChoiceRecord::refused(10));
    expect(&held, ask(5, 50, 10, 12), ChoiceRecord::refused(10));
    expect(&held, ask(5, 50, 20, 29), ChoiceRecord::refused(30));
    expect(&held, ask(5, 11, 20, 29), ChoiceRecord::refused(30));
    expect(&held, ask(11, 50, 4, 9), ChoiceRecord::refused(4));
}

#[test]
fn break_off_of_the_path_that_lasts_longest() {
    // link 2 is full from minute 3 on, link 1 from 8 on
    let held = desk(0, vec![booking(3, 20, 4, &[2]), booking(8, 20, 7, &[1])]);
    expect(&held, ask(4, 8, 0, 0), ChoiceRecord::start(0, &[0, 1]));
    expect(&held, ask(4, 9, 0, 0), ChoiceRecord::refused(8));
    expect(&held, ask(4, 9, 3, 19), ChoiceRecord::refused(8));
    // link 2 is free again when the other path breaks off
    let in_turn = desk(0, vec![booking(3, 8, 4, &[2]), booking(8, 20, 7, &[1])]);
    expect(&in_turn, ask(4, 9, 0, 7), ChoiceRecord::refused(8));
    expect(&in_turn, ask(4, 9, 0, 8), ChoiceRecord::start(8, &[2]));
}

#[test]
fn empty_window_and_last_minutes() {
    // a path lasts through low's span, or breaks off there
    expect(&desk(0, vec![]), ask(1, 1, 6, 5), ChoiceRecord::refused(7));
    expect(&desk(0, vec![]), ask(4, LONGEST, LAST_MINUTE, 0), ChoiceRecord::refused(1_000_525_600));
    expect(&desk(0, vec![booking(9, 20, 7, &[0])]), ask(5, 10, 6, 5), ChoiceRecord::refused(9));
    let q = ask(4, LONGEST, LAST_MINUTE, LAST_MINUTE);
    expect(&desk(LAST_MINUTE, vec![]), q, ChoiceRecord::start(LAST_MINUTE, &[2]));
}

#[test]
fn no_chain_and_no_link() {
    let q = Question { source: 2, destination: 0, ..ask(1, 1, 0, 50) };
    expect(&desk(0, vec![]), q, ChoiceRecord::refused(0));
    expect(&desk(7, vec![]), Question { low: 9, ..q }, ChoiceRecord::refused(9));
    let none = Desk { clock: 0, links: vec![], bookings: vec![] };
    expect(&none, ask(1, 1, 0, 50), ChoiceRecord::refused(0));
}
