//! Where refusals 8 break off, and how often other rules would have named another minute.

use crate::plain::{best_path, Answer, Call, Desk};
use crate::{Refused, Request};

/// How often each of these has occurred among refusals 8.
#[derive(Default)]
pub struct Counts {
    /// The minute is low; is later, but of the duration; is of the guard.
    pub at_low: u32,
    pub in_span: u32,
    pub in_guard: u32,
    /// The minute is 0, which is printed too.
    pub at_0: u32,
    /// No chain of links leads to the destination.
    pub no_chain: u32,
    /// A link that lacked the bandwidth before has it again in this minute; all links of some path have it in this minute.
    pub link_free_again: u32,
    pub path_free_again: u32,
    /// The path that is the best in minute low breaks off before, so that another one lasts longer.
    pub by_another_path: u32,
    /// A later start of the window breaks off later.
    pub later_start_lasts: u32,
}

impl Counts {
    /// Adds a call on a desk, with its answer.
    pub fn add(&mut self, desk: &Desk, call: &Call, answer: &Answer) {
        let (Call::Book(_, request) | Call::Offer(request)) = call else { return };
        let Answer::Refused(Refused { number: 8, at }) = answer else { return };
        self.add_minute(desk, request, *at);
    }

    fn add_minute(&mut self, desk: &Desk, request: &Request, at: u32) {
        let (low, latest) = (desk.low(request), request.latest);
        let end = low + request.duration;
        let path = |links: u64| best_path(&desk.links, links, request.from, request.to);
        // What is left changes only at events.
        let events = desk.events();
        let before = events.iter().copied().filter(|&event| low < event && event < at).chain([low]);
        let lasting = before.fold(u64::MAX, |links, minute| links & having(desk, request, minute));
        let ends_before = |path: Vec<u32>| low < at && path.iter().any(|&link| lasting >> link & 1 == 0);
        let mut later = events.iter().copied().filter(|&event| low.max(at) <= event && low < event && event <= latest);
        self.at_low += (at == low) as u32;
        self.in_span += (low < at && at < end) as u32;
        self.in_guard += (end <= at) as u32;
        self.at_0 += (at == 0) as u32;
        self.no_chain += path(u64::MAX).is_none() as u32;
        self.link_free_again += (low < at && having(desk, request, at) & !lasting != 0) as u32;
        self.path_free_again += path(having(desk, request, at)).is_some() as u32;
        self.by_another_path += path(having(desk, request, low)).is_some_and(ends_before) as u32;
        self.later_start_lasts += later.any(|start| path(having(desk, request, start)).is_some()) as u32;
    }

    /// The counts, for print.
    pub fn told(&self) -> String {
        format!(
            "refused 8: {} break off at low, {} later in the duration, {} in the guard, {} at minute 0, {} without a chain; {} \
             where a link is free again, {} where a path is; {} by another path than the best of low, {} before a later start \
             of the window",
            self.at_low,
            self.in_span,
            self.in_guard,
            self.at_0,
            self.no_chain,
            self.link_free_again,
            self.path_free_again,
            self.by_another_path,
            self.later_start_lasts
        )
    }

    /// The same, each with the least that will do.
    pub fn enough(&self) -> [(&'static str, u32, u32); 9] {
        [
            ("broken off at low", self.at_low, 5_000),
            ("broken off later, in the duration", self.in_span, 2_000),
            ("broken off in the guard's minutes", self.in_guard, 1_000),
            ("broken off at minute 0", self.at_0, 100),
            ("broken off without a chain", self.no_chain, 1_000),
            ("broken off where a link is free again", self.link_free_again, 400),
            ("broken off where a path is free again", self.path_free_again, 150),
            ("broken off by another path than the best of low", self.by_another_path, 150),
            ("broken off before a later start of the window", self.later_start_lasts, 200),
        ]
    }
}

/// The links that have the bandwidth in a minute.
fn having(desk: &Desk, request: &Request, minute: u32) -> u64 {
    let enough = |&left: &i64| request.bandwidth as i64 <= left;
    desk.residuals(minute).iter().enumerate().fold(0, |links, (link, left)| links | (enough(left) as u64) << link)
}
