//! The exported writer of lines, and an independent one to compare it with.

/// The bytes of the longest line.
pub const MAX_LINE: usize = 403;

/// The most links of a path.
pub const PATH_LINKS: usize = 31;

/// What a line says.
#[derive(Clone, Copy, Debug, PartialEq, Eq)]
pub enum Report {
    DeskLinks(u32),
    DeskRefused(u32),
    Booked(u32, u32),
    Offered(u32),
    Cancelled(u32),
    Clock(u32),
    Refused(u32),
    /// With the minute at which every path breaks off.
    RefusedAt(u32, u32),
}

/// The first number that is no kind.
pub const NO_KIND: u32 = 8;

mod exported {
    /// A minute, as the library passes it.
    #[repr(C)]
    pub struct Minute(pub u32);

    extern "C" {
        pub fn gcr_write_line(
            out: *mut u8,
            size: usize,
            at: usize,
            place: u64,
            kind: u32,
            figure: u32,
            minute: Minute,
            links: *const u32,
            count: usize,
        ) -> usize;
    }
}

/// The library's writer: it answers the index behind the line, or `at` where there is no room.
pub fn write_line(out: &mut [u8], at: usize, place: u64, report: Report, links: &[u32]) -> usize {
    let (kind, figure, minute) = match report {
        Report::DeskLinks(count) => (0, count, 0),
        Report::DeskRefused(refusal) => (1, refusal, 0),
        Report::Booked(number, start) => (2, number, start),
        Report::Offered(start) => (3, 0, start),
        Report::Cancelled(number) => (4, number, 0),
        Report::Clock(minute) => (5, 0, minute),
        Report::Refused(refusal) => (6, refusal, 0),
        Report::RefusedAt(refusal, minute) => (7, refusal, minute),
    };
    write_kind(out, at, place, (kind, figure, minute), links)
}

/// The same by the number of a kind, with its figure and its minute.
pub fn write_kind(out: &mut [u8], at: usize, place: u64, report: (u32, u32, u32), links: &[u32]) -> usize {
    let (kind, figure, minute) = report;
    unsafe {
        exported::gcr_write_line(
            out.as_mut_ptr(),
            out.len(),
            at,
            place,
            kind,
            figure,
            exported::Minute(minute),
            links.as_ptr(),
            links.len(),
        )
    }
}

/// The line as documents 01 and 02 print it.
pub fn plain_line(place: u64, report: Report, links: &[u32]) -> String {
    let numbers: Vec<String> = links.iter().map(|link| format!(" {link}")).collect();
    let route = numbers.concat();
    match report {
        Report::DeskLinks(count) => format!("desk links {count}\n"),
        Report::DeskRefused(refusal) => format!("desk refused {refusal}\n"),
        Report::Booked(number, start) => format!("{place} booked {number} start {start} links{route}\n"),
        Report::Offered(start) => format!("{place} offer start {start} links{route}\n"),
        Report::Cancelled(number) => format!("{place} cancelled {number}\n"),
        Report::Clock(minute) => format!("{place} clock {minute}\n"),
        Report::Refused(refusal) => format!("{place} refused {refusal}\n"),
        Report::RefusedAt(refusal, minute) => format!("{place} refused {refusal} at {minute}\n"),
    }
}
