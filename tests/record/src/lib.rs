//! The exported record readers and writers, and independent ones to compare them with.

pub mod plain;

pub use support::{Link, Request};

#[repr(C)]
#[derive(Clone, Copy, Debug, PartialEq, Eq, Default)]
pub struct OrderRecord {
    pub refusal: u32,
    pub kind: u32,
    pub number: u32,
    pub request: Request,
    pub latest_open: u32,
}

#[repr(C)]
#[derive(Clone, Copy, Debug, PartialEq, Eq, Default)]
pub struct LinkRecord {
    pub refusal: u32,
    pub link: Link,
}

mod exported {
    use super::{Link, LinkRecord, OrderRecord, Request};
    extern "C" {
        pub fn gcr_read_order(bytes: *const u8, count: usize) -> OrderRecord;
        pub fn gcr_read_link(bytes: *const u8, count: usize) -> LinkRecord;
        pub fn gcr_write_order(
            bytes: *mut u8,
            count: usize,
            kind: u32,
            number: u32,
            request: Request,
            latest_open: u32,
        ) -> u32;
        pub fn gcr_write_link(bytes: *mut u8, count: usize, link: Link) -> u32;
    }
}

/// The library's reader of orders.
pub fn read_order(bytes: &[u8]) -> OrderRecord {
    unsafe { exported::gcr_read_order(bytes.as_ptr(), bytes.len()) }
}

/// The library's reader of links.
pub fn read_link(bytes: &[u8]) -> LinkRecord {
    unsafe { exported::gcr_read_link(bytes.as_ptr(), bytes.len()) }
}

/// The library's writer of orders. The refusal of the record is not looked at.
pub fn write_order(bytes: &mut [u8], order: &OrderRecord) -> u32 {
    let (kind, number, request, open) = (order.kind, order.number, order.request, order.latest_open);
    unsafe { exported::gcr_write_order(bytes.as_mut_ptr(), bytes.len(), kind, number, request, open) }
}

/// The library's writer of links.
pub fn write_link(bytes: &mut [u8], link: &Link) -> u32 {
    unsafe { exported::gcr_write_link(bytes.as_mut_ptr(), bytes.len(), *link) }
}
