//! The calls of the archive, through its C interface.

use crate::tickets::{Kind, Ticket};
use reference::calls::Reply;
use reference::lists::Order;
use reference::sizes::Sizes;

/// Something that answers the calls. Every buffer is lent as one that could be written, also where the call only reads, so that a
/// write there is seen.
pub trait Calls {
    /// A new history starts.
    fn restart(&mut self) {}
    fn make(&mut self, table: &mut [u8], sizes: &Sizes, seed: &mut [u8]) -> Reply;
    fn check(&mut self, table: &mut [u8]) -> Reply;
    fn enter_or_amend(&mut self, table: &mut [u8], ticket: &Ticket) -> Reply;
    fn cancel(&mut self, table: &mut [u8], key: u32) -> Reply;
    fn lookup(&mut self, table: &mut [u8], key: u32) -> Reply;
    fn descent(&mut self, table: &mut [u8], key: u32, path: &mut [u8]) -> Reply;
    fn span(&mut self, table: &mut [u8], lo: u32, hi: u32, output: &mut [u8]) -> Reply;
    fn seek(&mut self, table: &mut [u8], lo: u32, hi: u32, r: u32) -> Reply;
}

#[repr(C)]
struct RawReply {
    number: u32,
    key: u32,
    total: u32,
    displayed: u32,
    price: u32,
    count: u32,
}

impl From<RawReply> for Reply {
    fn from(raw: RawReply) -> Reply {
        Reply {
            number: raw.number,
            key: raw.key,
            total: raw.total,
            displayed: raw.displayed,
            price: raw.price,
            count: raw.count,
        }
    }
}

extern "C" {
    fn balluchaw_make(
        table: *mut u8,
        length: usize,
        version: u32,
        gamma: u32,
        nodes: u32,
        orders: u32,
        blocks: u32,
        seed: *const u8,
        seed_length: usize,
    ) -> u32;
    fn balluchaw_check(table: *const u8, length: usize) -> u32;
    fn balluchaw_enter(
        table: *mut u8,
        length: usize,
        key: u32,
        total: u32,
        displayed: u32,
        price: u32,
    ) -> u32;
    fn balluchaw_amend(
        table: *mut u8,
        length: usize,
        key: u32,
        total: u32,
        displayed: u32,
        price: u32,
    ) -> u32;
    fn balluchaw_cancel(table: *mut u8, length: usize, key: u32) -> u32;
    fn balluchaw_lookup(table: *const u8, length: usize, key: u32) -> RawReply;
    fn balluchaw_descent(
        table: *const u8,
        length: usize,
        key: u32,
        path: *mut u8,
        path_length: usize,
    ) -> RawReply;
    fn balluchaw_span(
        table: *const u8,
        length: usize,
        lo: u32,
        hi: u32,
        output: *mut u8,
        output_length: usize,
    ) -> RawReply;
    fn balluchaw_seek(table: *const u8, length: usize, lo: u32, hi: u32, r: u32) -> RawReply;
}

/// The archive. A buffer of length 0 goes in by turns as NULL and as some place.
#[derive(Default)]
pub struct Archive {
    calls: u64,
}

impl Archive {
    fn lend(&mut self, buffer: &mut [u8]) -> *mut u8 {
        self.calls += 1;
        if buffer.is_empty() && self.calls & 1 == 0 {
            std::ptr::null_mut()
        } else {
            buffer.as_mut_ptr()
        }
    }
}

// Each pointer below stands with the length of the slice that it came from, and no slice overlaps another: that is all the calls ask.
impl Calls for Archive {
    fn make(&mut self, table: &mut [u8], sizes: &Sizes, seed: &mut [u8]) -> Reply {
        let (at, seed_at) = (self.lend(table), self.lend(seed));
        let Sizes {
            version,
            gamma,
            nodes,
            orders,
            blocks,
        } = *sizes;
        Reply::refused(unsafe {
            balluchaw_make(
                at,
                table.len(),
                version,
                gamma,
                nodes,
                orders,
                blocks,
                seed_at,
                seed.len(),
            )
        })
    }

    fn check(&mut self, table: &mut [u8]) -> Reply {
        let at = self.lend(table);
        Reply::refused(unsafe { balluchaw_check(at, table.len()) })
    }

    fn enter_or_amend(&mut self, table: &mut [u8], ticket: &Ticket) -> Reply {
        let at = self.lend(table);
        let call = match ticket.kind {
            Kind::Enter => balluchaw_enter,
            Kind::Amend => balluchaw_amend,
        };
        let Order {
            total,
            displayed,
            price,
        } = ticket.new;
        Reply::refused(unsafe { call(at, table.len(), ticket.key, total, displayed, price) })
    }

    fn cancel(&mut self, table: &mut [u8], key: u32) -> Reply {
        let at = self.lend(table);
        Reply::refused(unsafe { balluchaw_cancel(at, table.len(), key) })
    }

    fn lookup(&mut self, table: &mut [u8], key: u32) -> Reply {
        let at = self.lend(table);
        unsafe { balluchaw_lookup(at, table.len(), key) }.into()
    }

    fn descent(&mut self, table: &mut [u8], key: u32, path: &mut [u8]) -> Reply {
        let (at, path_at) = (self.lend(table), self.lend(path));
        unsafe { balluchaw_descent(at, table.len(), key, path_at, path.len()) }.into()
    }

    fn span(&mut self, table: &mut [u8], lo: u32, hi: u32, output: &mut [u8]) -> Reply {
        let (at, output_at) = (self.lend(table), self.lend(output));
        unsafe { balluchaw_span(at, table.len(), lo, hi, output_at, output.len()) }.into()
    }

    fn seek(&mut self, table: &mut [u8], lo: u32, hi: u32, r: u32) -> Reply {
        let at = self.lend(table);
        unsafe { balluchaw_seek(at, table.len(), lo, hi, r) }.into()
    }
}
