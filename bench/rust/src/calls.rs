//! The reference's calls on byte buffers, of version 1: an order's price is 0.

use crate::lent;
use reference::calls;
use reference::lists::Order;

/// # Safety
/// The table is lent.
#[no_mangle]
pub unsafe extern "C" fn reference_check(table: *const u8, length: usize) -> u32 {
    calls::check(std::slice::from_raw_parts(table, length)).number
}

/// # Safety
/// The table is lent.
#[no_mangle]
pub unsafe extern "C" fn reference_enter(
    table: *mut u8,
    length: usize,
    key: u32,
    total: u32,
    displayed: u32,
) -> u32 {
    let order = Order {
        total,
        displayed,
        price: 0,
    };
    calls::enter(lent(table, length), key, order).number
}

/// # Safety
/// The table is lent.
#[no_mangle]
pub unsafe extern "C" fn reference_cancel(table: *mut u8, length: usize, key: u32) -> u32 {
    calls::cancel(lent(table, length), key).number
}

/// The total, or 0 where there is none.
///
/// # Safety
/// The table is lent.
#[no_mangle]
pub unsafe extern "C" fn reference_lookup(table: *const u8, length: usize, key: u32) -> u32 {
    calls::lookup(std::slice::from_raw_parts(table, length), key).total
}

/// How many orders are written, or 0.
///
/// # Safety
/// Table and output are lent.
#[no_mangle]
pub unsafe extern "C" fn reference_span(
    table: *const u8,
    length: usize,
    lo: u32,
    hi: u32,
    output: *mut u8,
    room: usize,
) -> u32 {
    let table = std::slice::from_raw_parts(table, length);
    calls::span(table, lo, hi, lent(output, room)).count
}
