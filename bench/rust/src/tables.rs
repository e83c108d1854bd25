//! Made-up tables, built by the reference.

use reference::image::{held, image};
use reference::samples::{sample, some_price, Shape, Xorshift};
use reference::sizes::Sizes;

/// A table of version 1 with `held` orders; `shape` as in `peers.h`. Its length goes
/// to `length`.
///
/// # Safety
/// `length` is lent.
#[no_mangle]
pub unsafe extern "C" fn sample_new(
    gamma: u32,
    nodes: u32,
    orders: u32,
    held: u32,
    percent: u32,
    shape: u32,
    length: *mut usize,
) -> *mut u8 {
    let shapes = [Shape::Random, Shape::Flat, Shape::Tall, Shape::OneHome];
    let sizes = Sizes {
        version: 1,
        gamma,
        nodes,
        orders,
        blocks: 0,
    };
    given(
        sample(&sizes, held, percent, shapes[shape as usize]),
        length,
    )
}

/// The table of version 2 that is made with the sizes and seed of one of version 1
/// and has its orders, each with a made-up price. Its length goes to `new_length`.
///
/// # Safety
/// The table and `new_length` are lent.
#[no_mangle]
pub unsafe extern "C" fn priced_new(
    table: *const u8,
    length: usize,
    new_length: *mut usize,
) -> *mut u8 {
    let table = std::slice::from_raw_parts(table, length);
    let (mut made, mut orders) = held(table).expect("a table");
    let mut generator = Xorshift::new(1);
    made.sizes.version = 2;
    for order in orders.values_mut() {
        order.price = some_price(&mut generator);
    }
    let priced = image(&made, &orders);
    given(priced.expect("as many chunks as before"), new_length)
}

/// Bytes for the caller, who gives them back by `sample_free`.
unsafe fn given(bytes: Vec<u8>, length: *mut usize) -> *mut u8 {
    *length = bytes.len();
    Box::into_raw(bytes.into_boxed_slice()).cast()
}

/// # Safety
/// The table is one of `sample_new` or `priced_new` with its length, not yet freed.
#[no_mangle]
pub unsafe extern "C" fn sample_free(table: *mut u8, length: usize) {
    drop(Box::from_raw(std::ptr::slice_from_raw_parts_mut(
        table, length,
    )));
}
