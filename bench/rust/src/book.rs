//! The orders in a BTreeMap. Its canonical bytes are key, total, displayed of each
//! order, rising, four bytes each; a change writes them all.

use crate::lent;
use std::collections::BTreeMap;

pub struct Book(BTreeMap<u32, (u32, u32)>);

impl Book {
    /// The number of orders; the bytes are written from the output's front on.
    fn write(&self, output: &mut [u8]) -> u32 {
        for ((key, order), place) in self.0.iter().zip(output.chunks_exact_mut(12)) {
            place[0..4].copy_from_slice(&key.to_be_bytes());
            place[4..8].copy_from_slice(&order.0.to_be_bytes());
            place[8..12].copy_from_slice(&order.1.to_be_bytes());
        }
        self.0.len() as u32
    }
}

#[no_mangle]
pub extern "C" fn book_new() -> *mut Book {
    Box::into_raw(Box::new(Book(BTreeMap::new())))
}

/// # Safety
/// The book is one of `book_new`, not yet freed.
#[no_mangle]
pub unsafe extern "C" fn book_free(book: *mut Book) {
    drop(Box::from_raw(book));
}

/// Adds or replaces an order.
///
/// # Safety
/// The book is one of `book_new`, not yet freed.
#[no_mangle]
pub unsafe extern "C" fn book_insert(book: *mut Book, key: u32, total: u32, displayed: u32) {
    (*book).0.insert(key, (total, displayed));
}

/// # Safety
/// The book is one of `book_new`, not yet freed.
#[no_mangle]
pub unsafe extern "C" fn book_cancel(book: *mut Book, key: u32) {
    (*book).0.remove(&key);
}

/// The total, and the displayed quantity where it is to go; 0 where there is no order.
///
/// # Safety
/// The book is one of `book_new`, not yet freed; `displayed` is lent.
#[no_mangle]
pub unsafe extern "C" fn book_lookup(book: *const Book, key: u32, displayed: *mut u32) -> u32 {
    let (total, shown) = (*book).0.get(&key).copied().unwrap_or((0, 0));
    *displayed = shown;
    total
}

/// Writes all orders and gives their number.
///
/// # Safety
/// The book is one of `book_new`, not yet freed; the output is lent.
#[no_mangle]
pub unsafe extern "C" fn book_write(book: *const Book, output: *mut u8, room: usize) -> u32 {
    (*book).write(lent(output, room))
}
