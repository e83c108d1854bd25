//! What the benchmark measures of Rust, as C functions: the calls of the reference,
//! a BTreeMap that is written out whole at each change, and made-up tables.
//! The C side, `bench/rust/peers.h`, says what each gives.

mod book;
mod calls;
mod tables;

/// A lent buffer.
///
/// # Safety
/// `length` bytes from `bytes` on are the caller's, who does not use them meanwhile.
unsafe fn lent<'a>(bytes: *mut u8, length: usize) -> &'a mut [u8] {
    std::slice::from_raw_parts_mut(bytes, length)
}
