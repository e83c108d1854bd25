//! The open-order table, written from the pages of documents 01 and 02 alone.
//!
//! It is there to be compared with, so it is readable before it is fast: every
//! edit reads all orders out of the table, changes the set, and lays the image
//! out again from nothing. No step relies on the bytes having been right before.
//!
//! Words in quotation marks and titles in brackets point into document 01; where
//! a request is named, into that request of document 02.

pub mod arrangements;
pub mod book;
pub mod calls;
pub mod image;
pub mod lists;
pub mod paths;
pub mod program;
pub mod samples;
pub mod seeks;
pub mod sizes;
