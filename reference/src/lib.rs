//! A second CCFB (RFC 8888) program, naive and written from the rules alone, to compare the
//! product with: it keeps every accepted arrival, and every sent number with all that was reported
//! of it, under its full number, handles fields as strings of bits and words, and finds the fewest
//! packets by search.
//!
//! `compare` compares it with libccfb.a, and `baseline` is plain fast Rust on the product's own
//! layout, which `bench` measures the product against.

pub mod arrival_file;
pub mod baseline;
pub mod bench;
pub mod calls;
pub mod ccfbline;
pub mod compare;
pub mod cutting;
pub mod datagram;
pub mod ffi;
pub mod lent;
pub mod metric;
pub mod packet;
pub mod program;
pub mod refusal;
pub mod rng;
pub mod sent;
pub mod sent_words;
pub mod store;
pub mod writer;
