//! Plain fast Rust on the product's layout, behind the same C boundary: what the product's speed
//! is measured against. `compare --baseline` shows that it does the same.

pub mod ccfbline;
pub mod datagram;
pub mod metric;
pub mod packet;
pub mod sent;
pub mod store;
pub mod writer;
