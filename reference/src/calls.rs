//! The C functions of each subject, and safe wrappers of them for the comparison.

pub mod datagram;
pub mod metric;
pub mod packet;
pub mod sent;
pub mod store;
pub mod writer;

/// What a wrapper answers for a call that was refused and yet wrote an output.
pub const TOUCHED: u8 = 255;

/// `Ok(value)` for 0, else the number of the refusal; `before` is what the outputs held.
fn answer<T: PartialEq>(refused: u8, value: T, before: T) -> Result<T, u8> {
    match refused {
        0 => Ok(value),
        _ if value != before => Err(TOUCHED),
        _ => Err(refused),
    }
}
