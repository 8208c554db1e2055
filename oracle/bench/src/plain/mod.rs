//! The yardsticks of the decoding: unwind bytes into the words of a body in plain Rust, with the port's checks and room.

pub mod unwind_codes;
pub mod unwind_info;
