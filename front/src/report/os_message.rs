//! What the system says of a fault.

use std::io;

/// The system's message, without the number that Rust adds.
#[must_use]
pub fn os_message(fault: &io::Error) -> String {
    let text = fault.to_string();
    text.split(" (os error").next().unwrap_or_default().to_owned()
}
