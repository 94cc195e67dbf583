//! Messages for people and editors: one type of message, as text or as JSON; faults and refusals of `ldi` as sentences,
//! with places in the script and in sources.

mod diagnostic;
mod fault_line;
mod faults;
mod json;
pub mod link_map;
mod names;
mod os_message;
mod outline;
mod plain;
mod refusals;
mod relocation_names;
mod render;
pub mod rules;
mod slim_lto;
pub mod source_lines;

pub use diagnostic::{Diagnostic, Excerpt, Severity};
pub use fault_line::{count_lines, fault_lines, FaultLine, Value};
pub use faults::{fault_diagnostics, Inputs};
pub use json::{json_string, JsonObject};
pub use os_message::os_message;
pub use plain::plain;
pub use refusals::{first_of, refusals_of_object, refusals_of_script, RefusedInput};
pub use render::{has_colours, Style};

#[cfg(test)]
mod tests;
