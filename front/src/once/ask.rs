//! What the arguments ask for besides a link: version, help, formats, and with `--verbose` the script.

use std::io::Write;

use bstr::ByteSlice;

use crate::command::{help, Ask, Command};
use crate::plan::{own_version, Environment, Scripts};
use crate::stdio;
use crate::stdio::Stream;

/// The release of GNU ld whose command line this is; the last word of the version, which builds ask for.
const FOLLOWS: &str = "2.40";

/// Prints what was asked for.
pub(super) fn print(command: &Command, scripts: Option<&Scripts>, environment: &Environment) {
    let mut out = Vec::new();
    // Memory takes all that is written.
    let _ = write(&mut out, command, scripts, environment);
    stdio::print(Stream::Output, &out);
}

fn write(
    out: &mut dyn Write,
    command: &Command,
    scripts: Option<&Scripts>,
    environment: &Environment,
) -> std::io::Result<()> {
    for ask in &command.asks {
        match ask {
            Ask::Version => writeln!(out, "{}", version(environment))?,
            Ask::VersionAndEmulations => {
                writeln!(out, "{}\n  Supported emulations:\n   elf_x86_64", version(environment))?;
            }
            Ask::Help => write!(out, "{}", help())?,
            Ask::OutputFormat => writeln!(out, "elf64-x86-64")?,
            Ask::Sysroot => writeln!(out, "{}", command.sysroot.display())?,
        }
    }
    if let (true, Some(scripts)) = (command.is_verbose, scripts) {
        let kind = if scripts.is_own { "external" } else { "internal" };
        let line = "=".repeat(50);
        writeln!(out, "{}\nusing {kind} linker script:\n{line}", version(environment))?;
        out.write_all(scripts.text.trim_end_with(char::is_whitespace))?;
        writeln!(out, "\n\n{line}")?;
    }
    Ok(())
}

/// `GNU ld (ldi VERSION) RELEASE`.
pub(super) fn version(environment: &Environment) -> String {
    format!("GNU ld (ldi {}) {FOLLOWS}", own_version(environment))
}
