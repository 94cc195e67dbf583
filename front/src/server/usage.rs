//! The memory and the processor time that processes use, from `/proc`.

use std::ffi::OsString;
use std::fs;
use std::path::Path;

/// The bytes that LDI_SERVER_MEMORY names, with K, M or G; else a quarter of the machine's memory.
pub(super) fn memory_limit(text: &OsString) -> u64 {
    named(&text.to_string_lossy()).unwrap_or_else(|| machine_memory() / 4)
}

fn named(text: &str) -> Option<u64> {
    let shift = match text.chars().last()?.to_ascii_uppercase() {
        'K' => 10,
        'M' => 20,
        'G' => 30,
        _ => return text.parse().ok(),
    };
    let number: u64 = text.get(..text.len() - 1)?.parse().ok()?;
    number.checked_mul(1 << shift)
}

fn machine_memory() -> u64 {
    let text = fs::read_to_string("/proc/meminfo").unwrap_or_default();
    let words = text.lines().find_map(|line| line.strip_prefix("MemTotal:"));
    let kilobytes = words.and_then(|words| words.split_whitespace().next()?.parse::<u64>().ok());
    kilobytes.map_or(u64::MAX, |count| count << 10)
}

/// The bytes of memory that a process holds.
pub(super) fn resident(process: u32) -> u64 {
    let text = fs::read_to_string(format!("/proc/{process}/statm")).unwrap_or_default();
    let pages: u64 = text.split_whitespace().nth(1).and_then(|word| word.parse().ok()).unwrap_or(0);
    pages * rustix::param::page_size() as u64
}

/// How long the threads of this process beside the first, and another process, have run so far: of each its ticks.
pub(super) fn work_of(session: u32) -> Vec<String> {
    let own = std::process::id().to_string();
    let threads = fs::read_dir("/proc/self/task").into_iter().flatten().flatten();
    let others = threads.filter(|entry| entry.file_name().to_str() != Some(&own)).map(|entry| entry.path());
    let session = Path::new("/proc").join(session.to_string());
    others.chain([session]).map(|path| ticks(&path.join("stat"))).collect()
}

fn ticks(path: &Path) -> String {
    let text = fs::read_to_string(path).unwrap_or_default();
    let rest = text.rsplit_once(')').map_or("", |(_, rest)| rest);
    rest.split_whitespace().skip(11).take(2).collect::<Vec<&str>>().join(" ")
}

#[cfg(test)]
mod tests {
    use super::*;

    #[test]
    fn memory_is_named_in_bytes_or_units() {
        for (text, bytes) in [("5", 5), ("2k", 2048), ("3M", 3 << 20), ("1G", 1 << 30)] {
            assert_eq!(memory_limit(&text.into()), bytes);
        }
        for text in ["", "x", "M", "99999999999999G"] {
            assert_eq!(memory_limit(&text.into()), machine_memory() / 4, "{text}");
        }
    }

    #[test]
    fn a_process_holds_memory() {
        assert!(resident(std::process::id()) > 1 << 20);
        assert_eq!(resident(0), 0);
    }
}
