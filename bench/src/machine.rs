//! The kind of machine that the times are of.

use std::fs;
use std::thread;

/// Its processor, cores, and how busy it was.
pub fn kind() -> String {
    let about = fs::read_to_string("/proc/cpuinfo").unwrap_or_default();
    let field = |name: &str| {
        let line = about.lines().find(|line| line.starts_with(name));
        let value = line.and_then(|line| line.split_once(": "));
        value.map_or("unknown", |(_, value)| value).to_string()
    };
    let cores = thread::available_parallelism().map_or(0, usize::from);
    format!(
        "{}, family {}, model {} and stepping {}, {cores} cores",
        field("model name"),
        field("cpu family"),
        field("model\t"),
        field("stepping"),
    )
}

/// The average count of running programs in the minute before.
pub fn load() -> String {
    let load = fs::read_to_string("/proc/loadavg").unwrap_or_default();
    load.split(' ').next().unwrap_or_default().to_string()
}
