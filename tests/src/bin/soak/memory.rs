//! The most memory that the program had, as the system counts it.

/// The most that it may have, in KiB: 256 MiB.
const BOUND: u64 = 256 << 10;

/// Whether the peak resident size is within the bound; says what it is.
pub fn is_kept() -> bool {
    match peak() {
        Some(peak) => {
            println!("Peak resident size: {peak} KiB, of at most {BOUND} KiB.");
            peak <= BOUND
        }
        None => {
            println!("The peak resident size is not in /proc/self/status.");
            false
        }
    }
}

/// The line VmHWM, in KiB.
fn peak() -> Option<u64> {
    let status = std::fs::read_to_string("/proc/self/status").ok()?;
    let line = status.lines().find(|line| line.starts_with("VmHWM:"))?;
    line.split_whitespace().nth(1)?.parse().ok()
}
