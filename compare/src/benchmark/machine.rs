//! What the machine is, from /proc.

/// Processor, cores, system.
pub fn description() -> String {
    let about = std::fs::read_to_string("/proc/cpuinfo").unwrap_or_default();
    let field = |name: &str| {
        let line = about.lines().find(|line| line.starts_with(name))?;
        Some(line.split_once(": ")?.1.to_string())
    };
    let model = field("model name").unwrap_or("unknown processor".to_string());
    let speed = field("cpu MHz").map_or(String::new(), |speed| format!(" at {speed} MHz"));
    let cache = field("cache size").map_or(String::new(), |size| format!(", {size} cache"));
    let cores = std::thread::available_parallelism().map_or(0, usize::from);
    let release = std::fs::read_to_string("/proc/sys/kernel/osrelease").unwrap_or_default();
    format!("{model}{speed}{cache}, {cores} cores, {} {}", std::env::consts::OS, release.trim())
}
