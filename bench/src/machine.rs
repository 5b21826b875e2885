//! What the times were taken on.

use std::fs;

/// The processor's model and the compiler's version.
pub fn line() -> String {
    format!("{}; {}", processor().unwrap_or("unknown processor".to_string()), env!("COMPILER"))
}

fn processor() -> Option<String> {
    let text = fs::read_to_string("/proc/cpuinfo").ok()?;
    let line = text.lines().find(|line| line.starts_with("model name"))?;
    Some(line.split_once(':')?.1.trim().to_string())
}
