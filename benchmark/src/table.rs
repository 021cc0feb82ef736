//! The rows in words.
use crate::measure::{Row, Time};

/// Processor, cores and memory.
pub fn machine() {
    let file = |name: &str| std::fs::read_to_string(name).unwrap_or_default();
    let field = |text: &str, name: &str| {
        let line = text.lines().find(|l| l.starts_with(name))?;
        Some(line.split_once(':')?.1.trim().to_string())
    };
    let processor = field(&file("/proc/cpuinfo"), "model name").unwrap_or_else(|| "unknown".to_string());
    let memory = field(&file("/proc/meminfo"), "MemTotal").unwrap_or_else(|| "unknown".to_string());
    let cores = std::thread::available_parallelism().map_or(1, |n| n.get());
    println!("processor: {processor}; cores: {cores}; memory: {memory}");
}

fn grouped(n: usize) -> String {
    let digits = n.to_string();
    let parts: Vec<&str> =
        digits.as_bytes().rchunks(3).rev().map(|c| std::str::from_utf8(c).expect("digits")).collect();
    parts.join(",")
}

/// Three digits that count.
fn short(n: f64) -> String {
    let decimals = (2 - n.log10().floor() as i32).clamp(0, 6) as usize;
    format!("{n:.decimals$}")
}

fn ms(t: Option<Time>) -> String {
    t.map_or("-".to_string(), |t| format!("{} ({})", short(t.median), short(t.least)))
}

fn ratio(a: Option<Time>, b: Option<Time>) -> String {
    match (a, b) {
        (Some(a), Some(b)) => format!("{:.1} ({:.1})", a.median / b.median, a.least / b.least),
        _ => "-".to_string(),
    }
}

fn cells(r: &Row) -> Vec<String> {
    let each = r.close.map_or("-".to_string(), |t| {
        let ns = |ms: f64| ms * 1e6 / r.validators as f64;
        format!("{:.0} ({:.0})", ns(t.median), ns(t.least))
    });
    vec![
        r.scenario.name().to_string(),
        grouped(r.validators),
        ms(r.copy),
        ms(r.close),
        ms(r.plain),
        ms(r.reference),
        ratio(r.close, r.copy),
        ratio(r.close, r.plain),
        each,
    ]
}

/// A row as it comes.
pub fn line(r: &Row) -> String {
    cells(r).join("  ")
}

pub fn markdown(rows: &[Row], stack: usize) -> String {
    let head = [
        "scenario",
        "validators",
        "copy, ms",
        "close, ms",
        "plain Rust, ms",
        "reference, ms",
        "close / copy",
        "close / plain",
        "close, ns a validator",
    ];
    let mut text = format!("| {} |\n|{}\n", head.join(" | "), "---|".repeat(head.len()));
    for row in rows {
        text += &format!("| {} |\n", cells(row).join(" | "));
    }
    text + &format!("\nStack of a close: at most {stack} bytes.\n")
}
