//! The table, as Markdown.

use std::process::exit;

pub enum Goal {
    /// Of the ratio.
    AtLeast(f64),
    AtMost(f64),
    /// Of the library's nanoseconds an entry, which stand first.
    Under(f64, f64),
    Shown,
}

pub struct Row {
    pub what: String,
    pub against: String,
    pub library: String,
    pub other: String,
    pub ratio: f64,
    pub goal: Goal,
}

impl Row {
    fn goal(&self) -> String {
        let (words, met) = match self.goal {
            Goal::AtLeast(g) => (format!("at least {g:.2}"), self.ratio >= g),
            Goal::AtMost(g) => (format!("at most {g:.2}"), self.ratio <= g),
            Goal::Under(is, g) => (format!("under {g:.0} ns/entry"), is < g),
            Goal::Shown => return String::new(),
        };
        format!("{words}: {}", if met { "met" } else { "missed" })
    }
}

pub fn print_row(words: &[String]) {
    println!("| {} |", words.join(" | "));
}

pub fn print_head(words: &[&str]) {
    println!("| {} |", words.join(" | "));
    println!("|{}", "---|".repeat(words.len()));
}

pub fn print(rows: &[Row]) {
    print_head(&["what", "against", "library", "other", "library : other", "goal"]);
    for r in rows {
        print_row(&[r.what.clone(), r.against.clone(), r.library.clone(), r.other.clone(), format!("{:.2}", r.ratio), r.goal()]);
    }
}

/// The run fails where the library and plain Rust differ.
pub fn same<T: PartialEq>(what: &str, library: &T, plain: &T) {
    if library != plain {
        fail(what, "library and plain Rust differ");
    }
}

pub fn fail(what: &str, why: &str) -> ! {
    eprintln!("bench: {what}: {why}");
    exit(1);
}

/// When, on how many cores, and how busy they are besides.
pub fn print_machine() {
    let output = std::process::Command::new("date").arg("+%Y-%m-%d").output();
    let date = output.map(|o| String::from_utf8_lossy(&o.stdout).trim().to_string()).unwrap_or_default();
    let cores = std::thread::available_parallelism().map_or(0, |n| n.get());
    let info = std::fs::read_to_string("/proc/cpuinfo").unwrap_or_default();
    let model = info.lines().find(|l| l.starts_with("model name")).and_then(|l| l.split_once(": ")).map_or("unknown", |m| m.1);
    let load = std::fs::read_to_string("/proc/loadavg").unwrap_or_default();
    let load = load.split(' ').next().unwrap_or_default();
    println!("{date}, {cores} cores ({model}), load before the run {load}\n");
}
