//! The parse time that an outside solver reports for a DIMACS file, and the file that it writes.

use std::io::{BufRead, BufReader};
use std::process::{Command, Stdio};

pub struct Solver {
    pub name: &'static str,
    words: &'static [&'static str],
    /// A line with this has the seconds as its only number with a point.
    line: &'static str,
}

/// `stdbuf` makes minisat write its lines at once, so that it can be stopped after the parse; with -no-pre it builds no occurrence
/// lists while it parses, and is faster.
pub const SOLVERS: [Solver; 2] = [
    Solver { name: "minisat", words: &["stdbuf", "-oL", "minisat", "-verb=1", "-no-pre"], line: "Parse time" },
    Solver { name: "cadical", words: &["cadical"], line: "parsed" },
];

impl Solver {
    /// None where the program isn't installed or reports no time.
    pub fn parse_seconds(&self, file: &str) -> Option<f64> {
        let mut child = Command::new(self.words[0])
            .args(&self.words[1..])
            .arg(file)
            .stdin(Stdio::null())
            .stdout(Stdio::piped())
            .stderr(Stdio::null())
            .spawn()
            .ok()?;
        let lines = BufReader::new(child.stdout.take()?).lines().map_while(Result::ok);
        let seconds = lines.filter(|l| l.contains(self.line)).find_map(|l| number_with_point(&l));
        let _ = child.kill();
        let _ = child.wait();
        seconds
    }
}

fn number_with_point(line: &str) -> Option<f64> {
    line.split_whitespace().filter(|word| word.contains('.')).find_map(|word| word.parse().ok())
}

/// A solver that writes its clauses to a file, after what it does to make them simpler.
pub struct Simplifier {
    pub name: &'static str,
    /// Its options, given the file that it writes.
    options: fn(&str) -> Vec<String>,
}

pub const SIMPLIFIERS: [Simplifier; 2] = [
    Simplifier { name: "minisat", options: |output| vec!["-no-elim".into(), format!("-dimacs={output}")] },
    Simplifier { name: "cadical", options: |output| vec!["-o".into(), output.into()] },
];

impl Simplifier {
    /// Writes the input's clauses, simplified, to the output; false where the program can't be started. A file of an earlier run is
    /// removed first, so that it can't pass for this one's.
    pub fn simplify(&self, input: &str, output: &str) -> bool {
        let _ = std::fs::remove_file(output);
        let mut command = Command::new(self.name);
        command.args((self.options)(output)).arg(input);
        command.stdin(Stdio::null()).stdout(Stdio::null()).stderr(Stdio::null()).status().is_ok()
    }
}
