//! Files as other programs lay them out: what the library reads of them beside a parser that only splits words.

use crate::solvers::SIMPLIFIERS;
use crate::table::{fail, print_head, print_row};
use crate::{clauses_of, grid, library, plain, Clauses};

/// Before the header, behind a literal, behind a clause's 0, and behind the last number.
struct Layout {
    name: &'static str,
    top: &'static str,
    literal: &'static str,
    clause: &'static str,
    last: &'static str,
}

const LAYOUTS: [Layout; 6] = [
    Layout { name: "narrow form", top: "", literal: " ", clause: "\n", last: "\n" },
    Layout { name: "one number a line", top: "", literal: "\n", clause: "\n", last: "\n" },
    Layout { name: "one line", top: "", literal: " ", clause: " ", last: "" },
    Layout { name: "comment lines", top: "c before the header\n", literal: " ", clause: "\nc 1 0\n", last: "\nc the end\n" },
    Layout { name: "tabs", top: "", literal: "\t", clause: "\t\n", last: "\t" },
    Layout { name: "empty lines", top: "c\n", literal: " \n\n  ", clause: "\n \n\t\n", last: "\n\n" },
];

/// Where a file stands; bench/run runs the bench from the root.
fn path(name: &str) -> String {
    format!("target/bench/{}.cnf", name.replace(' ', "-"))
}

fn laid(clauses: &Clauses, layout: &Layout) -> String {
    let Clauses { list, variables } = clauses;
    let count = list.iter().filter(|&&l| l == 0).count();
    let mut text = format!("{}p cnf {variables} {count}\n", layout.top);
    for (i, &l) in list.iter().enumerate() {
        let behind = match l {
            _ if i + 1 == list.len() => layout.last,
            0 => layout.clause,
            _ => layout.literal,
        };
        text += &format!("{l}{behind}");
    }
    text
}

/// V, C and the list, by splitting words, as parsers commonly do: it takes more than the library, and refuses at no place.
fn parsed(what: &str, text: &[u8]) -> (u64, u64, Vec<i32>) {
    let text = String::from_utf8_lossy(text);
    let words: Vec<&str> = text.lines().filter(|l| !l.starts_with('c')).flat_map(str::split_whitespace).collect();
    let numbers: Result<Vec<i64>, _> = words.iter().skip(2).map(|w| w.parse()).collect();
    match (words.get(..2), numbers.as_deref()) {
        (Some(["p", "cnf"]), Ok([v, c, list @ ..])) => (*v as u64, *c as u64, list.iter().map(|&l| l as i32).collect()),
        _ => fail(what, "no DIMACS file"),
    }
}

/// Library, plain Rust and parser read the file alike.
fn line(name: &str) {
    let text = std::fs::read(path(name)).unwrap_or_else(|e| fail(&path(name), &e.to_string()));
    let (variables, clauses, words) = parsed(name, &text);
    let mut list = vec![0; text.len() / 2];
    let told = library::read(&text, &mut list);
    if told != (0, [words.len() as u64, variables, clauses, 0]) || list[..words.len()] != words[..] {
        fail(name, "library and parser differ");
    }
    let mut plain = Vec::new();
    if plain::read(&text, &mut plain) != Ok((variables, clauses)) || plain != words {
        fail(name, "plain Rust and parser differ");
    }
    print_row(&[name.to_string(), text.len().to_string(), variables.to_string(), clauses.to_string(), words.len().to_string()]);
}

fn write(name: &str, text: &str) {
    if let Err(e) = std::fs::write(path(name), text) {
        fail(&path(name), &e.to_string());
    }
}

/// The clauses of a dealt grid in each layout, and as each solver that is installed writes them.
pub fn print() {
    let clauses = clauses_of("files", &grid::dealt(6, 1).0);
    print_head(&["file", "bytes", "V", "clauses", "elements"]);
    for layout in &LAYOUTS {
        write(layout.name, &laid(&clauses, layout));
        line(layout.name);
    }
    let (installed, missing): (Vec<_>, Vec<_>) = SIMPLIFIERS.iter().partition(|s| s.simplify(&path(LAYOUTS[0].name), &path(s.name)));
    for solver in installed {
        line(solver.name);
    }
    for solver in missing {
        println!("\n{} is not installed.", solver.name);
    }
}
