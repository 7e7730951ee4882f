//! The library beside plain Rust, plain copies and outside solvers. See bench/run and docs/PERFORMANCE.md.

mod batches;
mod clock;
mod files;
mod grid;
mod handed;
mod library;
mod plain;
mod sheets;
mod solvers;
mod steps;
mod table;
mod tallies;
mod texts;
mod trails;

use clock::{now, side_by_side, Times};
use std::hint::black_box;
use table::{fail, same, Goal, Row};
use tallies::{Arrow, Buffers};
use trails::Slices;

const ROUNDS: usize = 15;

/// A grid's clauses, from the library; equal to those from plain Rust.
pub struct Clauses {
    pub list: Vec<i32>,
    pub variables: usize,
}

pub fn clauses_of(what: &str, record: &[u8]) -> Clauses {
    let (number, answer) = library::encode(record, &mut []);
    same(what, &number, &library::ROOM);
    let mut list = vec![0; answer[0] as usize];
    let (number, answer) = library::encode(record, &mut list);
    let (plain, variables, clauses) = plain::encode(record);
    same(what, &(number, answer), &(0, [plain.len() as u64, variables, clauses, 0]));
    same(what, &list, &plain);
    Clauses { list, variables: variables as usize }
}

/// The drawing of a full trail that satisfies a grid's clauses.
pub fn decoded(what: &str, record: &[u8], slices: &Slices) -> Vec<u8> {
    let values: Vec<u8> = slices.values().into_iter().map(u8::from).collect();
    let mut drawing = vec![0; record[4] as usize * record[5] as usize];
    same(what, &library::decode(record, &values, &mut drawing), &(0, [0; 4]));
    drawing
}

/// A row in which more is better: so many units of work, in millions a second.
fn speed_row(what: &str, against: &str, work: f64, unit: &str, times: Times, goal: Goal) -> Row {
    let shown = |seconds: f64| format!("{:.0} {unit}/s", work / seconds / 1e6);
    row(what, against, times, shown, 1.0 / times.ratio, goal)
}

/// A row in which less is better: seconds, as they are shown.
fn time_row(what: &str, times: Times, shown: impl Fn(f64) -> String, goal: Goal) -> Row {
    row(what, "plain Rust", times, shown, times.ratio, goal)
}

fn row(what: &str, against: &str, times: Times, shown: impl Fn(f64) -> String, ratio: f64, goal: Goal) -> Row {
    Row { what: what.into(), against: against.into(), library: shown(times.a), other: shown(times.b), ratio, goal }
}

fn encoder_rows(rows: &mut Vec<Row>) {
    for side in [6, 12, 24, 45] {
        let what = format!("encode, open {side}×{side}");
        let record = grid::open(side);
        let source = clauses_of(&what, &record).list;
        let mut list = source.clone();
        let mut copy = source.clone();
        let mut encode = || same(&what, &library::encode(black_box(&record), black_box(&mut list)).0, &0);
        let times = side_by_side(ROUNDS, &mut encode, &mut || black_box(&mut copy).copy_from_slice(black_box(&source)));
        let goal = if side == 24 { Goal::AtLeast(1.0 / 3.0) } else { Goal::Shown };
        rows.push(speed_row(&what, "plain copy", source.len() as f64, "M elements", times, goal));
        if side == 24 {
            let times = side_by_side(ROUNDS, &mut encode, &mut || drop(black_box(plain::encode(black_box(&record)))));
            rows.push(speed_row(&what, "plain Rust", source.len() as f64, "M elements", times, Goal::Shown));
        }
        same(&what, &list, &source);
    }
}

/// Where the solvers find the text; bench/run runs the bench from the root.
const TEXT_FILE: &str = "target/bench/open-24.cnf";

/// A text, and the list that it is of.
struct Text {
    clauses: Clauses,
    bytes: Vec<u8>,
}

impl Text {
    /// Of the open 24×24 grid.
    fn new() -> Text {
        let clauses = clauses_of("text, open 24×24", &grid::open(24));
        let mut bytes = Vec::new();
        plain::write(clauses.variables as u64, &clauses.list, &mut bytes);
        if let Err(e) = std::fs::write(TEXT_FILE, &bytes) {
            fail(TEXT_FILE, &e.to_string());
        }
        Text { clauses, bytes }
    }

    fn row(&self, what: &str, against: &str, times: Times, goal: Goal) -> Row {
        speed_row(what, against, self.bytes.len() as f64, "MB", times, goal)
    }

    /// The rows of the writer or the reader: against a copy, plain Rust, and the solvers that are there.
    fn rows(&self, rows: &mut Vec<Row>, what: &str, work: &mut dyn FnMut(), plain: &mut dyn FnMut()) {
        let mut copy = self.bytes.clone();
        let mut copying = || black_box(&mut copy).copy_from_slice(black_box(&self.bytes));
        rows.push(self.row(what, "plain copy", side_by_side(ROUNDS, work, &mut copying), Goal::Shown));
        rows.push(self.row(what, "plain Rust", side_by_side(ROUNDS, work, plain), Goal::Shown));
        for solver in &solvers::SOLVERS {
            let mut own = Vec::new();
            let mut reported = Vec::new();
            for _ in 0..3 {
                let Some(seconds) = solver.parse_seconds(TEXT_FILE) else { break };
                let start = now();
                work();
                own.push(now() - start);
                reported.push(seconds);
            }
            if reported.len() == 3 {
                let goal = if solver.name == "minisat" { Goal::AtLeast(1.0) } else { Goal::Shown };
                let against = format!("parse time that {} reports", solver.name);
                rows.push(self.row(what, &against, Times::of(own, reported), goal));
            }
        }
    }

    fn writer_rows(&self, rows: &mut Vec<Row>) {
        let what = "write text, open 24×24";
        let Clauses { list, variables } = &self.clauses;
        let mut text = vec![0; self.bytes.len()];
        let mut plain = Vec::with_capacity(self.bytes.len());
        let mut work = || same(what, &library::write(*variables, black_box(list), black_box(&mut text)).0, &0);
        self.rows(rows, what, &mut work, &mut || plain::write(*variables as u64, black_box(list), black_box(&mut plain)));
        same(what, &text, &self.bytes);
        same(what, &plain, &self.bytes);
    }

    fn reader_rows(&self, rows: &mut Vec<Row>) {
        let what = "read text, open 24×24";
        let mut list = vec![0; self.clauses.list.len()];
        let mut plain = Vec::with_capacity(list.len());
        let mut work = || same(what, &library::read(black_box(&self.bytes), black_box(&mut list)).0, &0);
        self.rows(rows, what, &mut work, &mut || {
            black_box(plain::read(black_box(&self.bytes), black_box(&mut plain))).expect("an accepted text");
        });
        same(what, &list, &self.clauses.list);
        same(what, &plain, &self.clauses.list);
    }
}

/// The search from the empty trail by the library and by plain Rust, to the same end.
fn search_row(what: &str, record: &[u8], budget: u64, goal: Goal) -> Row {
    let Clauses { list, variables } = clauses_of(what, record);
    let mut slices = (Slices::empty(variables), Slices::empty(variables));
    let (mut told, mut plain) = ((0, [0; 4]), (0, [0; 4]));
    let mut searching = || told = library::search(variables, black_box(&list), &mut slices.0, 0, budget);
    let times = side_by_side(ROUNDS, &mut searching, &mut || plain = plain::search(variables, black_box(&list), &mut slices.1, 0, budget));
    same(what, &told, &plain);
    same(what, &slices.0, &slices.1);
    let (number, [_, steps, ..]) = told;
    same(what, &number, &0);
    let shown = |seconds: f64| {
        let step = seconds * 1e9 / steps as f64;
        format!("{step:.0} ns/step, {:.2} ns/step/element", step / list.len() as f64)
    };
    time_row(&format!("{what}: {} elements, {steps} steps", list.len()), times, shown, goal)
}

fn search_rows(rows: &mut Vec<Row>) {
    for (side, budget) in [(4, 1000), (6, 500), (8, 200)] {
        let what = format!("search, dealt {side}×{side}");
        rows.push(search_row(&what, &grid::dealt(side, 1).0, budget, Goal::AtMost(1.1)));
    }
    for side in [2, 3, 4, 6, 8, 12, 16] {
        let what = format!("search as the list grows, open {side}×{side}");
        rows.push(search_row(&what, &grid::open(side), 50, Goal::Shown));
    }
}

/// A trail handed in with as many entries as the open 12×12 grid has variables: what a call that goes on from there checks first.
fn trail_row() -> Row {
    const V: usize = 21552;
    let what = format!("search, check of {V} entries handed in");
    let mut slices = Slices { trail: (1..=V as i32).map(|x| -x).collect(), ..Slices::empty(V) };
    let mut given = slices.clone();
    let times = side_by_side(
        ROUNDS,
        &mut || same(&what, &library::search(V, &[], black_box(&mut slices), V as u64, 0), &(0, [3, 0, V as u64, 0])),
        &mut || same(&what, &plain::wrong_entry(V, black_box(&given.trail), &given.marks), &None),
    );
    same(&what, &slices, &given);
    for (at, literal, mark) in [(V - 1, 1, 0), (V / 2, 0, 0), (7, i32::MIN, 1), (0, -1, 2)] {
        let was = (given.trail[at], given.marks[at]);
        (given.trail[at], given.marks[at]) = (literal, mark);
        let beside = plain::wrong_entry(V, &given.trail, &given.marks).map(|i| i as u64);
        let (number, answer) = library::search(V, &[], &mut given, V as u64, 0);
        same(&what, &(number, Some(answer[0])), &(18, beside));
        (given.trail[at], given.marks[at]) = was;
    }
    time_row(&what, times, |seconds| format!("{:.1} ns/entry", seconds * 1e9 / V as f64), Goal::Shown)
}

/// A full trail handed in with the clauses behind its entries: the one at which a search of an open grid finds a solution. The budget is 0,
/// so that the checks are timed. Against plain Rust, which makes the same checks, and against the same call with all numbers 0.
fn number_rows(rows: &mut Vec<Row>, side: usize, most: f64) {
    let record = grid::open(side);
    let Clauses { list, variables } = clauses_of("search, numbers handed in", &record);
    let mut slices = trails::made(&list, &plain::assignment(&record, &grid::drawn_open(side, 1)));
    let forced = slices.numbers.iter().filter(|&&n| n != 0).count();
    let what = format!("search, check of {variables} entries handed in, {forced} of them with a clause, open {side}×{side}");
    let mut bare = Slices { numbers: vec![0; variables], ..slices.clone() };
    let given = slices.clone();
    handed::compare_wrong(&what, &list, &given);
    let halted = (0, [3, 0, variables as u64, 0]);
    let mut check = || same(&what, &library::search(variables, black_box(&list), &mut slices, variables as u64, 0), &halted);
    let mut check_bare = || same(&what, &library::search(variables, black_box(&list), &mut bare, variables as u64, 0), &halted);
    let mut plain = || same(&what, &plain::refused(variables, black_box(&list), black_box(&given), variables as u64), &None);
    let entry = |seconds: f64| seconds * 1e9 / variables as f64;
    let shown = |seconds: f64| format!("{:.1} ns/entry", entry(seconds));
    let times = side_by_side(ROUNDS, &mut check, &mut plain);
    rows.push(time_row(&what, times, shown, Goal::Under(entry(times.a), most)));
    let times = side_by_side(ROUNDS, &mut check, &mut check_bare);
    let against = format!("library, all numbers 0: {:.1} ns/entry less", entry(times.a - times.b));
    rows.push(row(&what, &against, times, shown, times.ratio, Goal::Shown));
    same(&what, &slices, &given);
}

/// Every solution of the 4×4 grid that is open but for its first cell, tallied on the line east of it.
fn tally_row() -> Row {
    let what = "tally, 4×4 with cell 0 shaded, eastwards";
    let record = grid::shaded_in(grid::KINDS[0], grid::Sides { rows: 4, columns: 4 }, &[0]);
    let arrow = Arrow { cell: 0, direction: 2 };
    let rooms = tallies::needed(&record);
    let mut buffers = (Buffers::filled(rooms), Buffers::filled(rooms));
    let (mut told, mut plain) = ((0, [0; 4]), (0, [0; 4]));
    let times =
        side_by_side(ROUNDS, &mut || told = library::tally(black_box(&record), arrow, buffers.0.lent(rooms), u64::MAX), &mut || {
            plain = tallies::tally(black_box(&record), arrow, buffers.1.lent(rooms), u64::MAX)
        });
    same(what, &told, &plain);
    same(what, &buffers.0, &buffers.1);
    let (number, [answer, steps, ..]) = told;
    same(what, &(number, answer), &(0, 2));
    let solutions = buffers.0.solutions();
    time_row(&format!("{what}: {steps} steps, {solutions} solutions"), times, |seconds| format!("{:.1} ms", seconds * 1e3), Goal::Shown)
}

/// One call for 64 value lists against a reading for each. All are solutions, so that no reading stops before the last clause.
fn batch_row(side: usize, goal: Goal) -> Row {
    let record = grid::open(side);
    let Clauses { list, variables } = clauses_of("batch of 64 value lists", &record);
    let what = format!("batch of 64 value lists, open {side}×{side}: {} elements", list.len());
    let lists = batches::solutions(side);
    let words = batches::words(variables, &lists);
    let times = side_by_side(
        ROUNDS,
        &mut || same(&what, &library::satisfied(variables, black_box(&list), black_box(&words)), &(0, [u64::MAX, 0, 0, 0])),
        &mut || same(&what, &lists.iter().all(|values| plain::satisfies(black_box(&list), black_box(values))), &true),
    );
    let shown = |seconds: f64| format!("{:.1} thousand lists/s", lists.len() as f64 / seconds / 1e3);
    row(&what, "plain Rust, a list at a time", times, shown, 1.0 / times.ratio, goal)
}

/// The judge on a solved grid; and on the drawings with one byte changed, where it must refuse as plain Rust does.
fn judge_row(side: usize, goal: Goal) -> Row {
    let what = format!("judge, solved {side}×{side}");
    let (record, mut drawing) = grid::dealt(side, 1);
    same(&what, &library::judge(&record, &drawing), &(0, [0; 4]));
    let times = side_by_side(ROUNDS, &mut || same(&what, &library::judge(black_box(&record), black_box(&drawing)).0, &0), &mut || {
        same(&what, &plain::judge(black_box(&record), black_box(&drawing)), &(0, 0))
    });
    for x in 0..drawing.len() {
        let was = drawing[x];
        for byte in 0..=0x21 {
            drawing[x] = byte;
            same_judged(&what, &record, &drawing);
        }
        drawing[x] = was;
    }
    time_row(&what, times, |seconds| format!("{:.1} µs", seconds * 1e6), goal)
}

/// The sheet of a solved grid, which both judge before they write.
fn sheet_row(side: usize) -> Row {
    let what = format!("sheet, solved {side}×{side}");
    let (record, drawing) = grid::dealt(side, 1);
    sheets::compare_rooms(&what, &record, &drawing);
    let bytes = sheets::bytes(&record);
    let (mut sheet, mut plain) = (vec![0; bytes], vec![0; bytes]);
    let times = side_by_side(
        ROUNDS,
        &mut || same(&what, &library::sheet(black_box(&record), black_box(&drawing), black_box(&mut sheet)).0, &0),
        &mut || same(&what, &plain::sheet(black_box(&record), black_box(&drawing), black_box(&mut plain)).0, &0),
    );
    same(&what, &sheet, &plain);
    time_row(&what, times, |seconds| format!("{:.1} µs", seconds * 1e6), Goal::Shown)
}

/// The judge and plain Rust answer or refuse alike; the refusal's number.
fn same_judged(what: &str, record: &[u8], drawing: &[u8]) -> u64 {
    let (number, beside) = plain::judge(record, drawing);
    same(what, &library::judge(record, drawing), &(number, [beside, 0, 0, 0]));
    number
}

/// A small grid with clues alone, and one with a shaded cell on a clue's line. In each a clue has another in its direction.
fn compare_kinds() {
    compare_records(grid::KINDS.map(|kind| grid::dealt_in(kind, 4, 3)));
    compare_records(grid::KINDS.map(|kind| grid::dealt_shaded_in(kind, 4, 698)));
}

/// A grid in each kind of record, with a drawing: kinds 1 and 2 have the same clauses, kind 3 has others. And each record with one byte
/// changed, at every place: library and plain Rust refuse it alike, or judge and encode it alike.
fn compare_records(dealt: [(Vec<u8>, Vec<u8>); grid::KINDS.len()]) {
    let what = "record, one byte changed";
    let [one, two, three] = dealt.each_ref().map(|(record, _)| clauses_of(what, record));
    same(what, &(one.variables, &one.list), &(two.variables, &two.list));
    if three.list == one.list {
        fail(what, "no clue stops a line in kind 3");
    }
    for (mut record, drawing) in dealt {
        for at in 0..record.len() {
            let was = record[at];
            for byte in 0..=255 {
                record[at] = byte;
                if !(1..=5).contains(&same_judged(what, &record, &drawing)) {
                    clauses_of(what, &record);
                }
            }
            record[at] = was;
        }
    }
}

fn main() {
    let words: Vec<String> = std::env::args().skip(1).collect();
    match words.iter().map(String::as_str).collect::<Vec<_>>()[..] {
        [] => {}
        ["--steps"] => return steps::print(10.0),
        ["--steps", seconds] if seconds.parse::<u32>().is_ok() => return steps::print(seconds.parse().unwrap_or(10.0)),
        ["--files"] => return files::print(),
        _ => fail("usage", "bench/run [--steps [SECONDS] | --files]"),
    }
    table::print_machine();
    let mut rows = Vec::new();
    encoder_rows(&mut rows);
    let text = Text::new();
    text.writer_rows(&mut rows);
    text.reader_rows(&mut rows);
    texts::compare();
    search_rows(&mut rows);
    rows.push(trail_row());
    handed::compare();
    number_rows(&mut rows, 12, 200.0);
    number_rows(&mut rows, 24, 1000.0);
    tallies::compare();
    rows.push(tally_row());
    batches::compare();
    rows.push(batch_row(12, Goal::AtLeast(30.0)));
    compare_kinds();
    rows.push(judge_row(24, Goal::AtMost(2.0)));
    rows.push(judge_row(45, Goal::Shown));
    sheets::compare();
    rows.push(sheet_row(24));
    rows.push(sheet_row(45));
    table::print(&rows);
}
