//! Proof sheets of small grids, for solutions and wrong drawings: library and plain Rust answer or refuse alike, and leave the same bytes.

use crate::grid::{self, Dice, Sides, BLACK, KINDS, NOT_OPEN};
use crate::table::{fail, same};
use crate::trails::Slices;
use crate::{clauses_of, decoded, library, plain, Clauses};
use std::collections::BTreeSet;

const WHAT: &str = "sheet, small grids";

/// Bytes behind the lent buffer.
const BEHIND: usize = 64;

/// Random drawings have these at open cells.
const BYTES: [u8; 8] = [0x03, 0x05, 0x06, 0x09, 0x0a, 0x0c, BLACK, BLACK];

/// The numbers that calls returned.
type Numbers = BTreeSet<u64>;

pub fn compare() {
    let mut numbers = Numbers::new();
    compare_dealt(&mut numbers);
    compare_clues();
    compare_random(400, &mut numbers);
    compare_records(&mut numbers);
    if let Some(number) = (0..=7).chain(10..=15).find(|n| !numbers.contains(n)) {
        fail(WHAT, &format!("no call returned {number}"));
    }
}

/// How many bytes the sheet of an accepted record has.
pub fn bytes(record: &[u8]) -> usize {
    (2 * record[4] as usize - 1) * (3 * record[5] as usize + 1)
}

/// A solved grid with buffers that are too short, just long enough and longer.
pub fn compare_rooms(what: &str, record: &[u8], drawing: &[u8]) {
    let needed = bytes(record);
    for room in [0, 1, needed - 1, needed, needed + 1, needed + 100] {
        let number = if room < needed { library::ROOM } else { 0 };
        same(what, &same_sheet(what, record, drawing, room), &number);
    }
}

/// A buffer of so many bytes, with others behind it: the same number and words, and the same bytes in the end, none of them touched but
/// those that the answer counts. Returns the number.
fn same_sheet(what: &str, record: &[u8], drawing: &[u8], room: usize) -> u64 {
    // No sheet has a byte above 0x7F, so every byte that is written is seen.
    let before: Vec<u8> = (0..room + BEHIND).map(|i| 0x80 | i as u8).collect();
    let (mut sheet, mut plain) = (before.clone(), before.clone());
    let (number, value) = plain::sheet(record, drawing, &mut plain[..room]);
    same(what, &library::sheet(record, drawing, &mut sheet[..room]), &(number, [value, 0, 0, 0]));
    same(what, &sheet, &plain);
    let written = if number == 0 { value as usize } else { 0 };
    same(what, &&sheet[written..], &&before[written..]);
    number
}

/// Grids dealt in each kind, with the same cells in the other kinds. Some must have a solution in kinds 1 and 2 that they don't have in kind
/// 3, some the other way round.
fn compare_dealt(numbers: &mut Numbers) {
    let mut solved = BTreeSet::new();
    for (side, seed) in (2..=6).flat_map(|side| [(side, 1), (side, 2), (side, 3)]) {
        for kind in KINDS {
            for (record, drawing) in [grid::dealt_in(kind, side, seed), grid::dealt_shaded_in(kind, side, seed)] {
                let records = KINDS.map(|other| grid::recoded(kind, other, &record));
                solved.insert(compare_kinds(&records, &drawing, numbers));
            }
        }
    }
    if solved != [[true; 3], [true, true, false], [false, false, true]].into() {
        fail(WHAT, "kind 3 is not told from kinds 1 and 2");
    }
}

/// The same cells in a record of each kind, and a drawing: those that it solves have the same sheet. Returns which these are.
fn compare_kinds(records: &[Vec<u8>; KINDS.len()], drawing: &[u8], numbers: &mut Numbers) -> [bool; KINDS.len()] {
    let solved = records.each_ref().map(|record| plain::judge(record, drawing).0 == 0);
    let solving = records.iter().zip(solved).filter(|(_, solved)| *solved);
    let sheets: BTreeSet<Vec<u8>> = solving.map(|(record, _)| compare_solved(record, drawing, numbers)).collect();
    same(WHAT, &sheets.len(), &1);
    solved
}

/// A solved grid; and with wrong drawings. Returns its sheet.
fn compare_solved(record: &[u8], drawing: &[u8], numbers: &mut Numbers) -> Vec<u8> {
    compare_rooms(WHAT, record, drawing);
    compare_changed(record, drawing.to_vec(), numbers);
    let mut sheet = vec![0; bytes(record)];
    library::sheet(record, drawing, &mut sheet);
    sheet
}

/// A drawing with one byte changed, at every place; and longer and shorter than the grid.
fn compare_changed(record: &[u8], mut drawing: Vec<u8>, numbers: &mut Numbers) {
    let mut compare = |drawing: &[u8]| compare_drawing(record, drawing, bytes(record), numbers);
    for x in 0..drawing.len() {
        let was = drawing[x];
        for byte in 0..=0x21 {
            drawing[x] = byte;
            compare(&drawing);
        }
        drawing[x] = was;
    }
    compare(&drawing[1..]);
    drawing.push(NOT_OPEN);
    compare(&drawing);
}

/// A drawing that may be wrong, with a buffer that is too short for a right one, and with one that isn't.
fn compare_drawing(record: &[u8], drawing: &[u8], needed: usize, numbers: &mut Numbers) {
    for room in [needed - 1, needed] {
        numbers.insert(same_sheet(WHAT, record, drawing, room));
    }
}

/// Every number that a clue of a solved grid can have: the longest line has 44 cells, of which no two black ones are side by side.
fn compare_clues() {
    for (number, d) in (0..=22).flat_map(|number| [(number, 0), (number, 1), (number, 2), (number, 3)]) {
        for (record, drawing) in KINDS.iter().filter_map(|&kind| grid::counted_in(kind, d, number)) {
            compare_rooms(WHAT, &record, &drawing);
        }
    }
}

/// Random grids with random drawings, and with their first solution where they have one.
fn compare_random(count: u64, numbers: &mut Numbers) {
    let mut dice = Dice(1);
    let mut solved = 0;
    for seed in 0..count {
        let sides = Sides { rows: 1 + dice.below(5), columns: 1 + dice.below(5) };
        let records = KINDS.map(|kind| grid::random_in(kind, sides, seed));
        for _ in 0..20 {
            let drawing = random_drawing(&records[0], &mut dice);
            for record in &records {
                compare_drawing(record, &drawing, bytes(record), numbers);
            }
        }
        if let Some(drawing) = solution(&records[0]) {
            compare_kinds(&records, &drawing, numbers);
            solved += 1;
        }
    }
    if solved == 0 {
        fail(WHAT, "no random grid was solved, so no sheet of one was compared");
    }
}

/// Of a record in which a code has one byte.
fn random_drawing(record: &[u8], dice: &mut Dice) -> Vec<u8> {
    record[6..].iter().map(|&code| if code == 0 { BYTES[dice.below(BYTES.len())] } else { NOT_OPEN }).collect()
}

/// The solution that the search finds, in a number of steps that is enough for most small grids.
fn solution(record: &[u8]) -> Option<Vec<u8>> {
    let Clauses { list, variables } = clauses_of(WHAT, record);
    let mut slices = Slices::empty(variables);
    let (number, answer) = library::search(variables, &list, &mut slices, 0, 1000);
    same(WHAT, &number, &0);
    (answer[0] == 1).then(|| decoded(WHAT, record, &slices))
}

/// A solved grid's record of each kind with one byte changed, at every place.
fn compare_records(numbers: &mut Numbers) {
    for (mut record, drawing) in KINDS.map(|kind| grid::dealt_shaded_in(kind, 4, 698)) {
        let needed = bytes(&record);
        for at in 0..record.len() {
            let was = record[at];
            for byte in 0..=255 {
                record[at] = byte;
                compare_drawing(&record, &drawing, needed, numbers);
            }
            record[at] = was;
        }
    }
}
