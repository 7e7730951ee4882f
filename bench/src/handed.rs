//! Searches from trails that are handed in, with the clauses behind their entries: library and plain Rust answer or refuse alike, and leave
//! the same.

use crate::grid::{self, Dice, KINDS};
use crate::library::Told;
use crate::plain::MOST_VARIABLES;
use crate::table::{fail, same};
use crate::trails::{made, Slices};
use crate::{batches, clauses_of, library, plain, Clauses};
use std::collections::BTreeSet;

const WHAT: &str = "trails handed in";

pub fn compare() {
    compare_random(60_000);
    compare_bounds(600);
    for side in 2..=3 {
        compare_listing(&grid::open(side), 1);
    }
    compare_listing(&grid::open(4), 1000);
    for (kind, seed) in KINDS.into_iter().zip([3, 5, 56]) {
        compare_listing(&grid::dealt_shaded_in(kind, 4, seed).0, 7);
    }
}

type Call = fn(usize, &[i32], &mut Slices, u64, u64) -> Told;

/// A call by the library and one by plain Rust.
type Calls = (Call, Call);

const SEARCH: Calls = (library::search, plain::search);
const NEXT: Calls = (library::next, plain::next);

/// Both answer or refuse alike, and leave the same; a refusal leaves what was there.
fn same_call((call, plain): Calls, variables: usize, list: &[i32], slices: &mut Slices, used: u64, budget: u64) -> Told {
    let mut given = slices.clone();
    let before = slices.clone();
    let told = call(variables, list, slices, used, budget);
    same(WHAT, &told, &plain(variables, list, &mut given, used, budget));
    same(WHAT, slices, &given);
    if told.0 != 0 {
        same(WHAT, slices, &before);
    }
    told
}

/// Every solution of a grid, by calls with a small budget: their trails are those that are made without a search.
fn compare_listing(record: &[u8], budget: u64) {
    let Clauses { list, variables } = clauses_of(WHAT, record);
    let mut slices = Slices::empty(variables);
    let mut told = (0, [3, 0, 0, 0]);
    let mut solutions = 0;
    while told.1[0] != 2 {
        let calls = if told.1[0] == 1 { NEXT } else { SEARCH };
        told = same_call(calls, variables, &list, &mut slices, told.1[2], budget);
        same(WHAT, &told.0, &0);
        if told.1[0] == 1 {
            same(WHAT, &slices, &made(&list, &slices.values()));
            solutions += 1;
        }
    }
    if solutions == 0 {
        fail(WHAT, "no solution was listed");
    }
}

/// A full trail that is taken; and with one number, or one mark beside a number, changed.
pub fn compare_wrong(what: &str, list: &[i32], taken: &Slices) {
    let variables = taken.trail.len();
    let clauses = list.iter().filter(|&&l| l == 0).count();
    let mut dice = Dice(3);
    let mut numbers = BTreeSet::new();
    for change in 0..12 {
        let mut slices = taken.clone();
        let at = dice.below(variables);
        match change % 4 {
            0 => slices.numbers[at] = 1 + dice.below(clauses) as u64,
            1 => slices.numbers[at] += 1,
            2 => slices.marks[at] = 1,
            _ => slices.numbers[at] = 0,
        }
        let (number, _) = same_call(SEARCH, variables, list, &mut slices, variables as u64, 0);
        numbers.insert(number);
    }
    same(what, &numbers, &[0, 22].into());
}

/// Every number that the calls can return must come, 22 for a length and for an entry; and answers to trails with numbers.
fn compare_random(count: usize) {
    let mut dice = Dice(1);
    let mut seen = BTreeSet::new();
    for _ in 0..count {
        let few = dice.below(7);
        let list = batches::random_list(few, &mut dice);
        let mut slices = random_slices(few, &list, &mut dice);
        let used = random_used(few, &mut dice);
        let variables = random_variables(few, &mut dice);
        let budget = [0, 1, 1 + dice.below(6), 1000][dice.below(4)] as u64;
        let numbered = slices.numbers.iter().take(used as usize).any(|&n| n != 0);
        let calls = [SEARCH, NEXT][dice.below(2)];
        let (number, answer) = same_call(calls, variables, &list, &mut slices, used, budget);
        seen.insert((number, if number == 22 { answer[0] > 0 } else { numbered }));
    }
    for number in [0, 16, 17, 18, 20, 22] {
        if !seen.contains(&(number, false)) || !seen.contains(&(number, true)) {
            fail(WHAT, &format!("no call of some sort returned {number}"));
        }
    }
}

/// How many variables and clauses there are: as many as the library has places for in its tables, fewer and more.
const VARIABLES: [usize; 7] = [1023, 1024, 1025, 262_143, 262_144, 262_145, 524_289];
const CLAUSES: [usize; 8] = [0, 1022, 1024, 1030, 3000, 32_760, 32_768, 70_000];

/// Small lists and trails, over eight of many variables and with other clauses around them.
fn compare_bounds(count: usize) {
    let mut dice = Dice(2);
    let mut seen = BTreeSet::new();
    for _ in 0..count {
        let variables = VARIABLES[dice.below(VARIABLES.len())];
        let names = random_names(variables, &mut dice);
        let few = batches::random_list(names.len(), &mut dice);
        let mut slices = random_slices(names.len(), &few, &mut dice);
        let others = CLAUSES[dice.below(CLAUSES.len())];
        let before = dice.below(others + 1);
        let list = among_others(&named(&few, &names), &[before, others - before]);
        let used = dice.below(names.len() + 1) as u64;
        slices.trail = named(&slices.trail, &names);
        for number in slices.numbers.iter_mut().filter(|n| **n != 0) {
            *number = number.saturating_add(before as u64);
        }
        let numbered = slices.numbers.iter().take(used as usize).any(|&n| n != 0);
        slices.resize(variables);
        let (number, _) = same_call(SEARCH, variables, &list, &mut slices, used, dice.below(3) as u64);
        seen.insert((number, numbered));
    }
    if let Some(number) = [0, 22].iter().find(|&&number| !seen.contains(&(number, true))) {
        fail(WHAT, &format!("no call with many variables returned {number}"));
    }
}

/// Eight variables in ascending order: the first two, the last three and others.
fn random_names(variables: usize, dice: &mut Dice) -> Vec<i32> {
    let mut names: BTreeSet<usize> = [1, 2, variables - 2, variables - 1, variables].into();
    while names.len() < 8 {
        names.insert(1 + dice.below(variables));
    }
    names.into_iter().map(|x| x as i32).collect()
}

/// The literals of small variables as those of the named ones; what is beyond the small ones stays beyond.
fn named(literals: &[i32], names: &[i32]) -> Vec<i32> {
    let name = |l: i32| match l.unsigned_abs() as usize {
        0 => 0,
        x if x <= names.len() => l.signum() * names[x - 1],
        _ => l.signum() * i32::MAX,
    };
    literals.iter().map(|&l| name(l)).collect()
}

/// A list with so many clauses before it and after it, in which a variable and its negation stand.
fn among_others(list: &[i32], others: &[usize; 2]) -> Vec<i32> {
    let other = |n: usize| [1, -1, 0].into_iter().cycle().take(3 * n);
    other(others[0]).chain(list.iter().copied()).chain(other(others[1])).collect()
}

/// Seldom a large one.
fn random_variables(few: usize, dice: &mut Dice) -> usize {
    let most = MOST_VARIABLES as usize;
    match dice.below(50) {
        0 => [most, most + 1, 1 << 32 | few, usize::MAX][dice.below(4)],
        _ => few,
    }
}

/// Often the whole trail, seldom more than that.
fn random_used(few: usize, dice: &mut Dice) -> u64 {
    match dice.below(50) {
        0 => [few as u64 + 1, 1 << 32, u64::MAX][dice.below(3)],
        n if n % 2 == 0 => few as u64,
        _ => dice.below(few + 1) as u64,
    }
}

/// All variables in some order, with marks, and with numbers of which many fit. Seldom a wrong entry, and seldom a slice that is too long
/// or too short.
fn random_slices(few: usize, list: &[i32], dice: &mut Dice) -> Slices {
    let mut slices = Slices::empty(0);
    for x in dice.shuffled(few) {
        let variable = x as i32 + 1;
        let literal = [variable, -variable][dice.below(2)];
        let fitting = fitting_number(&slices, list, literal, dice);
        let number = random_number(list, fitting, dice);
        let mark = (dice.below(if number == 0 { 2 } else { 20 }) == 0) as u8;
        slices.push(literal, mark, number);
    }
    for _ in 0..few {
        let at = dice.below(few);
        match dice.below(200) {
            0 => slices.trail[at] = [0, few as i32 + 1, i32::MIN, slices.trail[0]][dice.below(4)],
            1 => slices.marks[at] = [2, 3, 255][dice.below(3)],
            _ => {}
        }
    }
    match dice.below(100) {
        0 => slices.trail.resize(dice.below(9), 1),
        1 => slices.marks.resize(dice.below(9), 1),
        2 | 3 => slices.numbers.resize(dice.below(9), 1),
        _ => {}
    }
    slices
}

/// The number of a clause that may stand beside a literal after these entries; 0 where there is none.
fn fitting_number(before: &Slices, list: &[i32], literal: i32, dice: &mut Dice) -> u64 {
    let fits = |clause: &[i32]| clause.contains(&literal) && clause.iter().all(|&l| l == literal || before.trail.contains(&-l));
    let clauses = list.split(|&l| l == 0).enumerate().filter(|(_, clause)| fits(clause));
    let numbers: Vec<u64> = clauses.map(|(i, _)| i as u64 + 1).collect();
    match numbers.len() {
        0 => 0,
        n => numbers[dice.below(n)],
    }
}

/// Mostly a number that fits, or 0; seldom another one.
fn random_number(list: &[i32], fitting: u64, dice: &mut Dice) -> u64 {
    let clauses = list.iter().filter(|&&l| l == 0).count() as u64;
    match dice.below(40) {
        0 => [clauses + 1, 1 << 32 | fitting, u64::MAX][dice.below(3)],
        1 | 2 => dice.below(clauses as usize + 1) as u64,
        n if n % 4 == 0 => 0,
        _ => fitting,
    }
}
