//! Batches of 64 value lists: library and plain Rust, which reads the clauses for one list at a time, answer or refuse alike.

use crate::grid::{self, Dice, KINDS};
use crate::plain::MOST_VARIABLES;
use crate::table::{fail, same};
use crate::{clauses_of, library, plain, Clauses};
use std::collections::BTreeSet;

const WHAT: &str = "batch of value lists";

/// The value lists of a batch, one for each bit of a word.
const LISTS: usize = 64;

pub fn compare() {
    compare_random(20_000);
    compare_most();
    for (record, drawing) in KINDS.map(|kind| grid::dealt_shaded_in(kind, 6, 3)) {
        compare_flipped(&record, &drawing);
    }
}

/// The value lists of 64 solutions of an open grid, no two the same.
pub fn solutions(side: usize) -> Vec<Vec<bool>> {
    let record = grid::open(side);
    let mut drawings = BTreeSet::new();
    let mut seed = 0;
    while drawings.len() < LISTS {
        seed += 1;
        let drawing = grid::drawn_open(side, seed);
        if plain::judge(&record, &drawing) == (0, 0) {
            drawings.insert(drawing);
        }
    }
    drawings.iter().map(|drawing| plain::assignment(&record, drawing)).collect()
}

/// A word for each variable: bit i is its value in list i.
pub fn words(variables: usize, lists: &[Vec<bool>]) -> Vec<u64> {
    let word = |x: usize| lists.iter().enumerate().map(|(i, values)| (values[x] as u64) << i).sum();
    (0..variables).map(word).collect()
}

/// The number that both return, and the first word of the answer.
fn same_batch(variables: usize, list: &[i32], words: &[u64]) -> (u64, u64) {
    let (number, first) = plain::satisfied(variables, list, words);
    same(WHAT, &library::satisfied(variables, list, words), &(number, [first, 0, 0, 0]));
    (number, first)
}

/// Every number that the call can return must come, and a word in which some bits are set and others not.
fn compare_random(count: usize) {
    let mut dice = Dice(1);
    let mut numbers = BTreeSet::new();
    let mut mixed = false;
    for _ in 0..count {
        let (number, first) = compare_one(&mut dice);
        numbers.insert(number);
        mixed |= number == 0 && first != 0 && first != u64::MAX;
    }
    if let Some(number) = [0, 16, 17, 21].iter().find(|n| !numbers.contains(n)) {
        fail(WHAT, &format!("no call returned {number}"));
    }
    if !mixed {
        fail(WHAT, "no clauses were satisfied by some lists and not by others");
    }
}

/// Few variables. V is seldom replaced by a large one, and the words are seldom too few or too many.
fn compare_one(dice: &mut Dice) -> (u64, u64) {
    let few = dice.below(9);
    let most = MOST_VARIABLES as usize;
    let variables = match dice.below(20) {
        0 => [most, most + 1, 1 << 32 | few, usize::MAX][dice.below(4)],
        _ => few,
    };
    let length = match dice.below(20) {
        0 => [0, few.saturating_sub(1), few + 1, few + LISTS][dice.below(4)],
        _ => few,
    };
    let list = random_list(few, dice);
    let words: Vec<u64> = (0..length).map(|_| random_word(dice)).collect();
    same_batch(variables, &list, &words)
}

fn random_word(dice: &mut Dice) -> u64 {
    (dice.below(1 << 32) << 32 | dice.below(1 << 32)) as u64
}

/// Up to six clauses, an empty one now and then. The last 0 is seldom missing.
pub fn random_list(variables: usize, dice: &mut Dice) -> Vec<i32> {
    let mut list = Vec::new();
    for _ in 0..dice.below(7) {
        let literals = if dice.below(12) == 0 { 0 } else { 1 + dice.below(4) };
        list.extend((0..literals).map(|_| random_literal(variables, dice)));
        list.push(0);
    }
    if dice.below(20) == 0 {
        list.pop();
    }
    list
}

/// Seldom beyond V, but always where there is no variable. So few variables are there that a clause often has one twice.
fn random_literal(variables: usize, dice: &mut Dice) -> i32 {
    let beyond = variables as i32 + 1;
    let variable = 1 + dice.below(variables.max(1)) as i32;
    match dice.below(100) {
        0 => [beyond, -beyond, i32::MAX, i32::MIN][dice.below(4)],
        n if n % 2 == 0 => -variable,
        _ => variable,
    }
}

/// As many variables as there may be, and clauses with the last of them.
fn compare_most() {
    let last = MOST_VARIABLES as i32;
    let mut words = vec![0; MOST_VARIABLES as usize];
    words[last as usize - 1] = 5;
    let told = |list: &[i32]| library::satisfied(words.len(), list, &words);
    same(WHAT, &told(&[last, 0]), &(0, [5, 0, 0, 0]));
    same(WHAT, &told(&[-last, 0]), &(0, [!5, 0, 0, 0]));
    same(WHAT, &told(&[0, -last - 1]), &(16, [1, 0, 0, 0]));
    same(WHAT, &told(&[0, -last]), &(16, [2, 0, 0, 0]));
}

/// A solved grid: the values that its solution comes from satisfy its clauses, and with one of them changed they don't.
fn compare_flipped(record: &[u8], drawing: &[u8]) {
    let Clauses { list, variables } = clauses_of(WHAT, record);
    let words = words(variables, &vec![plain::assignment(record, drawing); LISTS]);
    same(WHAT, &same_batch(variables, &list, &words), &(0, u64::MAX));
    for first in (0..variables).step_by(LISTS) {
        let mut flipped = words.clone();
        for (i, word) in flipped[first..].iter_mut().take(LISTS).enumerate() {
            *word ^= 1 << i;
        }
        // In the last batch there are lists with nothing changed.
        let unchanged = u64::MAX.checked_shl((variables - first) as u32).unwrap_or(0);
        same(WHAT, &same_batch(variables, &list, &flipped), &(0, unchanged));
    }
}
