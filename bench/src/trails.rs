//! Trails with the clause behind each entry; and the trail at which a search finds a known solution, made without that search.

use crate::plain;
use std::cmp::Reverse;
use std::collections::BinaryHeap;

/// The slices that a search is lent: literals, and beside each its mark and the number of its clause.
#[derive(Clone, PartialEq)]
pub struct Slices {
    pub trail: Vec<i32>,
    pub marks: Vec<u8>,
    pub numbers: Vec<u64>,
}

impl Slices {
    pub fn empty(variables: usize) -> Slices {
        Slices { trail: vec![0; variables], marks: vec![0; variables], numbers: vec![0; variables] }
    }

    /// With zeros behind what is there, or without its end.
    pub fn resize(&mut self, variables: usize) {
        self.trail.resize(variables, 0);
        self.marks.resize(variables, 0);
        self.numbers.resize(variables, 0);
    }

    pub fn push(&mut self, literal: i32, mark: u8, number: u64) {
        self.trail.push(literal);
        self.marks.push(mark);
        self.numbers.push(number);
    }

    /// The assignment of a full trail.
    pub fn values(&self) -> Vec<bool> {
        let mut values = vec![false; self.trail.len()];
        for &l in self.trail.iter().filter(|&&l| l > 0) {
            values[l as usize - 1] = true;
        }
        values
    }
}

/// Unit propagation with the clauses of each literal at hand. In no clause of the list is a literal twice, as in no clause of a grid.
struct Propagation<'a> {
    list: &'a [i32],
    starts: Vec<usize>,
    /// By a literal's code: where its clauses begin among `clauses`, and behind the last code where they end.
    first: Vec<u32>,
    clauses: Vec<u32>,
    /// How many literals of each clause are not false.
    left: Vec<u32>,
    assigned: Vec<bool>,
    /// The variable and the clause of what was found to be forced; the variable may be assigned since.
    forced: BinaryHeap<Reverse<(u32, u32)>>,
    slices: Slices,
}

fn code(literal: i32) -> usize {
    2 * literal.unsigned_abs() as usize + (literal < 0) as usize
}

impl Propagation<'_> {
    fn new(list: &[i32], variables: usize) -> Propagation<'_> {
        let starts = plain::clause_starts(list);
        let mut first = vec![0; 2 * variables + 3];
        for &l in list.iter().filter(|&&l| l != 0) {
            first[code(l) + 1] += 1;
        }
        for i in 1..first.len() {
            first[i] += first[i - 1];
        }
        let mut at = first.clone();
        let mut clauses = vec![0; first[first.len() - 1] as usize];
        let mut left = vec![0; starts.len()];
        let mut clause = 0;
        for &l in list {
            if l == 0 {
                clause += 1;
                continue;
            }
            clauses[at[code(l)] as usize] = clause as u32;
            at[code(l)] += 1;
            left[clause] += 1;
        }
        let slices = Slices::empty(0);
        let assigned = vec![false; variables + 1];
        let mut all = Propagation { list, starts, first, clauses, left, assigned, forced: BinaryHeap::new(), slices };
        for clause in 0..all.left.len() {
            if all.left[clause] == 1 {
                all.force(clause as u32);
            }
        }
        all
    }

    fn literals(&self, clause: u32) -> impl Iterator<Item = i32> + '_ {
        self.list[self.starts[clause as usize]..].iter().copied().take_while(|&l| l != 0)
    }

    /// A clause with one literal that is not false: it forces that literal, unless it is true.
    fn force(&mut self, clause: u32) {
        let free = self.literals(clause).map(i32::unsigned_abs).find(|&x| !self.assigned[x as usize]);
        if let Some(x) = free {
            self.forced.push(Reverse((x, clause)));
        }
    }

    fn append(&mut self, literal: i32, mark: u8, number: u64) {
        self.slices.push(literal, mark, number);
        self.assigned[literal.unsigned_abs() as usize] = true;
        let its = code(-literal);
        for i in self.first[its]..self.first[its + 1] {
            let clause = self.clauses[i as usize];
            self.left[clause as usize] -= 1;
            if self.left[clause as usize] == 1 {
                self.force(clause);
            }
        }
    }
}

/// The trail at which a search begun empty, and carried on by `next`, finds an assignment that satisfies the list: all decisions go that
/// way, false ones with the other value untried.
pub fn made(list: &[i32], values: &[bool]) -> Slices {
    let literal = |x: usize| if values[x - 1] { x as i32 } else { -(x as i32) };
    let mut all = Propagation::new(list, values.len());
    for x in 1..=values.len() {
        while let Some(Reverse((y, clause))) = all.forced.pop() {
            if !all.assigned[y as usize] {
                all.append(literal(y as usize), 0, clause as u64 + 1);
            }
        }
        if !all.assigned[x] {
            all.append(literal(x), !values[x - 1] as u8, 0);
        }
    }
    all.slices
}
