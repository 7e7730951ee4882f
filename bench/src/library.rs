//! The functions of include/yajilin.h, with slices for pointers and lengths.

use crate::tallies::{Arrow, Lent};
use crate::trails::Slices;

pub const ROOM: u64 = 6;

mod c {
    extern "C" {
        pub fn yajilin_judge(record: *const u8, n: usize, drawing: *const u8, d: usize, answer: *mut u64) -> u64;
        pub fn yajilin_sheet(record: *const u8, n: usize, drawing: *const u8, d: usize, sheet: *mut u8, s: usize, answer: *mut u64) -> u64;
        pub fn yajilin_encode(record: *const u8, n: usize, list: *mut i32, l: usize, answer: *mut u64) -> u64;
        pub fn yajilin_decode(
            record: *const u8,
            n: usize,
            values: *const u8,
            v: usize,
            drawing: *mut u8,
            d: usize,
            answer: *mut u64,
        ) -> u64;
        pub fn yajilin_search(
            variables: u64,
            list: *const i32,
            l: usize,
            trail: *mut i32,
            t: usize,
            marks: *mut u8,
            m: usize,
            numbers: *mut u64,
            n: usize,
            used: u64,
            budget: u64,
            answer: *mut u64,
        ) -> u64;
        pub fn yajilin_next(
            variables: u64,
            list: *const i32,
            l: usize,
            trail: *mut i32,
            t: usize,
            marks: *mut u8,
            m: usize,
            numbers: *mut u64,
            n: usize,
            used: u64,
            budget: u64,
            answer: *mut u64,
        ) -> u64;
        pub fn yajilin_tally(
            record: *const u8,
            r: usize,
            cell: u64,
            direction: u64,
            counters: *mut u64,
            c: usize,
            list: *mut i32,
            l: usize,
            trail: *mut i32,
            t: usize,
            marks: *mut u8,
            m: usize,
            numbers: *mut u64,
            n: usize,
            budget: u64,
            answer: *mut u64,
        ) -> u64;
        pub fn yajilin_satisfied(variables: u64, list: *const i32, l: usize, words: *const u64, w: usize, answer: *mut u64) -> u64;
        pub fn yajilin_write(variables: u64, list: *const i32, l: usize, text: *mut u8, t: usize, answer: *mut u64) -> u64;
        pub fn yajilin_read(text: *const u8, t: usize, list: *mut i32, l: usize, answer: *mut u64) -> u64;
    }
}

/// What a call told: 0 or the refusal's number, and the four words.
pub type Told = (u64, [u64; 4]);

pub fn judge(record: &[u8], drawing: &[u8]) -> Told {
    let mut answer = [0; 4];
    let number = unsafe { c::yajilin_judge(record.as_ptr(), record.len(), drawing.as_ptr(), drawing.len(), answer.as_mut_ptr()) };
    (number, answer)
}

pub fn sheet(record: &[u8], drawing: &[u8], sheet: &mut [u8]) -> Told {
    let mut answer = [0; 4];
    let number = unsafe {
        c::yajilin_sheet(
            record.as_ptr(),
            record.len(),
            drawing.as_ptr(),
            drawing.len(),
            sheet.as_mut_ptr(),
            sheet.len(),
            answer.as_mut_ptr(),
        )
    };
    (number, answer)
}

pub fn encode(record: &[u8], list: &mut [i32]) -> Told {
    let mut answer = [0; 4];
    let number = unsafe { c::yajilin_encode(record.as_ptr(), record.len(), list.as_mut_ptr(), list.len(), answer.as_mut_ptr()) };
    (number, answer)
}

pub fn decode(record: &[u8], values: &[u8], drawing: &mut [u8]) -> Told {
    let mut answer = [0; 4];
    let number = unsafe {
        c::yajilin_decode(
            record.as_ptr(),
            record.len(),
            values.as_ptr(),
            values.len(),
            drawing.as_mut_ptr(),
            drawing.len(),
            answer.as_mut_ptr(),
        )
    };
    (number, answer)
}

pub fn search(variables: usize, list: &[i32], slices: &mut Slices, used: u64, budget: u64) -> Told {
    let mut answer = [0; 4];
    let number = unsafe {
        c::yajilin_search(
            variables as u64,
            list.as_ptr(),
            list.len(),
            slices.trail.as_mut_ptr(),
            slices.trail.len(),
            slices.marks.as_mut_ptr(),
            slices.marks.len(),
            slices.numbers.as_mut_ptr(),
            slices.numbers.len(),
            used,
            budget,
            answer.as_mut_ptr(),
        )
    };
    (number, answer)
}

pub fn next(variables: usize, list: &[i32], slices: &mut Slices, used: u64, budget: u64) -> Told {
    let mut answer = [0; 4];
    let number = unsafe {
        c::yajilin_next(
            variables as u64,
            list.as_ptr(),
            list.len(),
            slices.trail.as_mut_ptr(),
            slices.trail.len(),
            slices.marks.as_mut_ptr(),
            slices.marks.len(),
            slices.numbers.as_mut_ptr(),
            slices.numbers.len(),
            used,
            budget,
            answer.as_mut_ptr(),
        )
    };
    (number, answer)
}

pub fn tally(record: &[u8], arrow: Arrow, lent: Lent, budget: u64) -> Told {
    let mut answer = [0; 4];
    let number = unsafe {
        c::yajilin_tally(
            record.as_ptr(),
            record.len(),
            arrow.cell,
            arrow.direction,
            lent.counters.as_mut_ptr(),
            lent.counters.len(),
            lent.list.as_mut_ptr(),
            lent.list.len(),
            lent.trail.as_mut_ptr(),
            lent.trail.len(),
            lent.marks.as_mut_ptr(),
            lent.marks.len(),
            lent.numbers.as_mut_ptr(),
            lent.numbers.len(),
            budget,
            answer.as_mut_ptr(),
        )
    };
    (number, answer)
}

pub fn satisfied(variables: usize, list: &[i32], words: &[u64]) -> Told {
    let mut answer = [0; 4];
    let number =
        unsafe { c::yajilin_satisfied(variables as u64, list.as_ptr(), list.len(), words.as_ptr(), words.len(), answer.as_mut_ptr()) };
    (number, answer)
}

pub fn write(variables: usize, list: &[i32], text: &mut [u8]) -> Told {
    let mut answer = [0; 4];
    let number =
        unsafe { c::yajilin_write(variables as u64, list.as_ptr(), list.len(), text.as_mut_ptr(), text.len(), answer.as_mut_ptr()) };
    (number, answer)
}

pub fn read(text: &[u8], list: &mut [i32]) -> Told {
    let mut answer = [0; 4];
    let number = unsafe { c::yajilin_read(text.as_ptr(), text.len(), list.as_mut_ptr(), list.len(), answer.as_mut_ptr()) };
    (number, answer)
}
