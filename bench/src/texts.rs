//! Small texts, most of them wrong: the reader and plain Rust read them alike, or refuse them at the same place.

use crate::grid::{self, Dice};
use crate::table::{fail, same};
use crate::{clauses_of, library, plain};

/// The bytes that the form speaks of, and some that it has nowhere but in comment lines.
const BYTES: [u8; 15] = *b"\0\t\n\r %+-0129cp\xff";

/// All that the reader takes beside the narrow form, and no LF at the end.
const WIDE: &[u8] = b"c\xff wide\np cnf 12 6\n\t1\t-2  0 3 0\nc between clauses\n\n-10\n12\n 0\nc\n0 1 0\t\n \nc last\n-12 11 0";

/// Random texts are mostly made of these, after a header.
const PIECES: [&[u8]; 18] =
    [b" ", b" ", b"\t", b"\n", b"0", b"0 ", b"0 ", b"0\n", b"0\n", b"1 ", b"-1 ", b"2\t", b"-2\n", b"10", b"c\n", b"c x\n", b"c", b"\nc\n"];

pub fn compare() {
    compare_changed(&small());
    compare_changed(WIDE);
    compare_random(20_000);
}

/// The text of the open 2×2 grid, after a comment line.
fn small() -> Vec<u8> {
    let clauses = clauses_of("read text, one byte changed", &grid::open(2));
    let mut body = Vec::new();
    plain::write(clauses.variables as u64, &clauses.list, &mut body);
    [b"c 2x2\n", &body[..]].concat()
}

/// A text that is taken, and with one byte changed, at every place.
fn compare_changed(text: &[u8]) {
    let what = "read text, one byte changed";
    if !same_read(what, text) {
        fail(what, "the text itself is refused");
    }
    let mut text = text.to_vec();
    for at in 0..text.len() {
        let was = text[at];
        for byte in BYTES {
            text[at] = byte;
            same_read(what, &text);
        }
        text[at] = was;
    }
}

fn compare_random(count: usize) {
    let what = "read text, random";
    let mut dice = Dice(1);
    let taken = (0..count).filter(|_| same_read(what, &random(&mut dice))).count();
    if taken == 0 {
        fail(what, "every text is refused, so no list was compared");
    }
}

fn random(dice: &mut Dice) -> Vec<u8> {
    let mut text = format!("p cnf {} {}\n", dice.below(3), dice.below(4)).into_bytes();
    for _ in 0..dice.below(12) {
        match dice.below(12) {
            0 => text.push(BYTES[dice.below(BYTES.len())]),
            _ => text.extend(PIECES[dice.below(PIECES.len())]),
        }
    }
    text
}

/// Is the text taken, by both?
fn same_read(what: &str, text: &[u8]) -> bool {
    let mut list = vec![0; text.len()];
    let mut plain = Vec::new();
    let told = library::read(text, &mut list);
    match plain::read(text, &mut plain) {
        Ok((variables, clauses)) => {
            same(what, &told, &(0, [plain.len() as u64, variables, clauses, 0]));
            same(what, &&list[..plain.len()], &&plain[..]);
            true
        }
        Err(place) => {
            same(what, &told, &(19, [place as u64, 0, 0, 0]));
            false
        }
    }
}
