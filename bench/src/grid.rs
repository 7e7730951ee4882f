//! Grid records: open ones, random ones, and ones made with a solution.

pub const BLACK: u8 = 0x10;
/// A clue or a shaded cell.
pub const NOT_OPEN: u8 = 0x20;

/// North, east, south, west.
pub const LINK: [u8; 4] = [1, 2, 4, 8];

pub fn opposite(d: usize) -> usize {
    (d + 2) % 4
}

#[derive(Clone, Copy)]
pub struct Sides {
    pub rows: usize,
    pub columns: usize,
}

impl Sides {
    pub fn size(self) -> usize {
        self.rows * self.columns
    }

    pub fn neighbour(self, x: usize, d: usize) -> Option<usize> {
        let (row, column) = (x / self.columns, x % self.columns);
        match d {
            0 => (row > 0).then(|| x - self.columns),
            1 => (column + 1 < self.columns).then(|| x + 1),
            2 => (row + 1 < self.rows).then(|| x + self.columns),
            _ => (column > 0).then(|| x - 1),
        }
    }

    /// The cells from a cell's neighbour to the edge.
    pub fn to_edge(self, x: usize, d: usize) -> impl Iterator<Item = usize> {
        std::iter::successors(self.neighbour(x, d), move |&y| self.neighbour(y, d))
    }
}

#[derive(Clone, Copy)]
enum Cell {
    Open,
    /// A direction and a number.
    Clue(usize, usize),
    Shaded,
}

/// A record's kind, and what it sets.
#[derive(Clone, Copy)]
pub struct Kind {
    pub number: u16,
    pub most_side: u8,
    pub cell_bytes: usize,
    /// The lower bits of a clue's code, which are its number.
    pub number_bits: u32,
    pub most_number: u16,
    /// The code of a shaded cell.
    pub shaded: u16,
    /// Does a line stop before the first clue cell? Else it goes to the edge.
    pub stops_before_clues: bool,
}

const ONE: Kind = Kind { number: 1, most_side: 24, cell_bytes: 1, number_bits: 4, most_number: 15, shaded: 0x50, stops_before_clues: false };

pub const KINDS: [Kind; 3] = [
    ONE,
    Kind { number: 2, most_side: 45, cell_bytes: 2, number_bits: 12, most_number: 44, shaded: 0x5000, ..ONE },
    Kind { number: 3, stops_before_clues: true, ..ONE },
];

impl Kind {
    /// The first that has such a side.
    fn with_side(side: usize) -> Kind {
        KINDS[(side > KINDS[0].most_side as usize) as usize]
    }

    fn code(self, cell: Cell) -> usize {
        match cell {
            Cell::Open => 0,
            Cell::Clue(d, number) => (d + 1) << self.number_bits | number,
            Cell::Shaded => self.shaded as usize,
        }
    }

    fn cell(self, code: &[u8]) -> Cell {
        match code.iter().rev().fold(0, |code, &byte| code << 8 | byte as usize) {
            0 => Cell::Open,
            code if code == self.shaded as usize => Cell::Shaded,
            code => Cell::Clue((code >> self.number_bits) - 1, code & ((1 << self.number_bits) - 1)),
        }
    }

    /// The line of a clue.
    fn line(self, sides: Sides, cells: &[Cell], x: usize, d: usize) -> impl Iterator<Item = usize> + '_ {
        sides.to_edge(x, d).take_while(move |&y| !(self.stops_before_clues && matches!(cells[y], Cell::Clue(..))))
    }

    /// The record of a grid whose clues get the numbers that a drawing has on their lines.
    fn counted_record(self, sides: Sides, mut cells: Vec<Cell>, drawing: &[u8]) -> Vec<u8> {
        for x in 0..cells.len() {
            let Cell::Clue(d, _) = cells[x] else { continue };
            let black = self.line(sides, &cells, x, d).filter(|&y| drawing[y] == BLACK).count();
            cells[x] = Cell::Clue(d, black);
        }
        self.record_of(sides, &cells)
    }

    /// The record of a grid.
    fn record_of(self, sides: Sides, cells: &[Cell]) -> Vec<u8> {
        let length = (6 + self.cell_bytes * cells.len()) as u16;
        let mut record = length.to_le_bytes().to_vec();
        record.extend(self.number.to_le_bytes());
        record.extend([sides.rows as u8, sides.columns as u8]);
        for &cell in cells {
            record.extend(&self.code(cell).to_le_bytes()[..self.cell_bytes]);
        }
        record
    }
}

pub fn open(side: usize) -> Vec<u8> {
    Kind::with_side(side).record_of(Sides { rows: side, columns: side }, &vec![Cell::Open; side * side])
}

/// A grid that is open but for these cells, which are shaded.
pub fn shaded_in(kind: Kind, sides: Sides, shaded: &[usize]) -> Vec<u8> {
    let mut cells = vec![Cell::Open; sides.size()];
    for &x in shaded {
        cells[x] = Cell::Shaded;
    }
    kind.record_of(sides, &cells)
}

/// Shades a cell of a record, whatever it was.
pub fn shade(kind: Kind, record: &mut [u8], x: usize) {
    record[6 + kind.cell_bytes * x..][..kind.cell_bytes].copy_from_slice(&kind.shaded.to_le_bytes()[..kind.cell_bytes]);
}

/// Numbers that are the same in every run (SplitMix64).
pub struct Dice(pub u64);

impl Dice {
    pub fn below(&mut self, n: usize) -> usize {
        self.0 = self.0.wrapping_add(0x9e3779b97f4a7c15);
        let mut z = self.0;
        z = (z ^ (z >> 30)).wrapping_mul(0xbf58476d1ce4e5b9);
        z = (z ^ (z >> 27)).wrapping_mul(0x94d049bb133111eb);
        ((z ^ (z >> 31)) % n as u64) as usize
    }

    pub fn shuffled(&mut self, n: usize) -> Vec<usize> {
        let mut all: Vec<usize> = (0..n).collect();
        for i in (1..n).rev() {
            all.swap(i, self.below(i + 1));
        }
        all
    }
}

/// A region of the squares between the cells, whose outline is one loop through cells.
struct Region {
    side: usize,
    inside: Vec<bool>,
}

impl Region {
    fn has(&self, row: isize, column: isize) -> bool {
        let side = self.side as isize;
        (0..side).contains(&row) && (0..side).contains(&column) && self.inside[(row * side + column) as usize]
    }

    /// May a square be added so that the outline stays one loop and passes two cells more? It must share exactly one side with
    /// the region, and around it the region must be in one piece.
    fn grows_by(&self, square: usize) -> bool {
        const RING: [(isize, isize); 8] = [(-1, 0), (-1, 1), (0, 1), (1, 1), (1, 0), (1, -1), (0, -1), (-1, -1)];
        let (row, column) = ((square / self.side) as isize, (square % self.side) as isize);
        let ring = RING.map(|(r, c)| self.has(row + r, column + c));
        let sides = (0..4).filter(|i| ring[2 * i]).count();
        let changes = (0..8).filter(|&i| ring[i] != ring[(i + 1) % 8]).count();
        !self.inside[square] && sides == 1 && changes == 2
    }

    /// Grown until the outline passes so many cells, or as far as it goes.
    fn grown(side: usize, cells: usize, dice: &mut Dice) -> Region {
        let mut region = Region { side, inside: vec![false; side * side] };
        region.inside[dice.below(side * side)] = true;
        for _ in (4..cells).step_by(2) {
            let order = dice.shuffled(side * side);
            let Some(square) = order.into_iter().find(|&s| region.grows_by(s)) else { break };
            region.inside[square] = true;
        }
        region
    }

    /// The links of the outline.
    fn outline(&self, sides: Sides) -> Vec<u8> {
        let mut drawing = vec![0; sides.size()];
        for row in 0..sides.rows as isize {
            for column in 0..sides.columns as isize {
                let x = row as usize * sides.columns + column as usize;
                let (nw, ne) = (self.has(row - 1, column - 1), self.has(row - 1, column));
                let (sw, se) = (self.has(row, column - 1), self.has(row, column));
                for (d, link) in [nw != ne, ne != se, sw != se, nw != sw].into_iter().enumerate() {
                    drawing[x] |= if link { LINK[d] } else { 0 };
                }
            }
        }
        drawing
    }
}

/// A grid with a solution, and that solution: a loop through about 7 of 10 cells, of the others about half black and half clues, with
/// the numbers that fit. Whether it has other solutions isn't looked at.
pub fn dealt(side: usize, seed: u64) -> (Vec<u8>, Vec<u8>) {
    dealt_in(Kind::with_side(side), side, seed)
}

/// The same in a record of some kind.
pub fn dealt_in(kind: Kind, side: usize, seed: u64) -> (Vec<u8>, Vec<u8>) {
    let (cells, drawing) = dealt_cells(side, seed);
    (kind.counted_record(Sides { rows: side, columns: side }, cells, &drawing), drawing)
}

/// The same, but every other clue, from the first on, is shaded in its place. The drawing is a solution still.
pub fn dealt_shaded_in(kind: Kind, side: usize, seed: u64) -> (Vec<u8>, Vec<u8>) {
    let (mut cells, drawing) = dealt_cells(side, seed);
    for cell in cells.iter_mut().filter(|c| matches!(c, Cell::Clue(..))).step_by(2) {
        *cell = Cell::Shaded;
    }
    (kind.counted_record(Sides { rows: side, columns: side }, cells, &drawing), drawing)
}

/// The cells of a record of one kind in a record of another. What solves the one may not solve the other.
pub fn recoded(from: Kind, to: Kind, record: &[u8]) -> Vec<u8> {
    let sides = Sides { rows: record[4] as usize, columns: record[5] as usize };
    let cells: Vec<Cell> = record[6..].chunks(from.cell_bytes).map(|code| from.cell(code)).collect();
    to.record_of(sides, &cells)
}

/// A drawing of an open grid: a loop that grew as far as it goes, and black cells. It is a solution where no two of these touch.
pub fn drawn_open(side: usize, seed: u64) -> Vec<u8> {
    let sides = Sides { rows: side, columns: side };
    let mut drawing = Region::grown(side - 1, sides.size(), &mut Dice(seed)).outline(sides);
    for byte in drawing.iter_mut().filter(|byte| **byte == 0) {
        *byte = BLACK;
    }
    drawing
}

/// A grid with a loop through four cells and a clue whose line has so many black cells, all others shaded; and its solution. The line is
/// the rest of the last row or the last column. None where the kind has no such side.
pub fn counted_in(kind: Kind, d: usize, number: usize) -> Option<(Vec<u8>, Vec<u8>)> {
    let side = (2 * number).max(3);
    if side > kind.most_side as usize {
        return None;
    }
    let sides = Sides { rows: side, columns: side };
    let last = sides.size() - 1;
    let clue = [last, last + 1 - side, side - 1, last][d];
    let black = sides.to_edge(clue, d).step_by(2).take(number).map(|x| (x, BLACK));
    let white = [(0, 0x06), (1, 0x0c), (side, 0x03), (side + 1, 0x09)];
    let mut cells = vec![Cell::Shaded; sides.size()];
    let mut drawing = vec![NOT_OPEN; sides.size()];
    cells[clue] = Cell::Clue(d, number);
    for (x, byte) in black.chain(white) {
        cells[x] = Cell::Open;
        drawing[x] = byte;
    }
    Some((kind.record_of(sides, &cells), drawing))
}

/// A 3×4 grid with a shaded cell 0 and a clue in cell 2. In its only solution cells 1 and 3 are black, on either side of the clue.
pub fn parted_in(kind: Kind) -> Vec<u8> {
    let sides = Sides { rows: 3, columns: 4 };
    let mut cells = vec![Cell::Open; sides.size()];
    cells[0] = Cell::Shaded;
    cells[2] = Cell::Clue(0, 0);
    kind.record_of(sides, &cells)
}

/// A grid of random cells, most of them open, with small numbers. It may have no solution.
pub fn random_in(kind: Kind, sides: Sides, seed: u64) -> Vec<u8> {
    let mut dice = Dice(seed);
    let mut cells = vec![Cell::Open; sides.size()];
    for cell in &mut cells {
        match dice.below(10) {
            0 => *cell = Cell::Shaded,
            1 => *cell = Cell::Clue(dice.below(4), dice.below(3)),
            _ => {}
        }
    }
    kind.record_of(sides, &cells)
}

/// The cells of a dealt grid, with clues that have no number yet, and the drawing.
fn dealt_cells(side: usize, seed: u64) -> (Vec<Cell>, Vec<u8>) {
    let sides = Sides { rows: side, columns: side };
    let mut dice = Dice(seed);
    let mut drawing = Region::grown(side - 1, side * side * 7 / 10, &mut dice).outline(sides);
    for x in dice.shuffled(sides.size()) {
        if drawing[x] == 0 {
            let beside_black = (0..4).any(|d| sides.neighbour(x, d).is_some_and(|y| drawing[y] == BLACK));
            drawing[x] = if beside_black || dice.below(3) == 0 { NOT_OPEN } else { BLACK };
        }
    }
    let mut cells = vec![Cell::Open; sides.size()];
    for x in 0..sides.size() {
        if drawing[x] == NOT_OPEN {
            cells[x] = Cell::Clue(dice.below(4), 0);
        }
    }
    (cells, drawing)
}
