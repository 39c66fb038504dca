//! What a cell is to machines, whatever stands round it: a table by the byte of the cell.

use crate::{AIR, BEDROCK, CELLS, CHEST, DUST, HEAD, LAMP, LEVER, PISTON, REPEATER, STICKY, STONE, TORCH};

/// The byte of what lies outside the world: it conducts nothing, and no piston moves it.
pub const OUTSIDE: u8 = CELLS as u8;

pub const EAST: usize = 0;
pub const WEST: usize = 1;
pub const UP: usize = 2;
pub const DOWN: usize = 3;
pub const SOUTH: usize = 4;
pub const NORTH: usize = 5;

/// The directions of the facings of torches, and those of sides.
const MOUNTS: [usize; 5] = [EAST, WEST, DOWN, SOUTH, NORTH];
pub const SIDE_DIRECTIONS: [usize; 4] = [EAST, WEST, SOUTH, NORTH];

/// The other end of the axis.
pub const fn opposite(direction: usize) -> usize {
    direction ^ 1
}

/// A set of directions has a bit for each.
pub const fn bit(direction: usize) -> u8 {
    1 << direction
}

const ALL: u8 = 0b11_1111;

#[derive(Clone, Copy, PartialEq)]
pub enum Kind { Block, Dust, Torch, Lever, Repeater, Lamp, Piston }

/// What a cell does in the way of a piston.
#[derive(Clone, Copy, PartialEq)]
pub enum Way { Empty, Moves, Breaks, Stays }

#[derive(Clone, Copy)]
pub struct Nature {
    pub kind: Kind,
    pub way: Way,
    pub conducts: bool,
    /// To which neighbors it gives power.
    pub gives: u8,
    /// Which neighbors it drives, if they conduct.
    pub drives: u8,
    /// From which sides dust joins it, besides other dust.
    pub joined: u8,
    /// The block of a torch, the front of a piston, a head or a repeater.
    pub facing: usize,
}

impl Nature {
    /// Whether signals near by are the same by this cell as by another.
    pub fn is_same_to_others(&self, other: &Nature) -> bool {
        (self.kind == Kind::Dust) == (other.kind == Kind::Dust)
            && self.conducts == other.conducts
            && self.gives == other.gives
            && self.joined == other.joined
    }
}

const PLAIN: Nature =
    Nature { kind: Kind::Block, way: Way::Stays, conducts: false, gives: 0, drives: 0, joined: 0, facing: UP };

const fn of_block(cell: u8) -> Nature {
    const GLASS: u8 = STONE + 3;
    const OBSIDIAN: u8 = STONE + 4;
    let way = match cell {
        AIR => Way::Empty,
        OBSIDIAN | BEDROCK | CHEST => Way::Stays,
        _ => Way::Moves,
    };
    Nature { way, conducts: STONE <= cell && cell <= BEDROCK && cell != GLASS, ..PLAIN }
}

const fn of_torch(cell: u8) -> Nature {
    let facing = MOUNTS[(cell - TORCH) as usize / 2];
    let (gives, drives) = if is_second(cell, TORCH) { (ALL & !bit(facing), bit(UP)) } else { (0, 0) };
    Nature { kind: Kind::Torch, way: Way::Breaks, gives, drives, joined: ALL, facing, ..PLAIN }
}

const fn of_lever(cell: u8) -> Nature {
    let facing = (cell - LEVER) as usize / 2;
    let (gives, drives) = if is_second(cell, LEVER) { (ALL, bit(facing)) } else { (0, 0) };
    Nature { kind: Kind::Lever, way: Way::Breaks, gives, drives, joined: ALL, facing, ..PLAIN }
}

const fn of_repeater(cell: u8) -> Nature {
    let facing = SIDE_DIRECTIONS[(cell - REPEATER) as usize / 20];
    let gives = if Repeating::of(cell).is_on { bit(facing) } else { 0 };
    let joined = bit(facing) | bit(opposite(facing));
    Nature { kind: Kind::Repeater, way: Way::Breaks, gives, drives: gives, joined, facing, ..PLAIN }
}

const fn of_piston(cell: u8) -> Nature {
    let way = if is_second(cell, PISTON) { Way::Stays } else { Way::Moves };
    Nature { kind: Kind::Piston, way, facing: (cell - PISTON) as usize / 2 % 6, ..PLAIN }
}

const fn nature_of(cell: u8) -> Nature {
    match cell {
        ..DUST => of_block(cell),
        DUST..TORCH => Nature { kind: Kind::Dust, way: Way::Breaks, ..PLAIN },
        TORCH..LEVER => of_torch(cell),
        LEVER..REPEATER => of_lever(cell),
        REPEATER..LAMP => of_repeater(cell),
        LAMP..PISTON => Nature { kind: Kind::Lamp, way: Way::Moves, conducts: true, ..PLAIN },
        PISTON..HEAD => of_piston(cell),
        HEAD..OUTSIDE => Nature { facing: (cell - HEAD) as usize / 2, ..PLAIN },
        _ => PLAIN,
    }
}

/// For each byte, so that no index has to be tested.
static NATURES: [Nature; 256] = {
    let mut natures = [PLAIN; 256];
    let mut cell = 0;
    while cell < 256 {
        natures[cell] = nature_of(cell as u8);
        cell += 1;
    }
    natures
};

pub fn nature(cell: u8) -> &'static Nature {
    &NATURES[cell as usize]
}

pub fn is_dust(cell: u8) -> bool {
    (DUST..TORCH).contains(&cell)
}

/// The second of the two states in which a facing of a kind stands: lit, on, out.
pub const fn is_second(cell: u8, kind: u8) -> bool {
    (cell - kind) % 2 == 1
}

pub fn is_sticky(piston: u8) -> bool {
    piston >= STICKY
}

/// The head of a piston.
pub fn head_of(piston: u8) -> u8 {
    HEAD + 2 * nature(piston).facing as u8 + is_sticky(piston) as u8
}

/// The state of a repeater.
#[derive(Clone, Copy)]
pub struct Repeating {
    /// The byte of its side and delay, off and counting nothing.
    rest: u8,
    pub delay: u8,
    pub is_on: bool,
    /// What is left of a count.
    pub wait: u8,
}

impl Repeating {
    pub const fn of(cell: u8) -> Repeating {
        let within = (cell - REPEATER) % 20;
        let delay = match within {
            0..2 => 1,
            2..6 => 2,
            6..12 => 3,
            _ => 4,
        };
        let state = within - delay * (delay - 1);
        Repeating { rest: cell - state, delay, is_on: state >= delay, wait: state % delay }
    }

    pub fn cell(self) -> u8 {
        self.rest + self.delay * self.is_on as u8 + self.wait
    }
}
