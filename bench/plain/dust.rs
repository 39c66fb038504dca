//! Dust: what it links to and where it points, kept by cell, and its levels, which stand in the cells themselves. They
//! are repaired where something changed: what has lost its support is put out first, and then levels rise again.

use crate::cell_set::CellSet;
use crate::natures::{bit, is_dust, nature, opposite, DOWN, EAST, NORTH, SIDE_DIRECTIONS, SOUTH, UP, WEST};
use crate::signals::{has_feeder, Steps};
use crate::DUST;

const MOST_LEVEL: u8 = 15;

pub fn level(cell: u8) -> u8 {
    cell - DUST
}

pub struct Wires {
    steps: Steps,
    /// The steps of the twelve links: side by side, straight on, up and down.
    link_steps: [isize; 12],
    /// What the dust of a cell links to, a bit for each of these steps.
    links: Vec<u16>,
    /// The directions to which it points, a bit each; to what it lies on, always.
    points: Vec<u8>,
    /// The levels before a repair, of cells that it has changed.
    touched: CellSet,
    before: Vec<u8>,
    stack: Vec<usize>,
    lowered: Vec<usize>,
    /// What is to rise to each level.
    rising: [Vec<usize>; 16],
}

impl Wires {
    pub fn new(count: usize, steps: Steps) -> Wires {
        let mut link_steps = [0; 12];
        for (side, &direction) in SIDE_DIRECTIONS.iter().enumerate() {
            let (beside, up) = (steps.by[direction], steps.by[UP]);
            link_steps[3 * side..3 * side + 3].copy_from_slice(&[beside, beside + up, beside - up]);
        }
        Wires {
            steps,
            link_steps,
            links: vec![0; count],
            points: vec![0; count],
            touched: CellSet::new(count),
            before: Vec::new(),
            stack: Vec::new(),
            lowered: Vec::new(),
            rising: Default::default(),
        }
    }

    pub fn points(&self, at: usize) -> u8 {
        self.points[at]
    }

    /// Finds anew what the dust at a cell links to, and where it points. True where it points elsewhere than before.
    pub fn lay(&mut self, cells: &[u8], at: usize) -> bool {
        let has_lid = nature(cells[self.steps.to(at, UP)]).conducts;
        let (mut links, mut joins) = (0, 0);
        for (side, &direction) in SIDE_DIRECTIONS.iter().enumerate() {
            let beside = self.steps.to(at, direction);
            let neighbor = nature(cells[beside]);
            let straight = is_dust(cells[beside]);
            let climbs = !has_lid && is_dust(cells[self.steps.to(beside, UP)]);
            let falls = !neighbor.conducts && is_dust(cells[self.steps.to(beside, DOWN)]);
            let linked = straight as u16 | (climbs as u16) << 1 | (falls as u16) << 2;
            links |= linked << (3 * side);
            if linked != 0 || neighbor.joined & bit(direction) != 0 {
                joins |= bit(direction);
            }
        }
        self.links[at] = links;
        let points = points_of(joins);
        points != std::mem::replace(&mut self.points[at], points)
    }

    /// What the dust at a cell links to.
    fn linked(&self, at: usize) -> impl Iterator<Item = usize> {
        let (mut links, steps) = (self.links[at], self.link_steps);
        std::iter::from_fn(move || {
            let link = (links != 0).then(|| links.trailing_zeros() as usize)?;
            links &= links - 1;
            Some(at.wrapping_add_signed(steps[link]))
        })
    }

    /// Repairs the levels, where the links of the given dust, or what feeds it, may have changed. What it links to was
    /// found anew. It tells each dust that had power and has none, or the other way round.
    pub fn repair(&mut self, cells: &mut [u8], dust: &[usize], mut switched: impl FnMut(usize)) {
        for &at in dust {
            if has_feeder(cells, &self.steps, at) {
                self.rising[MOST_LEVEL as usize].push(at);
            } else {
                self.stack.push(at);
                self.lowered.push(at);
            }
        }
        self.lower(cells);
        self.raise(cells);
        for (&at, &old) in self.touched.list.iter().zip(&self.before) {
            if (old > 0) != (level(cells[at]) > 0) {
                switched(at);
            }
        }
        self.touched.clear();
        self.before.clear();
    }

    fn touch(&mut self, at: usize, old: u8) {
        if self.touched.insert(at) {
            self.before.push(old);
        }
    }

    /// Puts out what the stack has and nothing supports: unfed dust that links to none of one level more.
    fn lower(&mut self, cells: &mut [u8]) {
        while let Some(at) = self.stack.pop() {
            let old = level(cells[at]);
            if old == 0 || self.linked(at).any(|other| level(cells[other]) == old + 1) {
                continue;
            }
            cells[at] = DUST;
            self.touch(at, old);
            self.lowered.push(at);
            for other in self.linked(at) {
                if level(cells[other]) + 1 == old {
                    self.stack.push(other);
                }
            }
        }
    }

    /// Has the levels rise, the highest first, so that each rises once.
    fn raise(&mut self, cells: &mut [u8]) {
        for at in std::mem::take(&mut self.lowered) {
            let highest = self.linked(at).map(|other| level(cells[other])).max().unwrap_or(0);
            self.rising[highest.saturating_sub(1) as usize].push(at);
        }
        for new in (1..=MOST_LEVEL).rev() {
            while let Some(at) = self.rising[new as usize].pop() {
                let old = level(cells[at]);
                if old >= new {
                    continue;
                }
                cells[at] = DUST + new;
                self.touch(at, old);
                for other in self.linked(at) {
                    if level(cells[other]) + 1 < new {
                        self.rising[new as usize - 1].push(other);
                    }
                }
            }
        }
        self.rising[0].clear();
    }
}

/// Where dust points that joins something on these sides: to all sides where it joins nothing, to both ends of an axis
/// where it joins something on that axis alone, and else to what it joins.
fn points_of(joins: u8) -> u8 {
    const EAST_WEST: u8 = bit(EAST) | bit(WEST);
    const SOUTH_NORTH: u8 = bit(SOUTH) | bit(NORTH);
    let mut points = joins | bit(DOWN);
    if joins & SOUTH_NORTH == 0 {
        points |= EAST_WEST;
    }
    if joins & EAST_WEST == 0 {
        points |= SOUTH_NORTH;
    }
    points
}

/// Dust at `from` powers the cell from which it lies in the direction.
pub fn dust_powers(cells: &[u8], wires: &Wires, from: usize, direction: usize) -> bool {
    let cell = cells[from];
    is_dust(cell) && level(cell) > 0 && wires.points(from) & bit(opposite(direction)) != 0
}
