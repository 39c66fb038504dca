//! A tick of machines. It looks only where something changed: what stands near a changed cell wakes, and what dust
//! reaches whose power comes or goes.

use std::mem;

use crate::cell_set::CellSet;
use crate::dust::Wires;
use crate::natures::{
    bit, is_second, nature, opposite, Kind, Repeating, DOWN, EAST, NORTH, SIDE_DIRECTIONS, SOUTH, WEST,
};
use crate::pistons::{Fate, Moves};
use crate::signals::{activates, is_powered, Steps};
use crate::{Judge, World, DUST, LAMP, PISTON, TORCH};

const LAMP_LIT: u8 = LAMP + 1;
const LAMP_COOLING: u8 = LAMP + 2;

pub struct Machines {
    steps: Steps,
    /// The steps to all cells at most two neighbors off, none among them.
    near: Vec<isize>,
    wires: Wires,
    /// Cells that are others than at the last tick.
    changed: Vec<usize>,
    /// Cells whose change is nothing to others, as that of a count.
    alone: Vec<usize>,
    /// What is awake in this tick: dust, and parts that may become another part.
    dust: CellSet,
    parts: CellSet,
    /// The pistons that are in and active, or out and not, in the order of their positions.
    restless: Vec<usize>,
    /// The cells that parts become.
    turned: Vec<(usize, u8)>,
    moves: Moves,
    /// All is made anew in each tick, to check the rest by.
    is_anew: bool,
}

impl Machines {
    /// The machines of a world in which parts were placed at these cells.
    pub fn new(world: &World, placed: Vec<usize>, is_anew: bool) -> Machines {
        let steps = world.steps();
        let count = world.cells.len();
        Machines {
            steps,
            near: near(&steps),
            wires: Wires::new(count, steps),
            changed: Vec::new(),
            alone: placed,
            dust: CellSet::new(count),
            parts: CellSet::new(count),
            restless: Vec::new(),
            turned: Vec::new(),
            moves: Moves::new(count),
            is_anew,
        }
    }

    /// Takes note of a cell that was changed since the last tick.
    pub fn note(&mut self, at: usize) {
        self.changed.push(at);
    }

    /// Steps all machines, and tells what becomes of the moves that pistons ask for.
    pub fn tick(&mut self, world: &mut World, judge: &mut Judge) -> &[(usize, Fate)] {
        self.wake_changed(&world.cells);
        if self.is_anew {
            self.wake_all(&mut world.cells);
        }
        self.settle_dust(&mut world.cells);
        self.turn_parts(&world.cells);
        self.moves.ask(&world.cells, &self.steps, &self.restless);
        self.moves.decide(world, judge);
        self.put_down(&mut world.cells);
        &self.moves.fates
    }

    fn wake(&mut self, cells: &[u8], at: usize) {
        match nature(cells[at]).kind {
            Kind::Block | Kind::Lever => {}
            Kind::Dust => drop(self.dust.insert(at)),
            Kind::Torch | Kind::Repeater | Kind::Lamp | Kind::Piston => drop(self.parts.insert(at)),
        }
    }

    fn wake_changed(&mut self, cells: &[u8]) {
        let near = mem::take(&mut self.near);
        let mut changed = mem::take(&mut self.changed);
        for at in changed.drain(..) {
            self.wake(cells, at);
            for &step in &near {
                self.wake(cells, at.wrapping_add_signed(step));
            }
        }
        let mut alone = mem::take(&mut self.alone);
        for at in alone.drain(..) {
            self.wake(cells, at);
        }
        (self.near, self.changed, self.alone) = (near, changed, alone);
    }

    fn wake_all(&mut self, cells: &mut [u8]) {
        for at in 0..cells.len() {
            self.wake(cells, at);
        }
        for &at in &self.dust.list {
            cells[at] = DUST;
        }
    }

    /// Wakes what dust reaches, and what stands round a conductor that it reaches.
    fn wake_reached(&mut self, cells: &[u8], dust: usize) {
        for &direction in &[EAST, WEST, SOUTH, NORTH, DOWN] {
            let reached = self.steps.to(dust, direction);
            self.wake_part(cells, reached);
            if nature(cells[reached]).conducts {
                for around in 0..6 {
                    self.wake_part(cells, self.steps.to(reached, around));
                }
            }
        }
    }

    fn wake_part(&mut self, cells: &[u8], at: usize) {
        if nature(cells[at]).kind != Kind::Dust {
            self.wake(cells, at);
        }
    }

    /// Gives all dust its level.
    fn settle_dust(&mut self, cells: &mut [u8]) {
        let dust = mem::take(&mut self.dust);
        let mut reaching = Vec::new();
        for &at in &dust.list {
            if self.wires.lay(cells, at) {
                reaching.push(at);
            }
        }
        self.wires.repair(cells, &dust.list, |at| reaching.push(at));
        for at in reaching {
            self.wake_reached(cells, at);
        }
        self.dust = dust;
        self.dust.clear();
    }

    /// Finds what the parts that are awake become, and which pistons are restless.
    fn turn_parts(&mut self, cells: &[u8]) {
        self.turned.clear();
        let mut parts = mem::take(&mut self.parts);
        self.restless.retain(|&at| nature(cells[at]).kind == Kind::Piston && !parts.contains(at));
        for &at in &parts.list {
            if nature(cells[at]).kind == Kind::Piston {
                if self.is_restless(cells, at) {
                    self.restless.push(at);
                }
                continue;
            }
            let next = self.next_part(cells, at);
            if next != cells[at] {
                self.turned.push((at, next));
            }
        }
        self.restless.sort_unstable();
        parts.clear();
        self.parts = parts;
    }

    fn is_powered(&self, cells: &[u8], at: usize) -> bool {
        is_powered(cells, &self.steps, &self.wires, at)
    }

    fn activates(&self, cells: &[u8], at: usize, direction: usize) -> bool {
        activates(cells, &self.steps, &self.wires, at, direction)
    }

    fn is_restless(&self, cells: &[u8], piston: usize) -> bool {
        let front = nature(cells[piston]).facing;
        let is_active = (0..6).any(|d| d != front && self.activates(cells, piston, d));
        is_active != is_second(cells[piston], PISTON)
    }

    fn next_part(&self, cells: &[u8], at: usize) -> u8 {
        let cell = cells[at];
        let nature = nature(cell);
        match nature.kind {
            Kind::Torch => {
                let is_lit = !self.is_powered(cells, self.steps.to(at, nature.facing));
                cell - is_second(cell, TORCH) as u8 + is_lit as u8
            }
            Kind::Lamp if (0..6).any(|d| self.activates(cells, at, d)) => LAMP_LIT,
            Kind::Lamp if cell == LAMP_LIT => LAMP_COOLING,
            Kind::Lamp => LAMP,
            Kind::Repeater => self.next_repeater(cells, at),
            _ => cell,
        }
    }

    /// A locked repeater stays; one that counts nothing and is as its input rests; another counts.
    fn next_repeater(&self, cells: &[u8], at: usize) -> u8 {
        let facing = nature(cells[at]).facing;
        if self.is_locked(cells, at, facing) {
            return cells[at];
        }
        let mut state = Repeating::of(cells[at]);
        let input = self.activates(cells, at, opposite(facing));
        if state.wait == 0 && input == state.is_on {
            return cells[at];
        }
        state.wait = if state.wait == 0 { state.delay - 1 } else { state.wait - 1 };
        if state.wait == 0 {
            state.is_on = !state.is_on || input;
        }
        state.cell()
    }

    /// A repeater that is on stands at one of its two sides and faces it.
    fn is_locked(&self, cells: &[u8], at: usize, facing: usize) -> bool {
        SIDE_DIRECTIONS.iter().any(|&side| {
            let cell = cells[self.steps.to(at, side)];
            let other = nature(cell);
            side != facing
                && side != opposite(facing)
                && other.kind == Kind::Repeater
                && other.gives == bit(opposite(side))
        })
    }

    /// Puts down what parts become, and then what moves leave.
    fn put_down(&mut self, cells: &mut [u8]) {
        let (changed, alone) = (&mut self.changed, &mut self.alone);
        let mut put = |cells: &mut [u8], at: usize, next: u8| {
            let is_alone = nature(next).is_same_to_others(nature(cells[at]));
            if is_alone { alone.push(at) } else { changed.push(at) }
            cells[at] = next;
        };
        for &(at, next) in &self.turned {
            put(cells, at, next);
        }
        self.moves.make(cells, put);
    }
}

/// The steps to all cells at most two neighbors off, and not to the cell itself.
fn near(steps: &Steps) -> Vec<isize> {
    let mut near: Vec<isize> = steps.by.to_vec();
    near.extend(steps.by.iter().flat_map(|first| steps.by.iter().map(move |second| first + second)));
    near.sort_unstable();
    near.dedup();
    near.retain(|&step| step != 0);
    debug_assert_eq!(near.len(), 24);
    near
}
