//! The moves that pistons ask for, and what becomes of them.

use crate::natures::{head_of, is_second, is_sticky, nature, Way};
use crate::signals::Steps;
use crate::{Flag, Judge, Rule, Subject, World, AIR, PISTON};

const MOST_PUSHED: usize = 12;

/// A move takes a row of cells: the piston, and so many in all from it on to its front.
#[derive(Clone, Copy)]
struct Move { piston: usize, step: isize, count: usize, is_push: bool }

impl Move {
    fn cell(self, n: usize) -> usize {
        self.piston.wrapping_add_signed(self.step * n as isize)
    }

    fn cells(self) -> impl Iterator<Item = usize> {
        (0..self.count).map(move |n| self.cell(n))
    }
}

/// What becomes of a move, by indices of cells.
#[derive(Clone, Copy)]
pub enum Fate { Moved, Denied(usize, Rule), Beaten(usize) }

#[derive(Default)]
pub struct Moves {
    asked: Vec<Move>,
    /// By cell, the first piston that claims it, or 0, where no piston stands; empty between ticks.
    claims: Vec<u32>,
    /// The fate of each move, with its piston.
    pub fates: Vec<(usize, Fate)>,
}

impl Moves {
    pub fn new(count: usize) -> Moves {
        Moves { claims: vec![0; count], ..Moves::default() }
    }

    /// Finds what these pistons move, each of which is in and active, or out and not, in the order of their positions.
    pub fn ask(&mut self, cells: &[u8], steps: &Steps, pistons: &[usize]) {
        self.asked.clear();
        self.asked.extend(pistons.iter().filter_map(|&piston| asked(cells, steps, piston)));
    }

    /// Finds what becomes of the moves.
    pub fn decide(&mut self, world: &World, judge: &mut Judge) {
        self.fates.clear();
        for &asked in &self.asked {
            let fate = match denial(world, judge, asked) {
                Some((cell, rule)) => Fate::Denied(cell, rule),
                None => claim(&mut self.claims, asked),
            };
            self.fates.push((asked.piston, fate));
        }
        for cell in self.asked.iter().flat_map(|asked| asked.cells()) {
            self.claims[cell] = 0;
        }
    }

    /// Makes the moves that nothing stands against, by putting down each cell that they leave.
    pub fn make(&self, cells: &mut [u8], mut put: impl FnMut(&mut [u8], usize, u8)) {
        for (asked, (_, fate)) in self.asked.iter().zip(&self.fates) {
            if let Fate::Moved = fate {
                put_down(cells, *asked, &mut put);
            }
        }
    }
}

/// Claims the cells of a move, behind all pistons before it.
fn claim(claims: &mut [u32], asked: Move) -> Fate {
    let mut first = asked.piston;
    for cell in asked.cells() {
        let claim = &mut claims[cell];
        if *claim == 0 {
            *claim = asked.piston as u32;
        }
        first = first.min(*claim as usize);
    }
    if first < asked.piston { Fate::Beaten(first) } else { Fate::Moved }
}

fn asked(cells: &[u8], steps: &Steps, piston: usize) -> Option<Move> {
    let cell = cells[piston];
    let step = steps.by[nature(cell).facing];
    let is_push = !is_second(cell, PISTON);
    let row = Move { piston, step, count: 0, is_push };
    let way = |n| nature(cells[row.cell(n)]).way;
    if !is_push {
        let pulls = is_sticky(cell) && way(2) == Way::Moves;
        return Some(Move { count: 2 + pulls as usize, ..row });
    }
    let end = (1..=MOST_PUSHED + 1).find(|&n| way(n) != Way::Moves)?;
    (way(end) != Way::Stays).then_some(Move { count: end + 1, ..row })
}

/// The first cell that the policy denies to the piston, and the rule.
fn denial(world: &World, judge: &mut Judge, asked: Move) -> Option<(usize, Rule)> {
    let machine = Subject::Machine(world.pos(asked.piston));
    asked.cells().find_map(|cell| {
        let rule = judge.verdict(machine, Flag::Pistons, world.pos(cell)).err()?;
        Some((cell, rule))
    })
}

/// Puts down what a move leaves: a push its piston, the head, and each cell one further; a draw its piston, what it
/// pulled in the place of the head, and air.
fn put_down(cells: &mut [u8], asked: Move, put: &mut impl FnMut(&mut [u8], usize, u8)) {
    let piston = cells[asked.piston];
    if asked.is_push {
        let mut pushed = head_of(piston);
        for cell in asked.cells().skip(1) {
            let next = cells[cell];
            put(cells, cell, pushed);
            pushed = next;
        }
        put(cells, asked.piston, piston + 1);
    } else {
        for n in 2..asked.count {
            let pulled = cells[asked.cell(n)];
            put(cells, asked.cell(n - 1), pulled);
        }
        put(cells, asked.cell(asked.count - 1), AIR);
        put(cells, asked.piston, piston - 1);
    }
}
