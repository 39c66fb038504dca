//! What gives power, and what takes it.

use crate::dust::{dust_powers, Wires};
use crate::natures::{bit, nature, opposite};

/// The steps from a cell to its six neighbors, in the indices of cells.
#[derive(Clone, Copy)]
pub struct Steps { pub by: [isize; 6] }

impl Steps {
    pub fn to(&self, at: usize, direction: usize) -> usize {
        at.wrapping_add_signed(self.by[direction])
    }
}

/// Some neighbor drives what stands there.
fn is_driven(cells: &[u8], steps: &Steps, at: usize) -> bool {
    (0..6).any(|d| nature(cells[steps.to(at, d)]).drives & bit(opposite(d)) != 0)
}

/// Some neighbor gives power to dust there, or is a strongly powered conductor.
pub fn has_feeder(cells: &[u8], steps: &Steps, at: usize) -> bool {
    (0..6).any(|d| {
        let neighbor = steps.to(at, d);
        let nature = nature(cells[neighbor]);
        nature.gives & bit(opposite(d)) != 0 || nature.conducts && is_driven(cells, steps, neighbor)
    })
}

/// A conductor that is strongly powered, or that dust reaches.
pub fn is_powered(cells: &[u8], steps: &Steps, wires: &Wires, at: usize) -> bool {
    let has_source = |d: usize| {
        let neighbor = steps.to(at, d);
        nature(cells[neighbor]).drives & bit(opposite(d)) != 0 || dust_powers(cells, wires, neighbor, d)
    };
    nature(cells[at]).conducts && (0..6).any(has_source)
}

/// What stands in that direction gives power there, is a powered conductor, or is dust that reaches it.
pub fn activates(cells: &[u8], steps: &Steps, wires: &Wires, at: usize, direction: usize) -> bool {
    let neighbor = steps.to(at, direction);
    nature(cells[neighbor]).gives & bit(opposite(direction)) != 0
        || dust_powers(cells, wires, neighbor, direction)
        || is_powered(cells, steps, wires, neighbor)
}
