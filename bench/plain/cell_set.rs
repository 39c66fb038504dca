//! A set of cells by their index, with a list of them; it is emptied at the cost of what is in it.

#[derive(Default)]
pub struct CellSet {
    bits: Vec<u64>,
    pub list: Vec<usize>,
}

impl CellSet {
    /// A set of cells below a count.
    pub fn new(count: usize) -> CellSet {
        CellSet { bits: vec![0; count.div_ceil(64)], list: Vec::new() }
    }

    pub fn contains(&self, at: usize) -> bool {
        self.bits[at / 64] >> (at % 64) & 1 == 1
    }

    /// Whether the cell was not in it before.
    pub fn insert(&mut self, at: usize) -> bool {
        let is_new = !self.contains(at);
        if is_new {
            self.bits[at / 64] |= 1 << (at % 64);
            self.list.push(at);
        }
        is_new
    }

    pub fn clear(&mut self) {
        for at in self.list.drain(..) {
            self.bits[at / 64] = 0;
        }
    }
}
