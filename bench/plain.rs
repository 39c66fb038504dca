//! A plain program of the rules in docs/RULES.md and docs/FORMATS.md, to measure beside. It reads a script on standard
//! input, writes the replies, and ends by the same faults. It knows neither blocks (`together`) nor questions
//! (`explain`), and has no options but `--anew`, by which each tick finds all levels and all parts anew, to check the
//! ticks by that look only where something changed. Nothing here is proved. Machines are in the files of plain/.
//!
//!     rustc -O -C target-cpu=x86-64 plain.rs
//!
//! The limits of 2^40 edits, ticks and commands are out of reach of a script of 16 MiB, and are not tested. Want of
//! memory ends the program as Rust's allocator does.

use std::collections::{HashMap, HashSet};
use std::fs::File;
use std::io::{self, Read, Write};
use std::iter;
use std::mem;
use std::os::fd::AsFd;
use std::process::ExitCode;
use std::rc::Rc;

#[path = "plain/cell_set.rs"]
mod cell_set;
#[path = "plain/dust.rs"]
mod dust;
#[path = "plain/machines.rs"]
mod machines;
#[path = "plain/natures.rs"]
mod natures;
#[path = "plain/pistons.rs"]
mod pistons;
#[path = "plain/signals.rs"]
mod signals;

use machines::Machines;
use natures::OUTSIDE;
use pistons::Fate;
use signals::Steps;

const MOST_SCRIPT_BYTES: usize = 16_777_216;
const MOST_LINE_BYTES: usize = 4096;
const MOST_READS: u32 = 33_554_432;
const MOST_PLAYERS: usize = 64;
const MOST_SECTORS: u8 = 16; // each way
const MOST_CHUNKS: u8 = 2; // of a sector, each way
const MOST_REGIONS: usize = 4096;
const BUFFER_BYTES: usize = 65_536;

// ------------------------------------------------------------------------------------------------------------- Cells

// A cell is a byte. Those with a state take a run of bytes: facing by facing, and for each its states.
const AIR: u8 = 0;
const STONE: u8 = 1; // and the other plain blocks behind it
const BEDROCK: u8 = 6;
const CHEST: u8 = 7;
const DUST: u8 = 8; // by level, 16
const TORCH: u8 = 24; // 5 facings, off and on
const LEVER: u8 = 34; // 6 facings, off and on
const REPEATER: u8 = 46; // 4 facings, 4 delays, off and on, what is left of the count
const LAMP: u8 = 126; // off, lit, lit for its last tick
const PISTON: u8 = 129; // 6 facings, in and out
const STICKY: u8 = 141; // 6 facings, in and out
const HEAD: u8 = 153; // 6 facings, plain and sticky
const CELLS: usize = 165;

const FACINGS: [&str; 6] = ["east", "west", "up", "down", "south", "north"];
const TORCH_FACINGS: [&str; 5] = ["east", "west", "down", "south", "north"];
const SIDES: [&str; 4] = ["east", "west", "south", "north"];

const BLOCKS: [&str; 8] = ["air", "stone", "dirt", "planks", "glass", "obsidian", "bedrock", "chest"];

/// The texts of all cells, in the order of their bytes.
fn cell_texts() -> Vec<String> {
    let mut texts: Vec<String> = BLOCKS.iter().map(|block| block.to_string()).collect();
    texts.extend((0..16).map(|level| format!("dust:{level}")));
    for facing in TORCH_FACINGS {
        texts.extend(["off", "on"].iter().map(|state| format!("torch:{facing}:{state}")));
    }
    for facing in FACINGS {
        texts.extend(["off", "on"].iter().map(|state| format!("lever:{facing}:{state}")));
    }
    for side in SIDES {
        for delay in 1..5 {
            for state in ["off", "on"] {
                texts.extend((0..delay).map(|left| format!("repeater:{side}:{delay}:{state}:{left}")));
            }
        }
    }
    texts.extend(["lamp:off:0", "lamp:on:0", "lamp:on:1"].iter().map(|lamp| lamp.to_string()));
    for (kind, states) in [("piston", ["in", "out"]), ("sticky", ["in", "out"]), ("head", ["plain", "sticky"])] {
        for facing in FACINGS {
            texts.extend(states.iter().map(|state| format!("{kind}:{facing}:{state}")));
        }
    }
    debug_assert_eq!(texts.len(), CELLS);
    texts
}

/// The cell that a part begins as.
fn part(word: &[u8]) -> Option<u8> {
    match word {
        b"dust" => return Some(DUST),
        b"lamp" => return Some(LAMP),
        _ => {}
    }
    let among = |words: &[&str], word: &[u8]| words.iter().position(|w| w.as_bytes() == word).map(|n| n as u8);
    if let Some(block) = among(&BLOCKS[1..], word) {
        return Some(STONE + block);
    }
    let colon = word.iter().position(|&b| b == b':')?;
    let (kind, tail) = (&word[..colon], &word[colon + 1..]);
    match kind {
        b"torch" => Some(TORCH + 2 * among(&TORCH_FACINGS, tail)? + 1),
        b"lever" => Some(LEVER + 2 * among(&FACINGS, tail)?),
        b"piston" => Some(PISTON + 2 * among(&FACINGS, tail)?),
        b"sticky" => Some(STICKY + 2 * among(&FACINGS, tail)?),
        b"repeater" => match tail {
            [side @ .., b':', delay @ b'1'..=b'4'] => {
                let delay = delay - b'0';
                Some(REPEATER + 20 * among(&SIDES, side)? + delay * (delay - 1))
            }
            _ => None,
        },
        _ => None,
    }
}

/// A piston that is out, or a head.
fn is_extended(cell: u8) -> bool {
    cell >= HEAD || cell >= PISTON && (cell - PISTON) % 2 == 1
}

// ------------------------------------------------------------------------------------------------------------- World

#[derive(Clone, Copy, PartialEq, Eq)]
struct Pos { x: i32, y: i32, z: i32 }

/// So many of an item; a slot that is empty has a count of 0.
#[derive(Clone, Copy)]
struct Slot { item: u16, count: u8 }

type Slots = [Slot; 27];

/// How many cells a world may be high, the first where its line does not say it.
const HEIGHTS: [u8; 2] = [64, 128];

/// A chunk has so many columns on a side.
const CHUNK: i32 = 16;

/// So many cells outside the world stand round it, so that what is two steps off can be read without a test.
const MARGIN: i32 = 2;

struct World {
    width: i32,
    height: i32,
    depth: i32,
    /// A sector has 2 to the power of so many columns on a side.
    sector_bits: u32,
    /// By y, then z, then x, which is the order of positions.
    cells: Vec<u8>,
    /// What the chests hold, by the index of the cell. An entry of the record shares what it showed.
    chests: HashMap<usize, Rc<Slots>>,
}

impl World {
    fn new(east: i32, south: i32, chunks: i32, height: i32) -> World {
        let sector_bits = (CHUNK * chunks).ilog2();
        let (width, depth) = (east << sector_bits, south << sector_bits);
        let mut world = World { width, height, depth, sector_bits, cells: Vec::new(), chests: HashMap::new() };
        world.cells = vec![OUTSIDE; (world.layer() * (height + 2 * MARGIN)) as usize];
        for (y, z) in (0..height).flat_map(|y| (0..depth).map(move |z| (y, z))) {
            let start = world.place(Pos { x: 0, y, z });
            world.cells[start..start + width as usize].fill(AIR);
        }
        world
    }

    /// How many cells lie between one and its neighbor to the south, and the one over it.
    fn row(&self) -> i32 {
        self.width + 2 * MARGIN
    }

    fn layer(&self) -> i32 {
        self.row() * (self.depth + 2 * MARGIN)
    }

    fn steps(&self) -> Steps {
        let (row, layer) = (self.row() as isize, self.layer() as isize);
        Steps { by: [1, -1, layer, -layer, row, -row] }
    }

    fn place(&self, p: Pos) -> usize {
        ((p.y + MARGIN) * self.layer() + (p.z + MARGIN) * self.row() + p.x + MARGIN) as usize
    }

    /// The position of a cell.
    fn pos(&self, at: usize) -> Pos {
        let (at, row, layer) = (at as i32, self.row(), self.layer());
        Pos { x: at % row - MARGIN, y: at / layer - MARGIN, z: at % layer / row - MARGIN }
    }

    /// Where the cell of a position is, if it is in the world.
    fn index(&self, p: Pos) -> Option<usize> {
        let is_inside =
            (0..self.width).contains(&p.x) && (0..self.height).contains(&p.y) && (0..self.depth).contains(&p.z);
        is_inside.then(|| self.place(p))
    }

    fn sectors(&self) -> usize {
        ((self.width >> self.sector_bits) * (self.depth >> self.sector_bits)) as usize
    }

    fn sector(&self, p: Pos) -> usize {
        ((p.x >> self.sector_bits) + (self.width >> self.sector_bits) * (p.z >> self.sector_bits)) as usize
    }

    fn put_cell(&mut self, at: usize, cell: u8) {
        if self.cells[at] == CHEST {
            self.chests.remove(&at);
        }
        if cell == CHEST {
            self.chests.insert(at, Rc::new([Slot { item: 0, count: 0 }; 27]));
        }
        self.cells[at] = cell;
    }

    /// Carries out what is permitted, unless what stands there is in the way. An opened chest shows its slots.
    fn act(&mut self, at: usize, action: Action) -> Result<Option<Rc<Slots>>, Refusal> {
        let cell = self.cells[at];
        match action {
            Action::Look => {}
            Action::Place(part) => {
                refuse_if(cell != AIR, Refusal::Occupied)?;
                self.put_cell(at, part);
            }
            Action::Break => {
                refuse_if(cell == AIR, Refusal::Nothing)?;
                refuse_if(is_extended(cell), Refusal::Extended)?;
                refuse_if(cell == BEDROCK, Refusal::Unbreakable)?;
                let is_filled = cell == CHEST && self.chests[&at].iter().any(|slot| slot.count > 0);
                refuse_if(is_filled, Refusal::NotEmpty)?;
                self.put_cell(at, AIR);
            }
            Action::Turn => {
                refuse_if(!(LEVER..REPEATER).contains(&cell), Refusal::NotLever)?;
                // The two states of a facing stand beside each other, the first at an even byte.
                self.cells[at] = cell ^ 1;
            }
            Action::Open => {
                let slots = self.chests.get(&at).ok_or(Refusal::NotChest)?;
                return Ok(Some(slots.clone()));
            }
            Action::Put { slot, item, count } => {
                let slots = self.chests.get_mut(&at).ok_or(Refusal::NotChest)?;
                let held = *slots.get(slot as usize).ok_or(Refusal::NoSlot)?;
                refuse_if(held.count > 0 && held.item != item, Refusal::OtherItem)?;
                refuse_if(count == 0 || held.count as u32 + count as u32 > 64, Refusal::BadCount)?;
                Rc::make_mut(slots)[slot as usize] = Slot { item, count: held.count + count };
            }
            Action::Take { slot, count } => {
                let slots = self.chests.get_mut(&at).ok_or(Refusal::NotChest)?;
                let held = *slots.get(slot as usize).ok_or(Refusal::NoSlot)?;
                refuse_if(count == 0 || count > held.count, Refusal::BadCount)?;
                Rc::make_mut(slots)[slot as usize].count -= count;
            }
        }
        Ok(None)
    }
}

// ------------------------------------------------------------------------------------------------------ Words, names

/// A player's name and a region's id, in lower case, filled up with zeros.
type Name = [u8; 16];
type Id = [u8; 32];

const AT_LARGE: &[u8] = b"__global__";

/// A word of 1 to N letters, digits or `_`, and `-` in an id, in lower case.
fn small_word<const N: usize>(word: &[u8], dash: bool) -> Option<[u8; N]> {
    if word.is_empty() || word.len() > N {
        return None;
    }
    let mut small = [0; N];
    for (to, &b) in small.iter_mut().zip(word) {
        if !(b.is_ascii_alphanumeric() || b == b'_' || dash && b == b'-') {
            return None;
        }
        *to = b.to_ascii_lowercase();
    }
    Some(small)
}

fn read_name(word: &[u8]) -> Option<Name> {
    small_word(word, false)
}

fn read_id(word: &[u8]) -> Option<Id> {
    small_word(word, true)
}

// ------------------------------------------------------------------------------------------------------------- Flags

#[derive(Clone, Copy, PartialEq)]
enum Flag { Build, BlockBreak, BlockPlace, Use, ChestAccess, Passthrough, Pistons }

const FLAGS: [(&str, Flag); 7] = [
    ("build", Flag::Build),
    ("block-break", Flag::BlockBreak),
    ("block-place", Flag::BlockPlace),
    ("use", Flag::Use),
    ("chest-access", Flag::ChestAccess),
    ("passthrough", Flag::Passthrough),
    ("pistons", Flag::Pistons),
];

#[derive(Clone, Copy, PartialEq)]
enum State { Allow, Deny }

/// Who asks: a player, or a machine by where it stands.
#[derive(Clone, Copy)]
enum Subject<'a> { Player(&'a Name), Machine(Pos) }

/// What the subject is to a region.
#[derive(Clone, Copy, PartialEq)]
enum Standing { Owner, Member, Stranger }

#[derive(Clone, Copy)]
enum Group { All, Members, Owners, Nonmembers, Nonowners }

impl Group {
    fn fits(self, standing: Standing) -> bool {
        match self {
            Group::All => true,
            Group::Members => standing != Standing::Stranger,
            Group::Owners => standing == Standing::Owner,
            Group::Nonmembers => standing == Standing::Stranger,
            Group::Nonowners => standing != Standing::Owner,
        }
    }
}

#[derive(Clone, Copy)]
struct Setting { state: State, group: Group }

type Settings = [Option<Setting>; 7];

// ----------------------------------------------------------------------------------------------------------- Regions

/// A box from its lowest to its highest corner.
#[derive(Clone, Copy, PartialEq, Eq)]
struct Bounds { low: Pos, high: Pos }

impl Bounds {
    fn contains(&self, p: Pos) -> bool {
        let (a, b) = (self.low, self.high);
        // All six at once: no guess which of them fails.
        (p.x >= a.x) & (p.x <= b.x) & (p.z >= a.z) & (p.z <= b.z) & (p.y >= a.y) & (p.y <= b.y)
    }
}

/// The box round the shape, and the points of a polygon.
#[derive(Clone)]
struct Shape {
    bounds: Bounds,
    outline: Option<Rc<[(i32, i32)]>>,
}

impl Shape {
    fn cuboid(a: Pos, b: Pos) -> Shape {
        let low = Pos { x: a.x.min(b.x), y: a.y.min(b.y), z: a.z.min(b.z) };
        let high = Pos { x: a.x.max(b.x), y: a.y.max(b.y), z: a.z.max(b.z) };
        Shape { bounds: Bounds { low, high }, outline: None }
    }

    /// None where this is no polygon.
    fn polygon(points: &[(i32, i32)], low: i32, high: i32) -> Option<Shape> {
        if points.len() < 3 || points.len() > 64 || low > high {
            return None;
        }
        let ends = |of: fn(&(i32, i32)) -> i32| {
            let values = points.iter().map(of);
            values.fold((i32::MAX, i32::MIN), |(least, most), n| (least.min(n), most.max(n)))
        };
        let ((west, east), (north, south)) = (ends(|point| point.0), ends(|point| point.1));
        let low = Pos { x: west, y: low, z: north };
        let high = Pos { x: east, y: high, z: south };
        Some(Shape { bounds: Bounds { low, high }, outline: Some(points.into()) })
    }

    fn contains(&self, p: Pos) -> bool {
        self.bounds.contains(p) && self.holds_within(p)
    }

    /// Whether it contains a position of the box round it.
    fn holds_within(&self, p: Pos) -> bool {
        self.outline.as_ref().map_or(true, |points| is_in_polygon(points, p.x as i64, p.z as i64))
    }
}

/// On an edge, or an odd number of edges meet the ray to the east.
fn is_in_polygon(points: &[(i32, i32)], x: i64, z: i64) -> bool {
    let mut is_odd = false;
    let column = |&(x, z): &(i32, i32)| (x as i64, z as i64);
    let (mut ax, mut az) = column(&points[points.len() - 1]);
    for (bx, bz) in points.iter().map(column) {
        if z >= az.min(bz) && z <= az.max(bz) {
            // Where the column lies to the line, in numbers that can't overflow.
            let cross = (bx - ax) as i128 * (z - az) as i128 - (bz - az) as i128 * (x - ax) as i128;
            if cross == 0 && x >= ax.min(bx) && x <= ax.max(bx) {
                return true;
            }
            let passes_south = az <= z && z < bz && cross > 0;
            let passes_north = bz <= z && z < az && cross < 0;
            is_odd ^= passes_south || passes_north;
        }
        (ax, az) = (bx, bz);
    }
    is_odd
}

#[derive(Clone)]
struct Region {
    shape: Shape,
    priority: i32,
    parent: Option<u32>,
    owners: Vec<Name>,
    members: Vec<Name>,
    domains: Vec<Name>,
    flags: Settings,
}

/// The regions of a version by number. A region is shared by the versions until one of them changes it; numbers are
/// never given again, so those of removed regions stay empty.
#[derive(Default)]
struct Regions {
    by_number: Vec<Option<Rc<Region>>>,
    at_large: Settings,
}

impl Regions {
    fn get(&self, number: u32) -> Option<&Region> {
        self.by_number.get(number as usize)?.as_deref()
    }

    fn there(&self, number: u32) -> &Region {
        self.get(number).expect("a region that is there")
    }

    fn parent(&self, number: u32) -> Option<u32> {
        self.there(number).parent
    }
}

// ------------------------------------------------------------------------------------------------------------- Edits

/// An edit of the region of this id, as it is written.
struct Edit<'a> { id: &'a [u8], change: Change<'a> }

/// A shape that is none is told by the reply.
enum Change<'a> {
    Define(Option<Shape>),
    Reshape(Option<Shape>),
    Remove,
    Priority(i32),
    Parent(Option<&'a [u8]>),
    Flag(Flag, Option<Setting>),
    Listed { roster: Roster, is_added: bool, name: &'a [u8] },
}

#[derive(Clone, Copy)]
enum Roster { Owners, Members, Domains }

/// The policy after all edits so far, ahead of the one that judges.
struct Desk {
    regions: Regions,
    ids: HashMap<Id, u32>,
    /// How many regions have this one as their parent, by number.
    children: Vec<u32>,
    /// Numbers of regions that were changed since the last tick; a number may stand there twice.
    changed: Vec<u32>,
    accepted: u64,
}

impl Desk {
    fn new() -> Desk {
        let ids = HashMap::from([(read_id(AT_LARGE).expect("an id"), 0)]);
        let regions = Regions { by_number: vec![None], at_large: [None; 7] };
        Desk { regions, ids, children: vec![0], changed: Vec::new(), accepted: 0 }
    }

    fn numbered(&self, id: &Id) -> Result<u32, Refusal> {
        self.ids.get(id).copied().ok_or(Refusal::Unknown)
    }

    /// The number of a region, and not of the world at large.
    fn region_numbered(&self, id: &Id) -> Result<u32, Refusal> {
        match self.numbered(id)? {
            0 => Err(Refusal::GlobalHasNone),
            number => Ok(number),
        }
    }

    /// A region to be changed: the judging version keeps the old one.
    fn change(&mut self, number: u32) -> &mut Region {
        self.changed.push(number);
        let region = self.regions.by_number[number as usize].as_mut();
        Rc::make_mut(region.expect("a region that is there"))
    }

    /// Accepts an edit, with the number that a definition gives, or refuses it by the first cause.
    fn edit(&mut self, edit: Edit) -> Result<Option<u32>, Refusal> {
        let mut given = None;
        let id = read_id(edit.id).ok_or(Refusal::BadId)?;
        match edit.change {
            Change::Define(shape) => given = Some(self.define(id, shape)?),
            Change::Reshape(shape) => {
                let shape = shape.ok_or(Refusal::BadShape)?;
                let number = self.region_numbered(&id)?;
                self.change(number).shape = shape;
            }
            Change::Remove => self.remove(id)?,
            Change::Priority(priority) => {
                let number = self.region_numbered(&id)?;
                self.change(number).priority = priority;
            }
            Change::Parent(parent) => self.set_parent(id, parent)?,
            Change::Flag(flag, setting) => {
                let flags = match self.numbered(&id)? {
                    0 => &mut self.regions.at_large,
                    number => &mut self.change(number).flags,
                };
                flags[flag as usize] = setting;
            }
            Change::Listed { roster, is_added, name } => {
                let name = read_name(name).ok_or(Refusal::BadName)?;
                let number = self.region_numbered(&id)?;
                let region = self.change(number);
                let names = match roster {
                    Roster::Owners => &mut region.owners,
                    Roster::Members => &mut region.members,
                    Roster::Domains => &mut region.domains,
                };
                match (names.iter().position(|other| *other == name), is_added) {
                    (None, true) => names.push(name),
                    (Some(at), false) => drop(names.remove(at)),
                    _ => {}
                }
            }
        }
        self.accepted += 1;
        Ok(given)
    }

    fn define(&mut self, id: Id, shape: Option<Shape>) -> Result<u32, Refusal> {
        let shape = shape.ok_or(Refusal::BadShape)?;
        refuse_if(self.ids.contains_key(&id), Refusal::Known)?;
        // The ids are those of the regions and of the world at large. The last number of 32 bits may be given.
        let number = self.regions.by_number.len();
        refuse_if(self.ids.len() > MOST_REGIONS || number > u32::MAX as usize, Refusal::TooManyRegions)?;
        let number = number as u32;
        let region = Region {
            shape,
            priority: 0,
            parent: None,
            owners: Vec::new(),
            members: Vec::new(),
            domains: Vec::new(),
            flags: [None; 7],
        };
        self.regions.by_number.push(Some(Rc::new(region)));
        self.ids.insert(id, number);
        self.children.push(0);
        self.changed.push(number);
        Ok(number)
    }

    fn remove(&mut self, id: Id) -> Result<(), Refusal> {
        let number = self.region_numbered(&id)?;
        refuse_if(self.children[number as usize] > 0, Refusal::HasChildren)?;
        if let Some(parent) = self.regions.parent(number) {
            self.children[parent as usize] -= 1;
        }
        self.regions.by_number[number as usize] = None;
        self.ids.remove(&id);
        self.changed.push(number);
        Ok(())
    }

    fn set_parent(&mut self, id: Id, parent: Option<&[u8]>) -> Result<(), Refusal> {
        let parent = parent.map(|word| read_id(word).ok_or(Refusal::BadId)).transpose()?;
        let number = self.numbered(&id)?;
        let parent = parent.map(|id| self.numbered(&id)).transpose()?;
        refuse_if(number == 0 || parent == Some(0), Refusal::GlobalHasNone)?;
        let mut ancestor = parent;
        while let Some(other) = ancestor {
            refuse_if(other == number, Refusal::Cycle)?;
            ancestor = self.regions.parent(other);
        }
        if let Some(parent) = parent {
            self.children[parent as usize] += 1;
        }
        if let Some(old) = mem::replace(&mut self.change(number).parent, parent) {
            self.children[old as usize] -= 1;
        }
        Ok(())
    }
}

// ---------------------------------------------------------------------------------------------------------- Deciding

/// What decides, with numbers of regions; 0 is the world at large.
#[derive(Clone, Copy)]
enum Rule {
    Flag { flag: Flag, at: u32, from: u32 },
    Build { at: u32, from: u32 },
    Member { at: u32 },
    Default,
}

/// Leave by a rule, or a denial by it.
type Verdict = Result<Rule, Rule>;

fn ruled(state: State, rule: Rule) -> Verdict {
    match state {
        State::Allow => Ok(rule),
        State::Deny => Err(rule),
    }
}

/// The value of a flag, and the region that sets it.
#[derive(Clone, Copy)]
struct Value { state: State, from: u32 }

fn is_state(value: Option<Value>, state: State) -> bool {
    value.map_or(false, |value| value.state == state)
}

/// A region that contains the place.
struct Found { number: u32, priority: i32 }

/// A region near a place, with the box round its shape, so that most are passed over without a look at the region.
struct Near { number: u32, bounds: Bounds }

/// One of the regions of the highest priority that count, with its value, if it has one. Whether the subject is its
/// owner or a member is found where membership decides.
struct Top { number: u32, value: Option<Value>, is_insider: bool }

/// The version that judges the window, with the regions over each chunk. The lists and the marks are kept from one
/// decision to the next, so that none takes memory.
struct Judge {
    regions: Regions,
    chunks_east: i32,
    chunks_south: i32,
    /// The regions whose box meets the chunk, in the order of their numbers.
    by_chunk: Vec<Vec<Near>>,
    found: Vec<Found>,
    tops: Vec<Top>,
    /// By number, the last round in which the region was marked as an ancestor.
    marks: Vec<u32>,
    round: u32,
}

impl Judge {
    fn new(world: &World) -> Judge {
        let (east, south) = (world.width / CHUNK, world.depth / CHUNK);
        Judge {
            regions: Regions::default(),
            chunks_east: east,
            chunks_south: south,
            by_chunk: (0..east * south).map(|_| Vec::new()).collect(),
            found: Vec::new(),
            tops: Vec::new(),
            marks: Vec::new(),
            round: 0,
        }
    }

    /// Takes over what the desk has changed since the last tick.
    fn take_version(&mut self, desk: &mut Desk) {
        let count = desk.regions.by_number.len();
        self.regions.by_number.resize(count, None);
        self.marks.resize(count, 0);
        self.regions.at_large = desk.regions.at_large;
        for number in desk.changed.drain(..) {
            let new = desk.regions.by_number[number as usize].clone();
            let new_bounds = new.as_ref().map(|region| region.shape.bounds);
            let old = mem::replace(&mut self.regions.by_number[number as usize], new);
            let old_bounds = old.as_ref().map(|region| region.shape.bounds);
            if old_bounds != new_bounds {
                self.move_region(number, old_bounds, new_bounds);
            }
        }
    }

    /// The chunks that a box meets, row by row.
    fn chunks(&self, bounds: Bounds) -> impl Iterator<Item = usize> {
        let (row, low, high) = (self.chunks_east, bounds.low, bounds.high);
        let (west, north) = (low.x.div_euclid(CHUNK).max(0), low.z.div_euclid(CHUNK).max(0));
        let east = high.x.div_euclid(CHUNK).min(row - 1);
        let south = high.z.div_euclid(CHUNK).min(self.chunks_south - 1);
        (north..=south).flat_map(move |z| (west..=east).map(move |x| (z * row + x) as usize))
    }

    fn move_region(&mut self, number: u32, old: Option<Bounds>, new: Option<Bounds>) {
        if let Some(bounds) = old {
            for chunk in self.chunks(bounds) {
                let list = &mut self.by_chunk[chunk];
                if let Ok(at) = list.binary_search_by_key(&number, |near| near.number) {
                    list.remove(at);
                }
            }
        }
        if let Some(bounds) = new {
            for chunk in self.chunks(bounds) {
                let list = &mut self.by_chunk[chunk];
                if let Err(at) = list.binary_search_by_key(&number, |near| near.number) {
                    list.insert(at, Near { number, bounds });
                }
            }
        }
    }

    /// What the policy says to a subject about an action, by its flag, at a place in the world.
    fn verdict(&mut self, subject: Subject, flag: Flag, p: Pos) -> Verdict {
        let mut found = mem::take(&mut self.found);
        let mut tops = mem::take(&mut self.tops);
        found.clear();
        let chunk = (p.z / CHUNK * self.chunks_east + p.x / CHUNK) as usize;
        for &Near { number, bounds } in &self.by_chunk[chunk] {
            if !bounds.contains(p) {
                continue;
            }
            let region = self.regions.there(number);
            if region.shape.holds_within(p) {
                found.push(Found { number, priority: region.priority });
            }
        }
        let verdict = self.by_flag(&found, &mut tops, flag, subject);
        self.found = found;
        self.tops = tops;
        verdict
    }

    /// What the subject is to a region: a machine owns the land that it stands on itself, and what has a domain in common
    /// with that.
    fn standing(&self, number: u32, subject: Subject) -> Standing {
        let region = self.regions.there(number);
        match subject {
            Subject::Player(player) => self.player_standing(region, player),
            Subject::Machine(place) if region.shape.contains(place) => Standing::Owner,
            Subject::Machine(place) if self.joins_land(number, place) => Standing::Owner,
            Subject::Machine(_) => Standing::Stranger,
        }
    }

    /// Whether some region over the place has a domain in common with this one.
    fn joins_land(&self, number: u32, place: Pos) -> bool {
        let domains: Vec<&Name> = self.ancestry(number).flat_map(|region| &region.domains).collect();
        if domains.is_empty() {
            return false;
        }
        let chunk = (place.z / CHUNK * self.chunks_east + place.x / CHUNK) as usize;
        self.by_chunk[chunk]
            .iter()
            .filter(|near| self.regions.there(near.number).shape.contains(place))
            .flat_map(|near| self.ancestry(near.number))
            .any(|region| region.domains.iter().any(|domain| domains.contains(&domain)))
    }

    /// The region, its parent, the parent's parent, to the end.
    fn ancestry(&self, number: u32) -> impl Iterator<Item = &Region> {
        iter::successors(Some(self.regions.there(number)), move |region| {
            region.parent.map(|parent| self.regions.there(parent))
        })
    }

    /// An owner where some region of the ancestry names the player as one, else a member likewise.
    fn player_standing(&self, region: &Region, player: &Name) -> Standing {
        let mut standing = Standing::Stranger;
        let mut next = Some(region);
        while let Some(region) = next {
            if region.owners.contains(player) {
                return Standing::Owner;
            }
            if standing == Standing::Stranger && region.members.contains(player) {
                standing = Standing::Member;
            }
            next = region.parent.map(|parent| self.regions.there(parent));
        }
        standing
    }

    /// What the nearest region of the ancestry sets for a group that the subject is of, as it is to the region.
    fn value(&self, number: u32, flag: Flag, subject: Subject) -> Option<Value> {
        let mut standing = None; // only asked where something is set
        let mut next = Some(number);
        while let Some(from) = next {
            let region = self.regions.there(from);
            if let Some(setting) = region.flags[flag as usize] {
                let standing = *standing.get_or_insert_with(|| self.standing(number, subject));
                if setting.group.fits(standing) {
                    return Some(Value { state: setting.state, from });
                }
            }
            next = region.parent;
        }
        None
    }

    /// The value in the world at large, to which everyone is a stranger.
    fn value_at_large(&self, flag: Flag) -> Option<Value> {
        let setting = self.regions.at_large[flag as usize]?;
        setting.group.fits(Standing::Stranger).then_some(Value { state: setting.state, from: 0 })
    }

    /// The action's own flag decides, and where that is not set, building.
    fn by_flag(&mut self, found: &[Found], tops: &mut Vec<Top>, flag: Flag, subject: Subject) -> Verdict {
        self.find_tops(found, tops, flag, subject);
        if let Some((at, value)) = self.answer(tops) {
            return ruled(value.state, Rule::Flag { flag, at, from: value.from });
        }
        if let Some(value) = self.value_at_large(flag) {
            return ruled(value.state, Rule::Flag { flag, at: 0, from: 0 });
        }
        self.by_building(found, tops, subject)
    }

    fn by_building(&mut self, found: &[Found], tops: &mut Vec<Top>, subject: Subject) -> Verdict {
        self.find_tops(found, tops, Flag::Build, subject);
        if let Some((at, value)) = self.answer(tops) {
            return ruled(value.state, Rule::Build { at, from: value.from });
        }
        if let Some(verdict) = self.by_membership(tops, subject) {
            return verdict;
        }
        if let Some(value) = self.value_at_large(Flag::Build) {
            return ruled(value.state, Rule::Build { at: 0, from: 0 });
        }
        if is_state(self.value_at_large(Flag::Passthrough), State::Deny) {
            return Err(Rule::Member { at: 0 });
        }
        Ok(Rule::Default)
    }

    /// The subject has to be an owner or a member of each of the regions, or of one that it is an ancestor of.
    fn by_membership(&mut self, tops: &mut Vec<Top>, subject: Subject) -> Option<Verdict> {
        for top in tops.iter_mut() {
            top.is_insider = self.standing(top.number, subject) != Standing::Stranger;
        }
        self.mark_ancestors(tops.iter().filter(|top| top.is_insider).map(|top| top.number));
        if let Some(failing) = tops.iter().find(|top| !top.is_insider && !self.is_marked(top.number)) {
            return Some(Err(Rule::Member { at: failing.number }));
        }
        tops.iter().find(|top| top.is_insider).map(|home| Ok(Rule::Member { at: home.number }))
    }

    /// Of the regions that count those of the highest priority, in the order of their numbers. A region counts that has
    /// a value for the flag, and on building one that does not let pass.
    fn find_tops(&self, found: &[Found], tops: &mut Vec<Top>, flag: Flag, subject: Subject) {
        tops.clear();
        let mut highest = i32::MIN;
        for &Found { number, priority } in found {
            if priority < highest {
                continue;
            }
            let value = self.value(number, flag, subject);
            let counts = value.is_some()
                || flag == Flag::Build
                    && !is_state(self.value(number, Flag::Passthrough, subject), State::Allow);
            if counts {
                if priority > highest {
                    tops.clear();
                    highest = priority;
                }
                tops.push(Top { number, value, is_insider: false });
            }
        }
    }

    /// Of the regions with a value each that is an ancestor of another is left out. The first that denies answers, else
    /// the first that allows.
    fn answer(&mut self, tops: &[Top]) -> Option<(u32, Value)> {
        let valued = || tops.iter().filter_map(|top| Some((top.number, top.value?)));
        if tops.len() < 2 {
            return valued().next();
        }
        self.mark_ancestors(valued().map(|(number, _)| number));
        let mut answer = None;
        for (number, value) in valued() {
            if self.is_marked(number) {
                continue;
            }
            if value.state == State::Deny {
                return Some((number, value));
            }
            answer = answer.or(Some((number, value)));
        }
        answer
    }

    /// Marks the ancestors of these regions, and nothing else.
    fn mark_ancestors(&mut self, numbers: impl Iterator<Item = u32>) {
        self.round += 1;
        for number in numbers {
            let mut next = self.regions.parent(number);
            while let Some(ancestor) = next {
                let mark = &mut self.marks[ancestor as usize];
                if *mark == self.round {
                    break; // and so are the ancestors of this one
                }
                *mark = self.round;
                next = self.regions.parent(ancestor);
            }
        }
    }

    fn is_marked(&self, number: u32) -> bool {
        self.marks[number as usize] == self.round
    }
}

// ----------------------------------------------------------------------------------------------------------- Answers

#[derive(Clone, Copy)]
enum Action {
    Look,
    Place(u8),
    Break,
    Turn,
    Open,
    Put { slot: u8, item: u16, count: u8 },
    Take { slot: u8, count: u8 },
}

#[derive(Clone, Copy)]
enum Refusal {
    // of commands
    OutOfWorld, Occupied, Nothing, NotLever, NotChest, NotEmpty, Extended, Unbreakable, NoSlot, OtherItem, BadCount,
    // of edits
    BadId, Known, Unknown, HasChildren, Cycle, BadShape, BadName, GlobalHasNone, TooManyRegions,
}

fn refuse_if(holds: bool, refusal: Refusal) -> Result<(), Refusal> {
    if holds { Err(refusal) } else { Ok(()) }
}

impl Refusal {
    fn line(self) -> &'static [u8] {
        match self {
            Refusal::OutOfWorld => b"refused 1 out of world\n",
            Refusal::Occupied => b"refused 3 occupied\n",
            Refusal::Nothing => b"refused 4 nothing\n",
            Refusal::NotLever => b"refused 5 not lever\n",
            Refusal::NotChest => b"refused 6 not chest\n",
            Refusal::NotEmpty => b"refused 7 not empty\n",
            Refusal::Extended => b"refused 8 extended\n",
            Refusal::Unbreakable => b"refused 9 unbreakable\n",
            Refusal::NoSlot => b"refused 10 no slot\n",
            Refusal::OtherItem => b"refused 11 other item\n",
            Refusal::BadCount => b"refused 12 bad count\n",
            Refusal::BadId => b"refused 20 bad id\n",
            Refusal::Known => b"refused 21 known\n",
            Refusal::Unknown => b"refused 22 unknown\n",
            Refusal::HasChildren => b"refused 23 has children\n",
            Refusal::Cycle => b"refused 24 cycle\n",
            Refusal::BadShape => b"refused 25 bad shape\n",
            Refusal::BadName => b"refused 26 bad name\n",
            Refusal::GlobalHasNone => b"refused 27 global has none\n",
            Refusal::TooManyRegions => b"refused 28 too many regions\n",
        }
    }
}

enum Answer {
    Seen(u8),
    Done(Rule),
    Opened(Rule, Rc<Slots>),
    Denied(Rule),
    Refused(Refusal),
}

/// A command on record: who gave it, and what became of it.
#[allow(dead_code)] // the record is kept for what comes after, and nothing here reads it
struct Entry {
    at: Pos,
    action: Action,
    seat: u8,
    answer: Answer,
}

const _: () = assert!(mem::size_of::<Entry>() <= 48);

fn write_number(out: &mut Vec<u8>, mut n: u64) {
    let mut digits = [0; 20];
    let mut first = digits.len();
    loop {
        first -= 1;
        digits[first] = b'0' + (n % 10) as u8;
        n /= 10;
        if n == 0 {
            break;
        }
    }
    out.extend_from_slice(&digits[first..]);
}

fn write_rule(out: &mut Vec<u8>, rule: Rule) {
    let (at, from) = match rule {
        Rule::Flag { flag, at, from } => {
            out.extend_from_slice(b"flag ");
            out.extend_from_slice(FLAGS[flag as usize].0.as_bytes());
            (at, from)
        }
        Rule::Build { at, from } => {
            out.extend_from_slice(b"build");
            (at, from)
        }
        Rule::Member { at } => {
            out.extend_from_slice(b"member at ");
            return write_number(out, at as u64);
        }
        Rule::Default => return out.extend_from_slice(b"default"),
    };
    out.extend_from_slice(b" at ");
    write_number(out, at as u64);
    out.extend_from_slice(b" from ");
    write_number(out, from as u64);
}

fn write_answer(out: &mut Vec<u8>, answer: &Answer, cell_texts: &[String]) {
    match answer {
        Answer::Seen(cell) => {
            out.extend_from_slice(b"seen ");
            out.extend_from_slice(cell_texts[*cell as usize].as_bytes());
        }
        Answer::Done(rule) => {
            out.extend_from_slice(b"ok ");
            write_rule(out, *rule);
        }
        Answer::Opened(rule, slots) => {
            out.extend_from_slice(b"ok ");
            write_rule(out, *rule);
            out.extend_from_slice(b" holds");
            let start = out.len();
            for (n, slot) in slots.iter().enumerate().filter(|(_, slot)| slot.count > 0) {
                out.push(b' ');
                write_number(out, n as u64);
                out.push(b'=');
                write_number(out, slot.item as u64);
                out.push(b'x');
                write_number(out, slot.count as u64);
            }
            if out.len() == start {
                out.extend_from_slice(b" nothing");
            }
        }
        Answer::Denied(rule) => {
            out.extend_from_slice(b"refused 2 ");
            write_rule(out, *rule);
        }
        Answer::Refused(refusal) => return out.extend_from_slice(refusal.line()),
    }
    out.push(b'\n');
}

fn write_pos(out: &mut Vec<u8>, p: Pos) {
    for coordinate in [p.x, p.y, p.z] {
        out.push(b' ');
        write_number(out, coordinate as u64); // not below zero inside the world
    }
}

fn write_fate(out: &mut Vec<u8>, world: &World, piston: usize, fate: Fate) {
    out.extend_from_slice(match fate {
        Fate::Moved => b"moved",
        Fate::Denied(..) => b"denied",
        Fate::Beaten(_) => b"beaten",
    });
    write_pos(out, world.pos(piston));
    match fate {
        Fate::Moved => {}
        Fate::Denied(cell, rule) => {
            out.extend_from_slice(b" at");
            write_pos(out, world.pos(cell));
            out.push(b' ');
            write_rule(out, rule);
        }
        Fate::Beaten(first) => {
            out.extend_from_slice(b" by");
            write_pos(out, world.pos(first));
        }
    }
    out.push(b'\n');
}

// ------------------------------------------------------------------------------------------------------------- Lines

/// The words of a line, apart by spaces.
struct Words<'a>(&'a [u8]);

impl<'a> Iterator for Words<'a> {
    type Item = &'a [u8];

    fn next(&mut self) -> Option<&'a [u8]> {
        let start = self.0.iter().position(|&b| b != b' ')?;
        let rest = &self.0[start..];
        let end = rest.iter().position(|&b| b == b' ').unwrap_or(rest.len());
        let (word, rest) = rest.split_at(end);
        self.0 = rest;
        Some(word)
    }
}

impl<'a> Words<'a> {
    fn i32(&mut self) -> Option<i32> {
        read_number(self.next()?, i32::MIN as i64, i32::MAX as i64).map(|n| n as i32)
    }

    fn u16(&mut self) -> Option<u16> {
        read_number(self.next()?, 0, u16::MAX as i64).map(|n| n as u16)
    }

    fn u8(&mut self) -> Option<u8> {
        read_number(self.next()?, 0, u8::MAX as i64).map(|n| n as u8)
    }

    /// The number that the last word is, and another one where no word is left.
    fn last_u8(&mut self, other: u8) -> Option<u8> {
        let is_left = self.0.iter().any(|&b| b != b' ');
        if is_left { self.u8() } else { Some(other) }
    }

    fn pos(&mut self) -> Option<Pos> {
        Some(Pos { x: self.i32()?, y: self.i32()?, z: self.i32()? })
    }

    fn flag(&mut self) -> Option<Flag> {
        let word = self.next()?;
        FLAGS.iter().find(|(text, _)| text.as_bytes() == word).map(|&(_, flag)| flag)
    }

    fn setting(&mut self) -> Option<Setting> {
        let state = match self.next()? {
            b"allow" => State::Allow,
            b"deny" => State::Deny,
            _ => return None,
        };
        let group = match self.next() {
            None | Some(b"all") => Group::All,
            Some(b"members") => Group::Members,
            Some(b"owners") => Group::Owners,
            Some(b"nonmembers") => Group::Nonmembers,
            Some(b"nonowners") => Group::Nonowners,
            Some(_) => return None,
        };
        Some(Setting { state, group })
    }

    /// A shape: outside none where there is no such line, inside none where it is a bad shape.
    fn shape(&mut self) -> Option<Option<Shape>> {
        match self.next()? {
            b"cuboid" => Some(Some(Shape::cuboid(self.pos()?, self.pos()?))),
            b"polygon" => {
                let (low, high) = (self.i32()?, self.i32()?);
                let mut points = Vec::new();
                while let Some(x) = self.next() {
                    let x = read_number(x, i32::MIN as i64, i32::MAX as i64)?;
                    points.push((x as i32, self.i32()?));
                }
                Some(Shape::polygon(&points, low, high))
            }
            _ => None,
        }
    }
}

/// A decimal number within two ends, with a `-` where it is below zero.
fn read_number(word: &[u8], low: i64, high: i64) -> Option<i64> {
    let (is_negative, digits) = match word {
        [b'-', digits @ ..] => (true, digits),
        _ => (false, word),
    };
    if digits.is_empty() {
        return None;
    }
    let mut n: i64 = 0;
    for digit in digits {
        if !digit.is_ascii_digit() {
            return None;
        }
        // Far beyond all ends it needs not grow any more.
        n = (n * 10 + (digit - b'0') as i64).min(1 << 40);
    }
    let n = if is_negative { -n } else { n };
    (low <= n && n <= high).then_some(n)
}

/// What a line says; a shape, an id or a name of an edit may still be none.
enum Line<'a> {
    Nothing,
    World { east: u8, south: u8, chunks: u8, height: u8 },
    Player(Name),
    Set(Pos, u8),
    Command(Name, Pos, Action),
    Edit(Edit<'a>),
    Tick,
}

fn read_line(text: &[u8]) -> Option<Line<'_>> {
    let is_printable = text.iter().fold(true, |all, &b| all & (b >= 32) & (b <= 126));
    if !is_printable || text.len() > MOST_LINE_BYTES {
        return None;
    }
    if text.first() == Some(&b'#') {
        return Some(Line::Nothing);
    }
    let mut words = Words(text);
    let line = match words.next() {
        None => Line::Nothing,
        Some(b"as") => read_command(&mut words)?,
        Some(b"tick") => Line::Tick,
        Some(b"region") => Line::Edit(read_edit(&mut words)?),
        Some(b"set") => Line::Set(words.pos()?, part(words.next()?)?),
        Some(b"player") => Line::Player(read_name(words.next()?)?),
        Some(b"world") => {
            let (east, south, chunks) = (words.u8()?, words.u8()?, words.u8()?);
            let height = words.last_u8(HEIGHTS[0])?;
            let is_size = (1..=MOST_SECTORS).contains(&east)
                && (1..=MOST_SECTORS).contains(&south)
                && (1..=MOST_CHUNKS).contains(&chunks)
                && HEIGHTS.contains(&height);
            is_size.then_some(Line::World { east, south, chunks, height })?
        }
        Some(_) => return None,
    };
    words.next().is_none().then_some(line)
}

fn read_command<'a>(words: &mut Words<'a>) -> Option<Line<'a>> {
    let name = read_name(words.next()?)?;
    let verb = words.next()?;
    let at = words.pos()?;
    let action = match verb {
        b"look" => Action::Look,
        b"place" => Action::Place(part(words.next()?)?),
        b"break" => Action::Break,
        b"turn" => Action::Turn,
        b"open" => Action::Open,
        b"put" => Action::Put { slot: words.u8()?, item: words.u16()?, count: words.u8()? },
        b"take" => Action::Take { slot: words.u8()?, count: words.u8()? },
        _ => return None,
    };
    Some(Line::Command(name, at, action))
}

fn read_edit<'a>(words: &mut Words<'a>) -> Option<Edit<'a>> {
    let verb = words.next()?;
    let id = words.next()?;
    let change = match verb {
        b"define" => Change::Define(words.shape()?),
        b"reshape" => Change::Reshape(words.shape()?),
        b"remove" => Change::Remove,
        b"priority" => Change::Priority(words.i32()?),
        b"parent" => Change::Parent(Some(words.next()?).filter(|word| *word != b"*")),
        b"flag" => Change::Flag(words.flag()?, Some(words.setting()?)),
        b"clear" => Change::Flag(words.flag()?, None),
        b"owner" => read_listing(Roster::Owners, words)?,
        b"member" => read_listing(Roster::Members, words)?,
        b"domain" => read_listing(Roster::Domains, words)?,
        _ => return None,
    };
    Some(Edit { id, change })
}

fn read_listing<'a>(roster: Roster, words: &mut Words<'a>) -> Option<Change<'a>> {
    let is_added = match words.next()? {
        b"add" => true,
        b"drop" => false,
        _ => return None,
    };
    Some(Change::Listed { roster, is_added, name: words.next()? })
}

// ----------------------------------------------------------------------------------------------------------- Playing

enum Fault { Players, Line(u64), Read, Write }

impl Fault {
    fn text(&self) -> String {
        match self {
            Fault::Players => "fault 29 players".to_string(),
            Fault::Line(number) => format!("fault 40 line {number}"),
            Fault::Read => "fault 42 read".to_string(),
            Fault::Write => "fault 43 write".to_string(),
        }
    }
}

/// What the header has said so far.
#[derive(Default)]
struct Opening {
    world: Option<World>,
    players: Vec<Name>,
    names: HashSet<Name>,
    /// The cells that were set.
    placed: Vec<usize>,
}

impl Opening {
    fn is_peopled(&self) -> bool {
        self.world.is_some() && !self.players.is_empty()
    }

    /// Takes in a line of the header; none where it may not stand there.
    fn take_in(&mut self, line: &Line) -> Option<()> {
        match *line {
            Line::World { east, south, chunks, height } if self.world.is_none() => {
                self.world = Some(World::new(east as i32, south as i32, chunks as i32, height as i32));
            }
            Line::Player(name) if self.world.is_some() && self.names.insert(name) => self.players.push(name),
            Line::Set(p, cell) => {
                let world = self.world.as_mut()?;
                let at = world.index(p)?;
                world.put_cell(at, cell);
                self.placed.push(at);
            }
            Line::Nothing => {}
            _ => return None,
        }
        Some(())
    }
}

/// The world at play.
struct Game {
    world: World,
    players: Vec<Name>,
    judge: Judge,
    desk: Desk,
    machines: Machines,
    /// The commands of the window, by sector.
    records: Vec<Vec<Entry>>,
    cell_texts: Vec<String>,
    ticks: u64,
    calls: u64,
}

impl Game {
    fn new(world: World, players: Vec<Name>, placed: Vec<usize>, is_anew: bool) -> Game {
        let mut records = Vec::new();
        records.resize_with(world.sectors(), Vec::new);
        Game {
            judge: Judge::new(&world),
            desk: Desk::new(),
            machines: Machines::new(&world, placed, is_anew),
            records,
            world,
            players,
            cell_texts: cell_texts(),
            ticks: 0,
            calls: 0,
        }
    }

    /// Plays a line of the body and writes its reply; none where it may not stand there.
    fn play(&mut self, line: Line, out: &mut Vec<u8>) -> Option<()> {
        match line {
            Line::Nothing => {}
            Line::Command(name, at, action) => {
                let seat = self.players.iter().position(|player| *player == name)?;
                self.command(seat, at, action, out);
            }
            Line::Edit(edit) => self.edit(edit, out),
            Line::Tick => self.tick(out),
            Line::World { .. } | Line::Player(_) | Line::Set(..) => return None,
        }
        Some(())
    }

    fn command(&mut self, seat: usize, p: Pos, action: Action, out: &mut Vec<u8>) {
        let index = match self.world.index(p) {
            Some(index) => index,
            None => return out.extend_from_slice(Refusal::OutOfWorld.line()),
        };
        let answer = self.answer(seat, p, index, action);
        write_answer(out, &answer, &self.cell_texts);
        let sector = self.world.sector(p);
        self.records[sector].push(Entry { at: p, action, seat: seat as u8, answer });
        self.calls += 1;
    }

    fn answer(&mut self, seat: usize, p: Pos, index: usize, action: Action) -> Answer {
        let flag = match action {
            Action::Look => return Answer::Seen(self.world.cells[index]),
            Action::Place(_) => Flag::BlockPlace,
            Action::Break => Flag::BlockBreak,
            Action::Turn => Flag::Use,
            Action::Open | Action::Put { .. } | Action::Take { .. } => Flag::ChestAccess,
        };
        match self.judge.verdict(Subject::Player(&self.players[seat]), flag, p) {
            Err(rule) => Answer::Denied(rule),
            Ok(rule) => match self.world.act(index, action) {
                Ok(None) => {
                    if let Action::Place(_) | Action::Break | Action::Turn = action {
                        self.machines.note(index);
                    }
                    Answer::Done(rule)
                }
                Ok(Some(slots)) => Answer::Opened(rule, slots),
                Err(refusal) => Answer::Refused(refusal),
            },
        }
    }

    fn edit(&mut self, edit: Edit, out: &mut Vec<u8>) {
        match self.desk.edit(edit) {
            Ok(given) => {
                out.extend_from_slice(b"edit ");
                write_number(out, self.desk.accepted);
                if let Some(number) = given {
                    out.extend_from_slice(b" region ");
                    write_number(out, number as u64);
                }
                out.push(b'\n');
            }
            Err(refusal) => out.extend_from_slice(refusal.line()),
        }
    }

    /// Closes the window: its record is over, machines step under its policy, and then the edits so far are in force.
    fn tick(&mut self, out: &mut Vec<u8>) {
        self.ticks += 1;
        for record in &mut self.records {
            record.clear();
        }
        out.extend_from_slice(b"tick ");
        write_number(out, self.ticks);
        out.push(b'\n');
        let fates = self.machines.tick(&mut self.world, &mut self.judge);
        for &(piston, fate) in fates {
            write_fate(out, &self.world, piston, fate);
        }
        self.judge.take_version(&mut self.desk);
    }
}

enum Stage { Header(Opening), Body(Game) }

/// Runs the lines of a script, one after another.
struct Script {
    stage: Stage,
    lines: u64,
    is_anew: bool,
}

impl Script {
    fn line(&mut self, text: &[u8], out: &mut Vec<u8>) -> Result<(), Fault> {
        self.lines += 1;
        let number = self.lines;
        let line = read_line(text).ok_or(Fault::Line(number))?;
        if let Stage::Header(opening) = &mut self.stage {
            let begins = match &line {
                Line::Command(name, ..) => opening.names.contains(name),
                Line::Edit(_) | Line::Tick => opening.is_peopled(),
                _ => return opening.take_in(&line).ok_or(Fault::Line(number)),
            };
            if !begins {
                return Err(Fault::Line(number));
            }
            self.begin()?;
        }
        match &mut self.stage {
            Stage::Header(_) => Err(Fault::Line(number)),
            Stage::Body(game) => game.play(line, out).ok_or(Fault::Line(number)),
        }
    }

    /// Makes the world of a header that has one, with a player.
    fn begin(&mut self) -> Result<(), Fault> {
        if let Stage::Header(opening) = &mut self.stage {
            if opening.players.len() > MOST_PLAYERS {
                return Err(Fault::Players);
            }
            if let Some(world) = opening.world.take() {
                let (players, placed) = (mem::take(&mut opening.players), mem::take(&mut opening.placed));
                self.stage = Stage::Body(Game::new(world, players, placed, self.is_anew));
            }
        }
        Ok(())
    }

    fn end(&mut self, out: &mut Vec<u8>) -> Result<(), Fault> {
        if let Stage::Header(opening) = &self.stage {
            if opening.is_peopled() {
                self.begin()?;
            }
        }
        if let Stage::Body(game) = &self.stage {
            out.extend_from_slice(b"done ticks ");
            write_number(out, game.ticks);
            out.extend_from_slice(b" calls ");
            write_number(out, game.calls);
            out.push(b'\n');
        }
        Ok(())
    }
}

// ----------------------------------------------------------------------------------------------- Reading and writing

/// Replies that wait to be written.
struct Output {
    file: File,
    pending: Vec<u8>,
}

impl Output {
    /// Writes what is pending; what could not be written stays.
    fn flush(&mut self) -> Result<(), Fault> {
        let mut written = 0;
        let mut result = Ok(());
        while written < self.pending.len() && result.is_ok() {
            match self.file.write(&self.pending[written..]) {
                Ok(count) if count > 0 => written += count,
                Err(error) if error.kind() == io::ErrorKind::Interrupted => {}
                _ => result = Err(Fault::Write),
            }
        }
        self.pending.drain(..written);
        result
    }
}

/// The input, read piece by piece.
struct Input {
    file: File,
    /// What was read, of which the bytes from `start` on are not yet of a line.
    buffer: Vec<u8>,
    start: usize,
    end: usize,
    bytes: usize,
    reads: u32,
}

impl Input {
    /// Reads more behind what is left, at most as much as a script may have; false at its end.
    fn more(&mut self) -> Result<bool, Fault> {
        self.buffer.copy_within(self.start..self.end, 0);
        self.end -= self.start;
        self.start = 0;
        // Where the script has all its bytes, one more is the fault.
        let room = (self.buffer.len() - self.end).min((MOST_SCRIPT_BYTES - self.bytes).max(1));
        loop {
            if self.reads == MOST_READS {
                return Err(Fault::Read);
            }
            self.reads += 1;
            match self.file.read(&mut self.buffer[self.end..self.end + room]) {
                Ok(0) => return Ok(false),
                Ok(_) if self.bytes == MOST_SCRIPT_BYTES => return Err(Fault::Read),
                Ok(count) => {
                    self.end += count;
                    self.bytes += count;
                    return Ok(true);
                }
                Err(error) if error.kind() == io::ErrorKind::Interrupted => {}
                Err(_) => return Err(Fault::Read),
            }
        }
    }
}

fn run(input: &mut Input, script: &mut Script, output: &mut Output) -> Result<(), Fault> {
    loop {
        while let Some(length) = input.buffer[input.start..input.end].iter().position(|&b| b == b'\n') {
            let line = &input.buffer[input.start..input.start + length];
            script.line(line, &mut output.pending)?;
            input.start += length + 1;
            if output.pending.len() >= BUFFER_BYTES {
                output.flush()?;
            }
        }
        if input.end - input.start > MOST_LINE_BYTES {
            return Err(Fault::Line(script.lines + 1));
        }
        output.flush()?;
        if !input.more()? {
            break;
        }
    }
    if input.start < input.end {
        script.line(&input.buffer[input.start..input.end], &mut output.pending)?;
    }
    script.end(&mut output.pending)
}

fn play() -> Result<(), Fault> {
    let input = io::stdin().as_fd().try_clone_to_owned().map_err(|_| Fault::Read)?;
    let output = io::stdout().as_fd().try_clone_to_owned().map_err(|_| Fault::Write)?;
    let mut input =
        Input { file: input.into(), buffer: vec![0; BUFFER_BYTES], start: 0, end: 0, bytes: 0, reads: 0 };
    let mut output = Output { file: output.into(), pending: Vec::with_capacity(2 * BUFFER_BYTES) };
    let is_anew = std::env::args().any(|word| word == "--anew");
    let mut script = Script { stage: Stage::Header(Opening::default()), lines: 0, is_anew };
    // The fault that was met first is told, and what is pending is written all the same.
    let result = run(&mut input, &mut script, &mut output);
    result.and(output.flush())
}

fn main() -> ExitCode {
    match play() {
        Ok(()) => ExitCode::SUCCESS,
        Err(fault) => {
            let _ = writeln!(io::stderr(), "{}", fault.text());
            ExitCode::FAILURE
        }
    }
}
