//! Random programs that document 01 admits.
//!
//! A function is made in steps, each a file: a graph of blocks (graph), instructions and arguments (body) with constants (constants), live
//! intervals and first hints (live), and what does not matter to the outcome but may be there (junk).
mod body;
mod constants;
mod graph;
mod junk;
mod live;

use crate::REGISTER_COUNT;
use crate::check::judge;
use crate::compile::places;
use crate::model::{Function, Program};
use crate::rng::Random;

/// What a function is to be like.
#[derive(Clone, Debug)]
pub struct Style {
    /// How many blocks, and of them so many in a hundred tombstones.
    pub blocks: u32,
    pub tombstones: u32,
    /// The most instructions of a block, and the most parameters of one but block 0.
    pub instrs: u32,
    pub params: u32,
    /// How many values are made in block 0 and used in the last one.
    pub kept: u32,
    /// Of a hundred instructions so many are calls.
    pub calls: u32,
    /// Of a hundred edges so many go back.
    pub back: u32,
    /// Of a hundred ends so many are switches.
    pub switches: u32,
    /// Operands come from any earlier row, not only from where every path comes by.
    pub wild: bool,
    /// Intervals last as long as a value is wanted, around loops too; otherwise to its last use in the order of rows.
    pub loops: bool,
    /// Of a hundred intervals so many are longer than need be.
    pub long: u32,
    /// Tables may be as long as document 01 lets them be.
    pub large_tables: bool,
}

impl Style {
    pub fn small() -> Self {
        Self {
            blocks: 4,
            tombstones: 10,
            instrs: 5,
            params: 4,
            kept: 0,
            calls: 15,
            back: 20,
            switches: 12,
            wild: false,
            loops: true,
            long: 5,
            large_tables: false,
        }
    }

    /// Any, small ones more often than large ones.
    pub fn any(random: &mut Random) -> Self {
        let blocks = match random.below(10) {
            0..=1 => random.from_to(1, 2),
            2..=6 => random.from_to(2, 7),
            7..=8 => random.from_to(6, 16),
            _ => random.from_to(12, 40),
        };
        let kept = match random.below(20) {
            0..=9 => 0,
            10..=13 => random.from_to(1, 18),
            14..=16 => random.from_to(15, 45),
            17..=18 => random.from_to(40, 110),
            _ => random.from_to(100, 175),
        };
        Self {
            blocks,
            tombstones: random.one_of(&[0, 0, 10, 30]),
            instrs: random.one_of(&[0, 2, 5, 8, 14]),
            params: random.one_of(&[0, 2, 4, 4, 9, 30, 190]),
            kept,
            calls: random.one_of(&[0, 10, 25, 60]),
            back: random.one_of(&[0, 15, 40]),
            switches: random.one_of(&[0, 10, 40]),
            wild: random.chance(15),
            loops: random.chance(85),
            long: random.one_of(&[0, 0, 10, 60]),
            large_tables: random.chance(2),
        }
    }
}

/// A function of that style. It may call itself and the `callees`.
pub fn function(random: &mut Random, style: &Style, id: u32, callees: &[u32]) -> Function {
    let callees: Vec<u32> = callees.iter().copied().chain([id]).collect();
    let graph = graph::graph(random, style, id == 0);
    let mut f = body::function(random, style, &graph, id, &callees);
    live::intervals(random, style, &mut f);
    live::hints(random, &mut f);
    junk::all(random, &mut f);
    assert_eq!(judge(&f, &|id| callees.contains(&id)), 0, "{f:?}");
    f
}

/// Ids of functions in the order in which they are compiled: the root is last, or among them, or not there; now and then one comes twice.
fn ids(random: &mut Random, most: u32, table: u32) -> Vec<u32> {
    let mut others: Vec<u32> = (1..table).collect();
    random.shuffle(&mut others);
    others.truncate(random.below(most) as usize);
    if others.len() > 1 && random.chance(8) {
        others[1] = others[0];
    }
    match random.below(10) {
        0..=5 => others.push(0),
        6..=7 => others.insert(random.below(others.len() as u32 + 1) as usize, 0),
        _ if others.is_empty() => others.push(1),
        _ => {}
    }
    others
}

/// A function table with some native code in it.
fn natives(random: &mut Random) -> Vec<u64> {
    let mut table = vec![0; random.from_to(4, 20) as usize];
    for _ in 0..random.below(4) {
        let id = random.below(table.len() as u32) as usize;
        table[id] = 2 | random.below(2) as u64 | (random.one_of(&[0, 1, 7, 300, 65533]) as u64) << 2;
    }
    table
}

/// A program of at most so many functions, each of a style that `style` gives.
pub fn program(random: &mut Random, most: u32, style: &mut dyn FnMut(&mut Random) -> Style) -> Program {
    let table = natives(random);
    let mut program = Program { strings_first: random.chance(60), ..Program::default() };
    let mut known: Vec<u32> = (0..table.len() as u32).filter(|&id| table[id as usize] != 0).collect();
    let mut trial = table.clone();
    for id in ids(random, most, table.len() as u32) {
        let style = style(random);
        let mut f = function(random, &style, id, &known);
        trial[id as usize] |= 1;
        // 8 refuses it: the strings of a refused function are no concern of ours
        let refused = places(&f, &trial).number != 0;
        f.unused = id != 0 && random.chance(5);
        if refused && (program.strings_first || f.unused) {
            continue;
        }
        if !refused && !f.unused {
            known.push(id);
        }
        program.functions.push(f);
    }
    program.table = table;
    program
}

/// How many arguments a call has: few, or about as many as decide something, or as many as there may be.
fn arity(random: &mut Random) -> u32 {
    let most = REGISTER_COUNT as u32 - 2;
    match random.below(10) {
        0..=5 => random.below(6),
        6..=7 => random.from_to(6, 17),
        8 => random.one_of(&[18, 19, 20, 21]).min(most),
        _ => random.from_to(19, most),
    }
}
