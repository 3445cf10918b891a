//! Blocks, how each ends, and where its edges go.
use super::Style;
use crate::REGISTER_COUNT;
use crate::rng::Random;

#[derive(Clone, Copy, Debug, PartialEq)]
pub enum Kind {
    Nothing,
    Return,
    Jump,
    Branch,
    BranchCmpImm,
    BranchCmp,
    Tail,
    Switch,
}

#[derive(Debug)]
pub struct Graph {
    pub live: Vec<bool>,
    pub params: Vec<u32>,
    pub kinds: Vec<Kind>,
    pub targets: Vec<Vec<usize>>,
    /// `dominators[b][d]`: every way to block b goes through d. Of a block that no way leads to, all are.
    pub dominators: Vec<Vec<bool>>,
}

impl Graph {
    pub fn last(&self) -> usize {
        self.live.iter().rposition(|&live| live).unwrap()
    }
}

fn param_count(random: &mut Random, style: &Style, b: usize) -> u32 {
    let most = if b == 0 { REGISTER_COUNT as u32 - 2 } else { style.params };
    match random.below(10) {
        0..=2 => 0,
        3..=7 => random.below(most.min(4) + 1),
        8 => random.below(most.min(24) + 1),
        _ => random.below(most + 1),
    }
}

fn kind(random: &mut Random, style: &Style) -> Kind {
    if random.chance(style.switches) {
        return Kind::Switch;
    }
    match random.below(20) {
        0..=6 => Kind::Jump,
        7..=11 => Kind::Branch,
        12..=14 => Kind::BranchCmpImm,
        15..=16 => Kind::BranchCmp,
        17..=18 => Kind::Return,
        _ => Kind::Tail,
    }
}

/// The last block returns more often than not; the root's may end in nothing.
fn last_kind(random: &mut Random, style: &Style, root: bool) -> Kind {
    match random.below(10) {
        0..=2 if root => Kind::Nothing,
        0..=5 => Kind::Return,
        6..=7 => Kind::Tail,
        _ => kind(random, style),
    }
}

fn edge_count(random: &mut Random, style: &Style, kind: Kind) -> u32 {
    match kind {
        Kind::Nothing | Kind::Return | Kind::Tail => 0,
        Kind::Jump => 1,
        Kind::Branch | Kind::BranchCmpImm | Kind::BranchCmp => 2,
        Kind::Switch if style.large_tables && random.chance(30) => random.from_to(30, 1025),
        Kind::Switch => random.from_to(2, 8),
    }
}

/// The next live block most often, or any later one, or one that is not later.
fn target(random: &mut Random, style: &Style, live: &[bool], b: usize) -> usize {
    let (before, later): (Vec<usize>, Vec<usize>) = (0..live.len()).filter(|&t| live[t]).partition(|&t| t <= b);
    if later.is_empty() || random.chance(style.back) {
        random.one_of(&before)
    } else if random.chance(70) {
        later[0]
    } else {
        random.one_of(&later)
    }
}

fn dominators(live: &[bool], targets: &[Vec<usize>]) -> Vec<Vec<bool>> {
    let n = live.len();
    let mut all = vec![vec![true; n]; n];
    all[0] = (0..n).map(|d| d == 0).collect();
    loop {
        let mut changed = false;
        for b in (0..n).filter(|&b| live[b]) {
            for &t in targets[b].iter().filter(|&&t| t != 0) {
                for d in (0..n).filter(|&d| d != t && !all[b][d]).collect::<Vec<_>>() {
                    changed |= std::mem::replace(&mut all[t][d], false);
                }
            }
        }
        if !changed {
            return all;
        }
    }
}

pub fn graph(random: &mut Random, style: &Style, root: bool) -> Graph {
    let n = style.blocks as usize;
    let live: Vec<bool> = (0..n).map(|b| b == 0 || !random.chance(style.tombstones)).collect();
    let last = live.iter().rposition(|&live| live).unwrap();
    let params = (0..n).map(|b| param_count(random, style, b)).collect();
    let mut kinds: Vec<Kind> = (0..n).map(|_| kind(random, style)).collect();
    kinds[last] = last_kind(random, style, root);
    let mut targets = vec![vec![]; n];
    for b in (0..n).filter(|&b| live[b]) {
        let count = edge_count(random, style, kinds[b]);
        targets[b] = (0..count).map(|_| target(random, style, &live, b)).collect();
    }
    let dominators = dominators(&live, &targets);
    Graph { live, params, kinds, targets, dominators }
}
