//! Lists of moves, and the ops that bc's `emit_parallel_move` gives for them.
//!
//! A record is a list of moves: called with exactly enough room for its ops, and with each buffer in turn a word short, which is refused. A row:
//!
//! | Words | |
//! |---|---|
//! | 0, 1 | the sources' place numbers: r for general register r, 256 + k for slot k |
//! | 2, 3 | the destinations' |
//! | 4, 5 | the used length before the call, the span |
//! | 6, 7 | how many words of the ops and of the spans are lent |
//! | 8, 9 | the number that comes back, the new used length |
//! | 10 to 12, 13 to 15 | what the ops and the spans hold afterwards; before the call they hold zeros |
use garden::bc::Cc;
use garden::rng::Random;
use garden::words::word;
use garden::xralloc2::{Location, Reg};
use records::{File, Record, ZEROS, held};

/// How many ops stand before a list's, and the span of these.
const USED: u32 = 3;
const SPAN: u32 = 7;

/// The number of a refusal for too little room.
const NO_ROOM: u32 = 9;

fn location(place: u32) -> Location {
    if place < 256 { Location::Reg(Reg::Gpr(place as u8)) } else { Location::Stack((place - 256) as u16) }
}

fn ops(list: &[(u32, u32)]) -> Vec<u64> {
    let mut cc = Cc::new();
    cc.only_moves(list.iter().map(|&(s, d)| (location(s), location(d))).collect());
    cc.buf.iter().map(|&op| word(op, &[], &[])).collect()
}

/// Places in some order: pool registers and slots, `slots` of them.
fn places(random: &mut Random, slots: u32) -> Vec<u32> {
    let mut all: Vec<u32> = (0..30).chain((0..slots).map(|k| 256 + k)).collect();
    random.shuffle(&mut all);
    all
}

/// Cycles of the given lengths over distinct places, the moves shuffled.
fn cycles(random: &mut Random, slots: u32, lengths: &[usize]) -> Vec<(u32, u32)> {
    let all = places(random, slots);
    let (mut list, mut at) = (vec![], 0);
    for &n in lengths {
        for i in 0..n {
            list.push((all[at + i], all[at + (i + 1) % n]));
        }
        at += n;
    }
    random.shuffle(&mut list);
    list
}

fn chain(random: &mut Random, slots: u32, n: usize) -> Vec<(u32, u32)> {
    let all = places(random, slots);
    let mut list: Vec<_> = (0..n).map(|i| (all[i], all[i + 1])).collect();
    random.shuffle(&mut list);
    list
}

/// One source, many destinations, and one of them a source of its own.
fn fan(random: &mut Random, slots: u32, n: usize) -> Vec<(u32, u32)> {
    let all = places(random, slots);
    let mut list: Vec<_> = (1..n).map(|i| (all[0], all[i])).collect();
    list.push((all[1], all[0]));
    random.shuffle(&mut list);
    list
}

/// Distinct destinations, any sources, equal pairs dropped as edges and calls drop them.
fn any(random: &mut Random) -> Vec<(u32, u32)> {
    let slots = random.below(20);
    let all = places(random, slots);
    let n = random.below(all.len() as u32 + 1) as usize;
    let reach = 1 + random.below(all.len() as u32);
    (0..n).map(|i| (all[random.below(reach) as usize], all[i])).filter(|(s, d)| s != d).collect()
}

fn record(list: &[(u32, u32)]) -> Record {
    let mut record = Record::default();
    let (sources, destinations): (Vec<u32>, Vec<u32>) = list.iter().copied().unzip();
    let moves = [record.narrow(&sources), record.narrow(&destinations)].concat();
    let ops = ops(list);
    let end = USED + ops.len() as u32;
    let spans = [vec![0; USED as usize], vec![SPAN; ops.len()]].concat();
    let left = [held(record.wide(&[vec![0; USED as usize], ops].concat()), 0), held(record.narrow(&spans), 0)].concat();
    record.call(&[&moves, &[USED, SPAN, end, end, 0, end], &left]);
    if end > USED {
        for [ops, spans] in [[end - 1, end], [end, end - 1]] {
            record.call(&[&moves, &[USED, SPAN, ops, spans, NO_ROOM, 0], &ZEROS, &ZEROS]);
        }
    }
    record
}

pub fn vectors() -> (Vec<u32>, String) {
    let random = &mut Random::new(0x4f08286203);
    // Document 01's examples 1 to 3, then the shapes that are hard, then any.
    let mut lists = vec![vec![(0, 1), (1, 0), (258, 5)], vec![(0, 4), (1, 5), (2, 6)], vec![(256, 257), (257, 256)], vec![]];
    for n in [2, 3, 4, 5, 10, 29, 30, 60, 100, 189, 190] {
        lists.push(cycles(random, 256, &[n]));
    }
    for lengths in [&[2, 2][..], &[2, 3, 4], &[5, 5, 5, 5], &[2; 15], &[3; 50], &[95, 95], &[190]] {
        lists.push(cycles(random, 226, lengths));
    }
    for n in [1, 2, 7, 29, 100, 190] {
        lists.push(chain(random, 256, n));
        lists.push(fan(random, 256, n));
    }
    lists.extend((0..250).map(|_| any(random)));

    let mut file = File::default();
    lists.iter().for_each(|list| file.add(record(list)));
    file.done()
}
