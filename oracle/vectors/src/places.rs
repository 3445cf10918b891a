//! Functions, and the places that the Rust gives their values.
//!
//! File: the number of functions; each: the number of its input words (docs/INPUT.md), those words; the number of words of the function table,
//! those words, low half first; the number that comes back, 0 or 8; and if that is 0: the slots made, one past the highest general register
//! used (0 for none), the number of values, the map word of each.
//!
//! A map word is 0 for no place, else 1 and the place's number: r for register r, 256 + k for slot k.
use crate::hand::*;
use garden::REGISTER_COUNT;
use garden::compile::{Placed, places};
use garden::model::{Constant, Does, Function};
use garden::random::{Style, function as any_function};
use garden::rng::Random;

/// How many values find a place at once: every pool register and all 128 slots.
const PLACES: u32 = REGISTER_COUNT as u32 - 2 + 128;

/// So many values held at once, then all of them used.
fn held(count: u32) -> Function {
    let mut instrs = loads(0, count);
    instrs.extend(sum(count, 0, count));
    function(1, vec![block(&[], instrs, ret(2 * count - 2))])
}

/// All places held, and another value placed at the row where one of them ends, or just before.
fn at_the_end(of: u32, later: u32) -> Function {
    let mut instrs = loads(0, PLACES + 1);
    instrs.push(add(PLACES + 1, PLACES, PLACES));
    let mut f = function(1, vec![block(&[], instrs, ret(PLACES + 1))]);
    // the first value's row is 1
    for v in 0..PLACES {
        f = ending(f, v, if v == of { PLACES + 1 + later } else { 2000 });
    }
    f
}

/// Every place held in block 0; a block's parameters need more.
fn params_need(count: u32) -> Function {
    let args: Vec<u32> = (0..count).map(|k| k % 20).collect();
    let params: Vec<u32> = (20..20 + count).collect();
    let mut instrs = sum(20 + count, 20, count);
    instrs.push(add(19 + 2 * count, 0, 19));
    function(1, vec![block(&[], loads(0, 20), jump(1, &args)), block(&params, instrs, ret(19 + 2 * count))])
}

fn pressure() -> Vec<Function> {
    let mut all: Vec<Function> = [1, 19, 20, 30, 31, PLACES, PLACES + 1].into_iter().map(held).collect();
    // a register and a slot are free at the row where their value ends, and still held one row before
    for of in [3, 40] {
        all.extend([at_the_end(of, 0), at_the_end(of, 1)]);
    }
    // two of the twenty last into the next block, so there is room for PLACES - 2 parameters; the 190 that are most need more
    all.extend([params_need(PLACES - 3), params_need(PLACES - 2), params_need(PLACES - 1), params_need(190)]);
    // of 190 parameters only one is read
    let params: Vec<u32> = (1..191).collect();
    all.push(function(1, vec![block(&[0], vec![], jump(1, &[0; 190])), block(&params, vec![], ret(77))]));
    all
}

/// v0 to v5 loaded, v6 their last sum.
fn six() -> Function {
    let mut instrs = loads(0, 6);
    instrs.extend(sum(6, 0, 6));
    function(3, vec![block(&[], instrs, ret(10))])
}

fn hints() -> Vec<Function> {
    let last = REGISTER_COUNT as u8 - 3;
    let mut all = vec![
        // won, lost to an earlier one, lost as no register of the pool, won where an earlier one has ended
        hinted(six(), &[(0, 5), (1, last), (2, 19)]),
        hinted(six(), &[(1, 0), (2, 0), (3, 1)]),
        hinted(six(), &[(0, last + 1), (1, last + 2), (2, 63), (3, 40)]),
        hinted(six(), &[(0, 4), (6, 4), (7, 4), (10, 0)]),
    ];
    // a parameter of block 0 is pinned, whatever its hint
    all.push(hinted(function(1, vec![block(&[0, 1, 2], vec![add(3, 0, 1)], ret(3))]), &[(0, 2), (1, 0), (2, 1)]));
    // An argument's register goes before the first hint of the parameter, yes before no, a case before the next, the default last. An
    // argument in a slot hints nothing.
    for first in [None, Some(9)] {
        let mut f = function(
            2,
            vec![
                block(&[0, 1, 2], vec![], branch(0, edge(2, &[1]), edge(2, &[2]))),
                block(&[3], vec![], ret(3)),
                block(&[4], vec![], switch(4, vec![(1, edge(3, &[0])), (2, edge(3, &[1]))], edge(3, &[2]))),
                block(&[5], vec![add(6, 5, 1)], ret(6)),
            ],
        );
        (f.values[4].hint, f.values[5].hint) = (first, first);
        all.push(f);
    }
    for hint in [2, 29] {
        // the last of the forty are in slots
        let mut instrs = sum(43, 3, 37);
        instrs.extend([add(79, 40, 41), add(80, 79, 42)]);
        let f = function(1, vec![block(&[], loads(0, 40), jump(1, &[39, 38, 2])), block(&[40, 41, 42], instrs, ret(80))]);
        all.push(hinted(f, &[(40, hint), (41, 7)]));
    }
    all
}

/// Two parameters that trade places, a counter beside them, and a value that lasts around the loop.
fn loops() -> Vec<Function> {
    let body = |args: [u32; 3]| {
        let counter = vec![instr(5, Does::BinImm { op: 1, imm: 1 }, &[4])];
        let entry = block(&[0, 1], loads(6, 1), jump(1, &[0, 1, 6]));
        let header = block(&[2, 3, 4], counter, branch(5, edge(2, &[]), edge(1, &args)));
        function(4, vec![entry, header, block(&[], vec![add(7, 2, 6), add(8, 7, 3)], ret(8))])
    };
    let mut all = vec![body([3, 2, 5]), body([5, 6, 2])];
    // an edge back to block 0
    all.push(function(4, vec![block(&[0, 1], vec![add(2, 0, 1)], branch(2, edge(1, &[]), edge(0, &[1, 0]))), block(&[], vec![], ret(1))]));
    // A value may end in the middle of a loop that still wants it: that is the caller's concern.
    all.push(ending(body([3, 2, 5]), 6, 8));
    all
}

fn others() -> Vec<Function> {
    // unread parameters, one of them passed what is not defined; a value's end before its row
    let mut unread = function(
        5,
        vec![
            block(&[0, 1], loads(2, 1), branch(2, edge(1, &[0, 7, 0]), edge(2, &[1]))),
            block(&[3, 4, 5], vec![], ret(3)),
            block(&[6], vec![load(8, Constant::True), sys(9, 1, &[])], ret_nothing()),
        ],
    );
    (unread.values[9].start, unread.values[9].end) = (2, 2);
    // tombstones between live blocks, holding definitions of the same values
    let first = block(&[0], loads(1, 3), jump(3, &[2]));
    let last = block(&[4], vec![add(5, 4, 1)], ret(5));
    let buried = function(6, vec![first.clone(), tombstone(&first), tombstone(&last), last, tombstone(&first)]);
    // longer than need be, for ever, and starts that are not the value's row
    let mut long = six();
    for (v, end) in [(0, 9), (1, u32::MAX), (2, 14), (7, 9)] {
        long.values[v].end = end;
    }
    (long.values[1].start, long.values[3].start) = (u32::MAX - 1, 0);
    vec![unread, buried, long, function(0, vec![block(&[], vec![], None)])]
}

fn random(count: u64) -> Vec<Function> {
    let mut all = vec![];
    for k in 0..count {
        let random = &mut Random::numbered(0x4f08286203, k);
        let mut style = Style::any(random);
        style.large_tables = false;
        // every tenth one presses, the others stay small
        style.blocks = style.blocks.min(7);
        style.kept = if k % 10 == 0 { random.from_to(40, 160) } else { style.kept.min(30) };
        style.params = style.params.min(30);
        all.push(any_function(random, &style, k as u32 % 8, &[1, 2, 3]));
    }
    all
}

/// Functions 1 to 3 are there, of each kind one.
const TABLE: [u64; 8] = [0, 1 | 40 << 2, 2 | 3 << 2, 3 | 9 << 2, 0, 0, 0, 0];

fn write(out: &mut Vec<u32>, f: &Function, placed: &Placed) {
    let words = f.to_words();
    out.push(words.len() as u32);
    out.extend(words);
    out.push(TABLE.len() as u32);
    out.extend(TABLE.iter().flat_map(|&w| [w as u32, (w >> 32) as u32]));
    out.push(placed.number);
    if placed.number == 0 {
        out.extend([placed.slots, placed.top, placed.places.len() as u32]);
        out.extend(&placed.places);
    }
}

pub fn vectors() -> (Vec<u32>, String) {
    let mut all = pressure();
    all.extend(hints());
    all.extend(loops());
    all.extend(others());
    all.extend(random(64));
    let (mut out, mut values) = (vec![all.len() as u32], 0);
    for f in &all {
        admitted(f);
        values += f.values.len();
        write(&mut out, f, &places(f, &TABLE));
    }
    (out, format!("{} functions, {values} values, 0 differ", all.len()))
}
