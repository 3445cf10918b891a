//! Programs, function by function, and all that the Rust's lowering makes of them. Nothing is compacted. Each list stands as `compile` holds it
//! in its buffer.
//!
//! A wide word is two words, low half first.
//!
//! File: the number of programs. Each program: the number of its words, and these:
//! - 1 if the strings of its used functions are interned before the first is compiled, in one call for the list; else 0
//! - how many strings that call interned, 0 without it: they are the first globals below
//! - 1 if each function is to be compiled again in exactly enough room and in too little; else 0
//! - how many words the function table has, how many functions there are
//! - the words, counted from the first of these, at which each of the following starts
//! - the function table at the start; the function table at the end (wide)
//! - the ops (wide); their spans; kind and payload of each global (wide); the builtins
//! - of each switch table its first key, where its slots start, how many it has (wide); the slots
//! - of each lookup table its first key, where its values start, how many it has, kind and payload of its default (wide); kind and payload of
//!   each value (wide)
//! - the functions, each:
//!   - the number of its input words; how many words of the function table it and its callees take; the number that comes back, 0 or 8; how
//!     many map words follow, after 8 none
//!   - how many ops, globals, builtins, switch tables, slots, lookup tables and values the program has afterwards, unchanged after 8
//!   - the input words; the map words (0 for no place, 1 + r for register r, 257 + k for slot k)
//!
//! A function that is marked unused (word 2) is not compiled: it has 0, no map words, and the counts as they were.
use crate::hand::*;
use garden::REGISTER_COUNT;
use garden::compile::{Compiled, Used, compile};
use garden::model::{Block, Constant, Does, Ends, Function, Held, Program};
use garden::random::{Style, program};
use garden::rng::Random;

const SEED: u64 = 0x4f08286203;

/// Is each function compiled again in exactly enough room and in too little?
const TRIED: bool = true;

/// The most arguments.
const MOST: u32 = REGISTER_COUNT as u32 - 2;

/// Functions 2 and 3 are native, the second one returns a double; the others are for who is compiled.
fn with_natives(functions: Vec<Function>) -> Program {
    let mut table = vec![0; 40];
    (table[2], table[3]) = (2 | 5 << 2, 3 | 6 << 2);
    Program { functions, table, strings_first: false }
}

/// `n` of the numbers below `of`, none where it should be if that can be.
fn turned(n: u32, of: u32) -> Vec<u32> {
    (0..n).map(|k| (k + 1) % of).collect()
}

fn up_to(n: u32) -> Vec<u32> {
    (0..n).collect()
}

/// Document 01's examples 7 and 5, and constants that are alike but for their kind.
fn examples() -> Vec<Program> {
    let example_7 = function(1, vec![block(&[0, 1], vec![add(2, 0, 1)], ret(2))]);
    let ints = [2147483646, 2147483647, -2147483648, -2147483647, 0, i64::MIN, i64::MAX].map(Constant::Int);
    let alike =
        [7, 7, 8].into_iter().flat_map(|n| [Constant::Str(n), Constant::Double(n), Constant::Int(n as i64 + (1 << 40)), Constant::Str(n)]);
    let others = [Constant::Undefined, Constant::True, Constant::False, Constant::Double(0), Constant::Str(0)];
    let all: Vec<Constant> = ints.into_iter().chain(alike).chain(others).collect();
    let constants = |id: u32, held: u32| {
        // with so many values held the constants go to slots
        let mut instrs = loads(0, held);
        instrs.extend(all.iter().enumerate().map(|(k, &c)| load(held + k as u32, c)));
        let count = held + all.len() as u32;
        instrs.extend(sum(count, 0, count));
        function(id, vec![block(&[], instrs, ret(2 * count - 2))])
    };
    let both = vec![constants(4, 1), constants(5, MOST)];
    vec![with_natives(vec![example_7]), with_natives(both.clone()), Program { strings_first: true, ..with_natives(both) }]
}

/// Tails of 0 to the most arguments, to bytecode, native code and itself; with 25 parameters there is a frame.
fn tails() -> Vec<Program> {
    let mut all = vec![];
    for params in [18, 25.min(MOST)] {
        let mut functions = vec![function(1, vec![block(&[], vec![], ret_nothing())])];
        for n in [0, 1, 18, 19, 20, MOST] {
            for callee in [1, 2, 3, 0] {
                let id = 4 + functions.len() as u32;
                let to = if callee == 0 { id } else { callee };
                functions.push(function(id, vec![block(&up_to(params), vec![], tail(to, &turned(n, params)))]));
            }
        }
        all.push(with_natives(functions));
    }
    all
}

/// Calls of 0 to the most arguments while so many values are held, each of them used afterwards.
fn calls(held: u32) -> Program {
    let mut functions = vec![];
    for (k, n) in [0, 1, 2, 18, 19, 20, 21.min(MOST), MOST].into_iter().enumerate() {
        let args = turned(n, held);
        let mut instrs = loads(0, held);
        instrs.extend([call(held, 1, &args), call(held + 1, 2, &args), sys(held + 2, n, &args), sys(held + 3, 77, &args)]);
        instrs.extend(sum(held + 4, 0, held + 4));
        let id = if k == 0 { 1 } else { 4 + k as u32 };
        functions.push(function(id, vec![block(&[], instrs, ret(2 * held + 6))]));
    }
    // twenty copies of one value
    functions.push(function(0, vec![block(&[0], vec![call(1, 1, &[0; 20])], ret(1))]));
    with_natives(functions)
}

/// The root after its last block: a Ret, or none.
fn roots() -> Vec<Program> {
    let leaf = || function(1, vec![block(&[0], vec![], ret(0))]);
    let root = |blocks: Vec<Block>| function(0, blocks);
    let empty = || root(vec![block(&[], vec![], None)]);
    let spilling = |end| {
        let mut instrs = loads(0, 40);
        instrs.extend(sum(40, 0, 40));
        root(vec![block(&[], instrs, end)])
    };
    // block 2 is empty and ends in nothing, and the op before it is block 1's Ret
    let past =
        || root(vec![block(&[0], vec![], branch(0, edge(2, &[]), edge(1, &[]))), block(&[], vec![], ret(0)), block(&[], vec![], None)]);
    vec![
        with_natives(vec![empty()]),
        with_natives(vec![leaf(), empty()]),
        with_natives(vec![leaf(), empty(), function(4, vec![block(&[], vec![call(0, 0, &[])], ret(0))])]),
        with_natives(vec![function(1, vec![block(&[], vec![], tail(2, &[]))]), empty()]),
        with_natives(vec![function(1, vec![block(&[], vec![], tail(1, &[]))]), empty()]),
        with_natives(vec![leaf(), past()]),
        with_natives(vec![leaf(), root(vec![block(&[0], vec![add(1, 0, 0)], None)])]),
        with_natives(vec![leaf(), root(vec![block(&[0], vec![], tail(1, &[0]))]), root(vec![block(&[0], vec![], tail(2, &[0]))])]),
        with_natives(vec![spilling(None), spilling(ret(5)), spilling(tail(2, &[7])), spilling(jump(0, &[]))]),
    ]
}

/// Parameters of a loop that trade places, in registers and in slots; with one more that stays, and all of them the same.
fn loops() -> Vec<Program> {
    let around = |id: u32, n: u32, args: Vec<u32>| {
        let (first, cond) = (n, 2 * n);
        let params: Vec<u32> = (first..first + n).collect();
        let args: Vec<u32> = args.into_iter().map(|k| first + k).collect();
        let mut after = sum(cond + 1, first, n);
        after.push(add(cond + n, first, cond));
        function(
            id,
            vec![
                block(&[], loads(0, n), jump(1, &up_to(n))),
                block(&params, vec![add(cond, first, first + n - 1)], branch(cond, edge(2, &[]), edge(1, &args))),
                block(&[], after, ret(cond + n)),
            ],
        )
    };
    let swap = |n: u32| (0..n).map(|k| k ^ 1).collect::<Vec<u32>>();
    let programs = [2, 3, 8, 28, 36, 60].into_iter().map(|n| {
        let orders = [turned(n, n), up_to(n), vec![n - 1; n as usize], if n % 2 == 0 { swap(n) } else { turned(n, n - 1) }];
        with_natives(orders.into_iter().enumerate().map(|(k, args)| around(4 + k as u32, n, args)).collect())
    });
    programs.collect()
}

/// A switch over these keys, where every third case moves, every third goes elsewhere, and the default moves.
fn switched(id: u32, keys: &[i64]) -> Function {
    let cases = keys.iter().enumerate().map(|(k, &key)| match k % 3 {
        0 => (key, edge(1, &[0, 1])),
        1 => (key, edge(1, &[1, 0])),
        _ => (key, edge(2, &[])),
    });
    function(
        id,
        vec![
            block(&[0, 1], vec![], switch(0, cases.collect(), edge(1, &[1, 1]))),
            block(&[2, 3], vec![add(4, 2, 3)], ret(4)),
            block(&[], vec![], ret(1)),
        ],
    )
}

fn looked_up(id: u32, keys: &[i64]) -> Function {
    let kinds =
        [Constant::Undefined, Constant::False, Constant::True, Constant::Int(-3), Constant::Double(9), Constant::Str(4), Constant::Str(9)];
    let entries = keys.iter().enumerate().map(|(k, &key)| (Constant::Int(key), kinds[k % 7])).collect();
    let lookup = instr(1, Does::Lookup { entries, default: kinds[keys.len() % 7] }, &[0]);
    function(id, vec![block(&[0], vec![lookup], ret(1))])
}

/// Tables: one key, equal keys, holes, both ends of the numbers, and as many keys as may be, as far apart as may be.
fn tables() -> Vec<Program> {
    let most: Vec<i64> = (0..1024).map(|k| 4095 - 4 * k - (k == 1023) as i64 * 3).collect();
    let lists: [&[i64]; 8] = [
        &[5],
        &[0],
        &[3, 3],
        &[1, 2, 3],
        &[9, 1, 5, 1, 9, 9],
        &[-2, 4, 0],
        &[i64::MIN, i64::MIN + 7],
        &[i64::MAX - 9, i64::MAX, i64::MAX - 1],
    ];
    let small = lists.iter().enumerate().flat_map(|(k, keys)| [switched(4 + k as u32, keys), looked_up(20 + k as u32, keys)]);
    vec![
        with_natives(small.clone().collect()),
        Program { strings_first: true, ..with_natives(small.collect()) },
        with_natives(vec![looked_up(1, &most), switched(4, &most)]),
    ]
}

/// A function that is in the table already: as native code, and twice; and one that is refused with 8.
fn others() -> Vec<Program> {
    let own = |id: u32| function(id, vec![block(&[0], vec![call(1, id, &[0])], tail(id, &[1]))]);
    let calls_2 = function(4, vec![block(&[0], vec![call(1, 2, &[0])], ret(1))]);
    let held = |id: u32, n: u32| {
        let mut instrs = loads(0, n);
        instrs.extend([load(n, Constant::Str(3)), sys(n + 1, 8, &[n])]);
        instrs.extend(sum(n + 2, 0, n));
        function(id, vec![block(&[], instrs, ret(2 * n))])
    };
    let mut unused = held(6, 3);
    unused.unused = true;
    vec![
        with_natives(vec![calls_2.clone(), own(2), calls_2.clone(), own(4), calls_2]),
        with_natives(vec![own(1), held(1, MOST + 129), held(5, MOST + 127), own(1)]),
        Program { strings_first: true, ..with_natives(vec![own(5), unused, held(7, 4)]) },
        with_natives(vec![]),
    ]
}

/// Small ones for the most part, some with pressure, some of any kind.
fn random(k: u64) -> Program {
    let random = &mut Random::numbered(SEED, k);
    program(random, 4, &mut |random| match random.below(12) {
        0 => Style { blocks: 6, large_tables: false, kept: 0, params: 12, ..Style::any(random) },
        1 => Style { kept: random.from_to(20, 60), calls: 50, wild: random.chance(30), ..Style::small() },
        2 => Style { blocks: 8, params: 12, back: 40, long: 40, ..Style::small() },
        3 => Style { blocks: 3, instrs: 8, calls: 80, loops: false, ..Style::small() },
        4 => Style { blocks: 7, switches: 60, ..Style::small() },
        5 if random.chance(25) => Style { blocks: 3, kept: random.from_to(120, 175), ..Style::small() },
        _ => Style { blocks: random.from_to(1, 5), long: random.one_of(&[0, 30]), wild: random.chance(10), ..Style::small() },
    })
}

/// How much there is of each kind, with the slots of switch tables and the values of lookup tables.
fn counts(done: &Compiled, used: &Used) -> [u32; 7] {
    let Used { ops, globals, builtins, switches, lookups } = *used;
    let slots: usize = done.code.switches[..switches as usize].iter().map(|t| t.targets.len()).sum();
    let values: usize = done.lookups[..lookups as usize].iter().map(|t| t.values.len()).sum();
    [ops, globals, builtins, switches, slots as u32, lookups, values as u32]
}

/// Before the first function: the strings, if they come first.
fn at_first(done: &Compiled) -> Used {
    Used { globals: done.strings, ..Used::default() }
}

/// How many words of the function table have to be there: its own entry and those of its callees.
fn table_words(f: &Function) -> u32 {
    let instrs = f.blocks.iter().flat_map(|b| &b.instrs).filter_map(|i| match i.does {
        Does::Call { function } => Some(function),
        _ => None,
    });
    let tails = f.blocks.iter().filter_map(|b| match b.term.as_ref()?.ends {
        Ends::Tail { function } => Some(function),
        _ => None,
    });
    1 + instrs.chain(tails).fold(f.id, u32::max)
}

/// How many of the thirteen buffers may be one short: those that the function adds to, and the function table where no callee is past its end.
fn shorts(f: &Function, before: [u32; 7], after: [u32; 7]) -> usize {
    let grown = before.iter().zip(after).filter(|(b, a)| *b < a).count();
    let spans = (before[0] < after[0]) as usize;
    let values = if f.values.is_empty() { 0 } else { 3 };
    let labels = 1;
    let table = (table_words(f) == f.id + 1) as usize;
    grown + spans + values + labels + table
}

fn wide(words: &[u64]) -> Vec<u32> {
    words.iter().flat_map(|&w| [w as u32, (w >> 32) as u32]).collect()
}

fn constants(all: &[Held]) -> Vec<u32> {
    all.iter().flat_map(|&(kind, payload)| wide(&[kind as u64, payload])).collect()
}

fn switch_tables(done: &Compiled) -> [Vec<u32>; 2] {
    let (mut heads, mut slots) = (vec![], vec![]);
    for table in &done.code.switches {
        heads.extend(wide(&[table.first, slots.len() as u64, table.targets.len() as u64]));
        slots.extend(&table.targets);
    }
    [heads, slots]
}

fn lookup_tables(done: &Compiled) -> [Vec<u32>; 2] {
    let (mut heads, mut values) = (vec![], vec![]);
    for table in &done.lookups {
        let (kind, payload) = table.default;
        heads.extend(wide(&[table.first, values.len() as u64, table.values.len() as u64, kind as u64, payload]));
        values.extend(&table.values);
    }
    [heads, constants(&values)]
}

fn functions(program: &Program, done: &Compiled) -> Vec<u32> {
    let mut out = vec![];
    for (f, (placed, used)) in program.functions.iter().zip(&done.each) {
        let words = f.to_words();
        out.extend([words.len() as u32, table_words(f), placed.number, placed.places.len() as u32]);
        out.extend(counts(done, used));
        out.extend(words);
        out.extend(&placed.places);
    }
    out
}

fn words_of(program: &Program, done: &Compiled) -> Vec<u32> {
    let ([switches, slots], [lookups, values]) = (switch_tables(done), lookup_tables(done));
    let (ops, spans) = (wide(&done.code.ops), done.code.spans.clone());
    let (globals, builtins) = (constants(&done.globals), done.builtins.clone());
    let [first, last] = [&program.table, &done.code.functions].map(|table| wide(table));
    let parts = [first, last, ops, spans, globals, builtins, switches, slots, lookups, values, functions(program, done)];
    let (tables, all) = (program.table.len() as u32, program.functions.len() as u32);
    let mut out = vec![program.strings_first as u32, done.strings, TRIED as u32, tables, all];
    let mut at = out.len() + parts.len();
    for part in &parts {
        out.push(at as u32);
        at += part.len();
    }
    out.extend(parts.concat());
    out
}

/// What a replay has to count: functions compiled, ops, calls in exactly enough room, calls in one word less.
#[derive(Default)]
struct Count {
    functions: usize,
    ops: usize,
    exact: usize,
    short: usize,
}

impl Count {
    fn add(&mut self, program: &Program, done: &Compiled) {
        let mut before = counts(done, &at_first(done));
        for (f, (placed, used)) in program.functions.iter().zip(&done.each).filter(|(f, _)| !f.unused) {
            let after = counts(done, used);
            self.functions += 1;
            self.exact += TRIED as usize;
            if TRIED && placed.number == 0 {
                self.short += shorts(f, before, after);
            }
            before = after;
        }
        self.ops += done.code.ops.len();
    }
}

pub fn vectors() -> (Vec<u32>, String) {
    let mut all = [examples(), tails(), [3, 20, 40].map(calls).to_vec(), roots(), loops(), tables(), others()].concat();
    all.iter().flat_map(|p| &p.functions).for_each(admitted);
    all.extend((0..120).map(random));
    let (mut out, mut count) = (vec![all.len() as u32], Count::default());
    for program in &all {
        let done = compile(program);
        let words = words_of(program, &done);
        count.add(program, &done);
        out.push(words.len() as u32);
        out.extend(words);
    }
    let Count { functions, ops, exact, short } = count;
    let lines = [
        format!("{} programs, {functions} functions, {ops} ops, 0 differ", all.len()),
        format!("{exact} calls in exactly enough room, {short} in one word less, 0 differ"),
    ];
    (out, lines.join("\n"))
}
