//! Times of both compilers in one process, on the same input.
use crate::hand;
use crate::need;
use crate::ours::{Lent, Used, place_calls};
use garden::REGISTER_COUNT;
use garden::compile::{Compiled, compile, time};
use garden::model::{Constant, Function, Program};
use garden::random::{self, Style};
use garden::rng::Random;
use garden::xralloc2::{Class, Location, Reg, Xralloc2};
use std::alloc::{GlobalAlloc, Layout, System};
use std::sync::atomic::{AtomicBool, AtomicUsize, Ordering::Relaxed};
use std::time::{Duration, Instant};

const SEED: u64 = 0x4f08286203;

/// Calls of the allocator that keep about so many values live at once: row, end, hint.
fn calls(random: &mut Random, count: u32, live: u32) -> Vec<[u32; 3]> {
    let hint = |random: &mut Random| if random.chance(30) { 1 + random.below(REGISTER_COUNT as u32 - 2) } else { 0 };
    (0..count).map(|row| [row, row + 1 + random.below(2 * live), hint(random)]).collect()
}

fn by_rust(calls: &[[u32; 3]], pool: &[u8], map: &mut [u32]) -> u32 {
    let mut alloc = Xralloc2::default();
    alloc.reset(calls.len(), pool, &[]);
    for (id, &[row, end, hint]) in calls.iter().enumerate() {
        let place = match hint {
            0 => alloc.alloc(id, Class::Gpr, row, end),
            h => alloc.alloc_with_hint(id, Class::Gpr, row, end, Reg::Gpr(h as u8 - 1)),
        };
        map[id] = match place {
            Location::Reg(Reg::Gpr(r)) => 1 + r as u32,
            Location::Stack(k) => 257 + k as u32,
            Location::Reg(Reg::Fpr(_)) => unreachable!("no value is floating"),
        };
    }
    alloc.slots() as u32
}

fn per(time: Duration, n: usize) -> f64 {
    time.as_nanos() as f64 / n as f64
}

/// One placement, by the Rust and by ours, over the same calls.
pub fn placements() {
    let pool: Vec<u8> = (0..REGISTER_COUNT as u8 - 2).collect();
    println!("live at once | slots made | ns a placement, ours | the Rust | ratio");
    for live in [4, 12, 24, 40, 80] {
        let calls = calls(&mut Random::new(SEED), 4000, live);
        let words: Vec<u32> = calls.concat();
        let (mut ours, mut theirs) = (vec![0; calls.len()], vec![0; calls.len()]);
        const ROUNDS: u32 = 50;
        let start = Instant::now();
        let mut made = 0;
        for _ in 0..ROUNDS {
            ours.fill(0);
            made = place_calls(&words, &pool, &mut ours) as u32;
        }
        let our_time = start.elapsed() / ROUNDS;
        let start = Instant::now();
        let mut slots = 0;
        for _ in 0..ROUNDS {
            slots = by_rust(&calls, &pool, &mut theirs);
        }
        let their_time = start.elapsed() / ROUNDS;
        assert_eq!((made, &ours), (slots, &theirs), "both give the same places");
        let (a, b) = (per(our_time, calls.len()), per(their_time, calls.len()));
        println!("{live} | {made} | {a:.1} | {b:.1} | {:.2}", a / b);
    }
}

/// A loop that turns n values around by one place each time.
fn turning(id: u32, n: u32) -> Function {
    let (start, params): (Vec<u32>, Vec<u32>) = ((0..n).collect(), (n..2 * n).collect());
    let mut turned = params.clone();
    turned.rotate_left(1);
    let cond = hand::load(2 * n, Constant::True);
    let end = hand::sum(2 * n + 1, n, n);
    let blocks = vec![
        hand::block(&[], hand::loads(0, n), hand::jump(1, &start)),
        hand::block(&params, vec![cond], hand::branch(2 * n, hand::edge(2, &[]), hand::edge(1, &turned))),
        hand::block(&[], end, hand::ret(3 * n - 1)),
    ];
    hand::function(id, blocks)
}

/// The sets that are timed, by name.
fn sets() -> Vec<(&'static str, Program)> {
    let style = |f: fn(&mut Style)| {
        let mut s = Style { tombstones: 0, ..Style::small() };
        f(&mut s);
        s
    };
    let many = |count: u32, style: Style, seed: u64| {
        let mut program = Program { table: vec![0; 64], strings_first: true, ..Program::default() };
        let mut known = vec![];
        let mut k = 0;
        while (program.functions.len() as u32) < count {
            let random = &mut Random::numbered(seed, k);
            let id = 1 + program.functions.len() as u32;
            let f = random::function(random, &style, id, &known);
            k += 1;
            if garden::compile::places(&f, &vec![1; 64]).number == 0 {
                known.push(id);
                program.functions.push(f);
            }
        }
        program
    };
    vec![
        ("small site, 40 functions", many(40, style(|s| s.blocks = 5), 1)),
        ("large functions", many(4, style(|s| (s.blocks, s.instrs, s.long) = (80, 20, 0)), 2)),
        ("heavy pressure", many(4, style(|s| (s.blocks, s.instrs, s.kept) = (10, 12, 70)), 3)),
        ("long lists of moves", Program { functions: (1..5).map(|id| turning(id, 120)).collect(), table: vec![0; 64], ..Program::default() }),
    ]
}

fn empty(lent: &mut Lent, program: &Program) {
    lent.used = Used::default();
    lent.functions.copy_from_slice(&program.table);
}

fn ours(program: &Program, words: &[Vec<u32>], done: &Compiled, rounds: u32) -> (Duration, usize) {
    let mut lent = need::buffers(program, words, done, &mut || 0);
    let all: Vec<u32> = words.concat();
    let ends: Vec<u32> = words.iter().scan(0, |at, w| { *at += w.len() as u32; Some(*at) }).collect();
    let start = Instant::now();
    for _ in 0..rounds {
        empty(&mut lent, program);
        lent.strings(&all, &ends);
        for w in words {
            assert_eq!(lent.compile(w), 0);
        }
    }
    (start.elapsed() / rounds, lent.used.ops as usize)
}

/// The system's allocator, which counts while it is asked to: bytes held, and the most so far.
pub struct Counting;

static COUNTS: AtomicBool = AtomicBool::new(false);
static HELD: AtomicUsize = AtomicUsize::new(0);
static MOST: AtomicUsize = AtomicUsize::new(0);

// SAFETY: everything is the system's.
unsafe impl GlobalAlloc for Counting {
    unsafe fn alloc(&self, layout: Layout) -> *mut u8 {
        if COUNTS.load(Relaxed) {
            let held = HELD.fetch_add(layout.size(), Relaxed) + layout.size();
            MOST.fetch_max(held, Relaxed);
        }
        unsafe { System.alloc(layout) }
    }

    unsafe fn dealloc(&self, place: *mut u8, layout: Layout) {
        if COUNTS.load(Relaxed) {
            let _ = HELD.fetch_update(Relaxed, Relaxed, |held| Some(held.saturating_sub(layout.size())));
        }
        unsafe { System.dealloc(place, layout) }
    }
}

/// How much is held at most while this runs, over what was held before, in KB.
fn peak(run: impl FnOnce()) -> usize {
    HELD.store(0, Relaxed);
    MOST.store(0, Relaxed);
    COUNTS.store(true, Relaxed);
    run();
    COUNTS.store(false, Relaxed);
    MOST.load(Relaxed) / 1024
}

/// The whole compiler on each set: nanoseconds an op emitted, and memory at most.
pub fn sets_timed() {
    println!("set | functions | words in | ops out | ns an op, ours | the Rust | ratio | KB, ours | the Rust");
    for (name, program) in sets() {
        let done = compile(&program);
        let words: Vec<Vec<u32>> = program.functions.iter().map(|f| f.to_words()).collect();
        let (our_time, ops) = ours(&program, &words, &done, 20);
        let (their_time, their_ops) = time(&program, 20);
        assert_eq!(ops, their_ops, "both emit as many ops");
        let (a, b) = (per(our_time, ops), per(their_time, ops));
        let total: usize = words.iter().map(Vec::len).sum();
        let (our_peak, their_peak) = (peak(|| _ = ours(&program, &words, &done, 1)), peak(|| _ = time(&program, 1)));
        let count = program.functions.len();
        println!("{name} | {count} | {total} | {ops} | {a:.1} | {b:.1} | {:.2} | {our_peak} | {their_peak}", a / b);
    }
}

/// How both grow: one function of so many blocks.
pub fn growth() {
    println!("blocks | ops out | ns an op, ours | the Rust");
    for blocks in [5, 10, 20, 40, 80] {
        let style = Style { blocks, instrs: 20, tombstones: 0, long: 0, ..Style::small() };
        let f = (0..).map(|k| random::function(&mut Random::numbered(7, k), &style, 1, &[])).find(|f| garden::compile::places(f, &[0, 1]).number == 0).unwrap();
        let program = Program { functions: vec![f], table: vec![0; 2], strings_first: true };
        let done = compile(&program);
        let words = vec![program.functions[0].to_words()];
        let (our_time, ops) = ours(&program, &words, &done, 20);
        let (their_time, _) = time(&program, 20);
        println!("{blocks} | {ops} | {:.1} | {:.1}", per(our_time, ops), per(their_time, ops));
    }
}
