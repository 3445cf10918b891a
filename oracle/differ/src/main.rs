//! Both compilers in one process. `differ run COUNT [FROM]`: so many random programs, from that number on, by the Rust and by ours; the last
//! line is 'N passed, 0 failed'. `differ one K`: program K alone. `differ execute COUNT`: the small machine over both outputs.
//! `differ mutants COUNT`: faults put into our output, each of which has to be caught. `differ place`, `differ bench`, `differ growth`: times.
mod bench;
mod compare;
mod execute;
#[path = "../../vectors/src/hand.rs"]
#[allow(dead_code)]
mod hand;
mod mutants;
mod need;
mod ours;
mod refuse;

use garden::compile::compile;
use garden::model::Program;
use garden::random::{Style, program};
use garden::rng::Random;
use std::collections::BTreeMap;

const SEED: u64 = 0x4f08286203;

#[global_allocator]
static ALLOCATOR: bench::Counting = bench::Counting;

/// What was reached: how often each thing was there, by name.
#[derive(Default)]
struct Reached {
    counts: BTreeMap<String, u64>,
    passed: u64,
    failed: u64,
}

impl Reached {
    fn add(&mut self, name: String, n: u64) {
        *self.counts.entry(name).or_default() += n;
    }

    fn take(&mut self, other: Reached) {
        self.passed += other.passed;
        self.failed += other.failed;
        other.counts.into_iter().for_each(|(name, n)| self.add(name, n));
    }
}

/// The words of each function; a third of the programs say a list or an edge that is there already only once.
fn words(random: &mut Random, program: &Program) -> Vec<Vec<u32>> {
    let shared = random.chance(33);
    program.functions.iter().map(|f| if shared { f.to_shared_words() } else { f.to_words() }).collect()
}

fn one(k: u64, reached: &mut Reached) -> compare::Outcome {
    let random = &mut Random::numbered(SEED, k);
    let program = program(random, 4, &mut Style::any);
    let done = compile(&program);
    let words = words(random, &program);
    let mut refused = [0; 10];
    let outcome = compare::program(random, &program, &words, &done, &mut refused);
    refused.iter().enumerate().for_each(|(n, &count)| reached.add(format!("number {n}"), count));
    done.code.ops.iter().for_each(|op| reached.add(format!("op {:2}", op & 255), 1));
    reached.add("functions".into(), program.functions.len() as u64);
    reached.add("ops".into(), done.code.ops.len() as u64);
    reached.add("switch tables".into(), done.code.switches.len() as u64);
    reached.add("lookup tables".into(), done.lookups.len() as u64);
    reached.add("programs with strings first".into(), program.strings_first as u64);
    outcome
}

/// Programs whose values are there wherever they are wanted, so that any walk through them can be followed.
fn execute_one(k: u64, reached: &mut Reached) -> compare::Outcome {
    let random = &mut Random::numbered(SEED ^ 1, k);
    let program = program(random, 3, &mut |random| Style { wild: false, loops: true, ..Style::any(random) });
    let done = compile(&program);
    let words: Vec<Vec<u32>> = program.functions.iter().map(|f| f.to_words()).collect();
    let ours = compare::code_of(&compare::lent(&program, &words, &done)?);
    for (k, f) in program.functions.iter().enumerate().filter(|(_, f)| !f.unused) {
        let placed = &done.each[k].0;
        // a function that comes twice stands in the table where it came last
        if placed.number != 0 || program.functions[k + 1..].iter().any(|later| later.id == f.id && !later.unused) {
            continue;
        }
        for (side, code) in [("the Rust", &done.code), ("ours", &ours), ("the Rust, compacted", &done.compacted)] {
            let events = execute::function(f, placed, code, random).map_err(|e| format!("function {k}, {side}: {e}"))?;
            reached.add(format!("events, {side}"), events);
        }
        reached.add("functions".into(), 1);
    }
    Ok(())
}

type One = fn(u64, &mut Reached) -> compare::Outcome;

fn some(one: One, from: u64, count: u64, step: u64) -> Reached {
    let mut reached = Reached::default();
    let mut k = from;
    while k < count {
        match one(k, &mut reached) {
            Ok(()) => reached.passed += 1,
            Err(what) => {
                reached.failed += 1;
                println!("program {k}: {what}");
            }
        }
        k += step;
    }
    reached
}

fn run(one: One, from: u64, count: u64) -> Reached {
    let threads = std::thread::available_parallelism().map_or(1, |n| n.get() as u64);
    let parts: Vec<_> = (0..threads).map(|t| std::thread::spawn(move || some(one, from + t, from + count, threads))).collect();
    let mut all = Reached::default();
    parts.into_iter().for_each(|part| all.take(part.join().expect("a thread that ends")));
    all
}

fn main() {
    let args: Vec<String> = std::env::args().collect();
    let number = |n: &str| n.parse::<u64>().expect("a number");
    let all = match args.iter().map(String::as_str).collect::<Vec<_>>()[..] {
        [_, "run", count] => run(one, 0, number(count)),
        [_, "run", count, from] => run(one, number(from), number(count)),
        [_, "one", k] => some(one, number(k), number(k) + 1, 1),
        [_, "execute", count] => run(execute_one, 0, number(count)),
        [_, "execute", count, from] => run(execute_one, number(from), number(count)),
        [_, "mutants", count] => return mutants::run(number(count)),
        [_, "place"] => return bench::placements(),
        [_, "bench"] => return bench::sets_timed(),
        [_, "growth"] => return bench::growth(),
        _ => panic!("usage: differ run COUNT [FROM] | one K | execute COUNT [FROM] | mutants COUNT | place | bench | growth"),
    };
    all.counts.iter().for_each(|(name, n)| println!("{name}: {n}"));
    println!("{} passed, {} failed", all.passed, all.failed);
    std::process::exit((all.failed > 0) as i32);
}
