//! Random programs, compiled by the Rust for the sake of it: that it ends on all of them, and what was in them.
use garden::compile::{Compiled, Placed, compile};
use garden::model::{Edge, Ends, Function, Program};
use garden::random::{Style, program};
use garden::rng::Random;
use std::collections::BTreeMap;

const SEED: u64 = 0x4f08286203;

/// How often each thing was there, by name.
#[derive(Default)]
struct Counts(BTreeMap<String, u64>);

impl Counts {
    fn add(&mut self, name: impl Into<String>, n: usize) {
        *self.0.entry(name.into()).or_default() += n as u64;
    }
}

/// Does the edge move anything?
fn moves(f: &Function, placed: &Placed, edge: &Edge) -> bool {
    let mut pairs = edge.args.iter().zip(&f.blocks[edge.to as usize].params);
    pairs.any(|(&a, &p)| f.values[p as usize].is_read() && placed.places[a as usize] != placed.places[p as usize])
}

fn count_function(counts: &mut Counts, f: &Function, placed: &Placed) {
    if f.unused || placed.number != 0 {
        return counts.add(if f.unused { "functions: unused" } else { "functions: refused with 8" }, 1);
    }
    let saved = f.id != 0 && placed.top > 19;
    let frame = match (saved, placed.slots > 0) {
        (true, true) => "frame: saved registers and slots",
        (true, false) => "frame: saved registers",
        (false, true) => "frame: slots",
        (false, false) => "frame: none",
    };
    counts.add(frame, 1);
    counts.add("functions: compiled", 1);
    for (_, block) in f.live_blocks() {
        block.instrs.iter().for_each(|i| counts.add(format!("instruction: {}", name(&i.does)), 1));
        let Some(term) = &block.term else {
            counts.add("terminator: none", 1);
            continue;
        };
        counts.add(format!("terminator: {}", name(&term.ends)), 1);
        let moving = term.edges.iter().filter(|e| moves(f, placed, e)).count();
        counts.add("edges: with moves", moving);
        counts.add("edges: without", term.edges.len() - moving);
        if let Ends::Switch { keys } = &term.ends {
            counts.add("pads", term.edges[..keys.len()].iter().filter(|e| moves(f, placed, e)).count());
        }
    }
}

/// The variant's name alone.
fn name(of: &impl std::fmt::Debug) -> String {
    format!("{of:?}").chars().take_while(|c| c.is_alphanumeric()).collect()
}

fn count_program(counts: &mut Counts, program: &Program, done: &Compiled) {
    counts.add(if program.strings_first { "programs: strings first" } else { "programs: strings by function" }, 1);
    for (f, (placed, _)) in program.functions.iter().zip(&done.each) {
        count_function(counts, f, placed);
    }
    for op in &done.code.ops {
        counts.add(format!("op: {:2}", op & 255), 1);
    }
    counts.add("words of functions", program.functions.iter().map(|f| f.to_words().len()).sum());
}

pub fn print(programs: u64) {
    let mut counts = Counts::default();
    for k in 0..programs {
        let random = &mut Random::numbered(SEED, k);
        let program = program(random, 4, &mut Style::any);
        count_program(&mut counts, &program, &compile(&program));
    }
    counts.0.iter().for_each(|(name, n)| println!("{name}: {n}"));
}
