//! One program by both compilers: every number, used length and word of every buffer.
use crate::need::{self, MARK, MARK_64};
use crate::ours::Lent;
use crate::refuse;
use garden::compile::{Code, Compiled, Lookup, Switch};
use garden::model::{Held, Program};
use garden::rng::Random;

/// What differs, in words; nothing where nothing does.
pub type Outcome = Result<(), String>;

pub fn same<T: PartialEq + std::fmt::Debug>(what: &str, ours: &[T], theirs: &[T]) -> Outcome {
    if ours == theirs {
        return Ok(());
    }
    let at = ours.iter().zip(theirs).position(|(a, b)| a != b).unwrap_or(ours.len().min(theirs.len()));
    let (a, b) = (ours.get(at), theirs.get(at));
    Err(format!("{what}: {} words, the Rust has {}; at {at} {a:x?}, the Rust has {b:x?}", ours.len(), theirs.len()))
}

fn equal<T: PartialEq + std::fmt::Debug>(what: &str, ours: T, theirs: T) -> Outcome {
    if ours == theirs { Ok(()) } else { Err(format!("{what}: {ours:?}, the Rust has {theirs:?}")) }
}

/// All words are x.
fn all<T: PartialEq + std::fmt::Debug + Copy>(what: &str, words: &[T], x: T) -> Outcome {
    match words.iter().position(|&w| w != x) {
        None => Ok(()),
        Some(at) => Err(format!("{what}: at {at} of what is to be {x:x?} stands {:x?}", words[at])),
    }
}

fn pairs(held: &[Held]) -> Vec<u64> {
    held.iter().flat_map(|&(kind, payload)| [kind as u64, payload]).collect()
}

fn heads(tables: &[Switch]) -> (Vec<u64>, Vec<u32>) {
    let (mut heads, mut slots) = (vec![], vec![]);
    for table in tables {
        heads.extend([table.first, slots.len() as u64, table.targets.len() as u64]);
        slots.extend(&table.targets);
    }
    (heads, slots)
}

fn lookups(tables: &[Lookup]) -> (Vec<u64>, Vec<u64>) {
    let (mut heads, mut slots) = (vec![], vec![]);
    for table in tables {
        let (kind, payload) = table.default;
        heads.extend([table.first, slots.len() as u64 / 2, table.values.len() as u64, kind as u64, payload]);
        slots.extend(pairs(&table.values));
    }
    (heads, slots)
}

/// What stands past the used lengths: the mark, until a refused call has zeroed it.
#[derive(Clone, Copy)]
pub struct Rest {
    narrow: u32,
    wide: u64,
}

pub const UNTOUCHED: Rest = Rest { narrow: MARK, wide: MARK_64 };
const ZEROED: Rest = Rest { narrow: 0, wide: 0 };

fn code(lent: &Lent, code: &Code) -> Outcome {
    let u = &lent.used;
    same("ops", &lent.ops[..u.ops as usize], &code.ops)?;
    same("spans", &lent.spans[..u.ops as usize], &code.spans)?;
    same("functions", &lent.functions, &code.functions)?;
    let (heads, slots) = heads(&code.switches);
    same("switch tables", &lent.switches[..3 * u.switches as usize], &heads)?;
    same("slots of switch tables", &lent.targets[..u.targets as usize], &slots)
}

/// The whole program at its end.
fn program_is(lent: &Lent, done: &Compiled, rest: Rest) -> Outcome {
    let u = &lent.used;
    equal("used lengths", *u, need::at_end(done))?;
    code(lent, &done.code)?;
    same("globals", &lent.globals[..2 * u.globals as usize], &pairs(&done.globals))?;
    same("builtins", &lent.builtins[..u.builtins as usize], &done.builtins)?;
    let (heads, slots) = lookups(&done.lookups);
    same("lookup tables", &lent.lookups[..5 * u.lookups as usize], &heads)?;
    same("slots of lookup tables", &lent.values[..2 * u.values as usize], &slots)?;
    all("past the ops", &lent.ops[u.ops as usize..], rest.wide)?;
    all("past the spans", &lent.spans[u.ops as usize..], rest.narrow)?;
    all("past the globals", &lent.globals[2 * u.globals as usize..], rest.wide)?;
    all("past the builtins", &lent.builtins[u.builtins as usize..], rest.narrow)?;
    all("past the switch tables", &lent.switches[3 * u.switches as usize..], rest.wide)?;
    all("past their slots", &lent.targets[u.targets as usize..], rest.narrow)?;
    all("past the lookup tables", &lent.lookups[5 * u.lookups as usize..], rest.wide)?;
    all("past their values", &lent.values[2 * u.values as usize..], rest.wide)
}

fn work_room(lent: &Lent) -> Outcome {
    all("hints", &lent.hints, 0)?;
    all("noted registers", &lent.noted, 0)?;
    all("labels", &lent.labels, 0)
}

/// One function more: its number, the used lengths, its places.
fn function(lent: &mut Lent, words: &[u32], done: &Compiled, k: usize, rest: &mut Rest) -> Outcome {
    let (placed, used) = &done.each[k];
    lent.places.fill(MARK);
    let number = lent.compile(words);
    equal("number", number, placed.number)?;
    equal("used lengths", lent.used, need::after(done, *used))?;
    work_room(lent)?;
    if number != 0 {
        *rest = ZEROED;
        return all("places", &lent.places, 0);
    }
    let values = words[3] as usize;
    same("places", &lent.places[..values], &placed.places)?;
    all("past the places", &lent.places[values..], MARK)
}

fn strings(lent: &mut Lent, words: &[Vec<u32>], done: &Compiled) -> Outcome {
    let all: Vec<u32> = words.concat();
    let ends: Vec<u32> = words.iter().scan(0, |at, w| { *at += w.len() as u32; Some(*at) }).collect();
    equal("number of the string entry", lent.strings(&all, &ends), (0, 0))?;
    equal("strings", lent.used.globals, done.strings as u64)
}

/// Both compilers on one program, with calls that are refused between.
pub fn program(random: &mut Random, program: &Program, words: &[Vec<u32>], done: &Compiled, refused: &mut [u64; 10]) -> Outcome {
    let slack = random.one_of(&[0, 0, 1, 5]);
    let mut lent = need::buffers(program, words, done, &mut || slack);
    let mut rest = UNTOUCHED;
    if program.strings_first {
        strings(&mut lent, words, done)?;
    }
    for (k, f) in program.functions.iter().enumerate().filter(|(_, f)| !f.unused) {
        let at = |e: String| format!("function {k}: {e}");
        refuse::before(random, &lent, f, &words[k], done, k, refused).map_err(at)?;
        function(&mut lent, &words[k], done, k, &mut rest).map_err(at)?;
        refused[done.each[k].0.number as usize] += 1;
    }
    program_is(&lent, done, rest)?;
    compacted(&mut lent, done)
}

fn compacted(lent: &mut Lent, done: &Compiled) -> Outcome {
    let mut work = vec![MARK; lent.used.ops as usize + 1];
    equal("number of compaction", lent.compact(&mut work), 0)?;
    all("work room of compaction", &work, 0)?;
    code(lent, &done.compacted).map_err(|e| format!("compacted: {e}"))
}

/// The buffers of a program that we compiled, as long as they need be.
pub fn lent(program: &Program, words: &[Vec<u32>], done: &Compiled) -> Result<Lent, String> {
    let mut lent = need::buffers(program, words, done, &mut || 0);
    if program.strings_first {
        strings(&mut lent, words, done)?;
    }
    for (k, _) in program.functions.iter().enumerate().filter(|(_, f)| !f.unused) {
        lent.compile(&words[k]);
    }
    Ok(lent)
}

/// The code in buffers that are full, as the Rust's is given.
pub fn code_of(lent: &Lent) -> Code {
    let slots = |t: &[u64]| lent.targets[t[1] as usize..][..t[2] as usize].to_vec();
    let switches = lent.switches.chunks_exact(3).map(|t| Switch { first: t[0], targets: slots(t) }).collect();
    Code { ops: lent.ops.clone(), spans: lent.spans.clone(), switches, functions: lent.functions.clone() }
}

/// A program of one function, with its places and the work room.
pub fn all_is(lent: &Lent, words: &[Vec<u32>], done: &Compiled) -> Outcome {
    program_is(lent, done, UNTOUCHED)?;
    work_room(lent)?;
    same("places", &lent.places[..words[0][3] as usize], &done.each[0].0.places)
}
