//! A program's file, and what the commit's own Rust makes of it in the plain form that `agnc plain` prints.
//!
//! File: the number of words of the function table, these, low half first, then the functions one behind the other, each in the words of
//! docs/INPUT.md. Word 13 of a function, where its pool starts, and word 8, how many numbers that has, make its length.
use garden::check::judge;
use garden::compile::{Compiled, compile, places};
use garden::model::{Constant, Does, Ends, Function, Held, Instr, Program, Term};
use garden::random::{Style, program};
use garden::rng::Random;

/// The ids that `agnc` has room for.
const IDS: usize = 4096;

const SEED: u64 = 0x4f08286203;

/// The opcode of Call, and how many ops a sample may have.
const CALL: u64 = 15;
const MOST_OPS: usize = 400;

const NAMES: [&str; 10] =
    ["Fit", "BadWord", "TooMany", "BadShape", "DoubleDef", "BadInterval", "UnknownFunc", "BadKey", "NoSlot", "NoRoom"];

/// The words of a program's file.
fn file(program: &Program) -> Vec<u32> {
    let table = program.table.iter().flat_map(|&w| [w as u32, (w >> 32) as u32]);
    let functions = program.functions.iter().flat_map(Function::to_words);
    [program.table.len() as u32].into_iter().chain(table).chain(functions).collect()
}

/// The function table, and the words of each function.
fn parts(words: &[u32]) -> Result<(Vec<u64>, Vec<&[u32]>), String> {
    let ids = *words.first().ok_or("the file is empty")? as usize;
    let table = words.get(1..1 + 2 * ids).ok_or("the file ends inside the function table")?;
    let mut rest = &words[1 + 2 * ids..];
    let mut functions = vec![];
    while !rest.is_empty() {
        let k = functions.len();
        let head = rest.get(..14).ok_or(format!("the file ends inside the head of function {k}"))?;
        let (function, behind) =
            rest.split_at_checked(head[13] as usize + head[8] as usize).ok_or(format!("the file ends inside function {k}"))?;
        functions.push(function);
        rest = behind;
    }
    Ok((table.chunks(2).map(|w| w[0] as u64 | (w[1] as u64) << 32).collect(), functions))
}

/// A refusal: its number, and the function's index and id.
type Refusal = (u32, usize, u32);

/// The first function that is refused, if one is: 1, 2 and 3 are judged of all before the first is compiled, the others one by one. 9 depends
/// on the room and is not among them.
fn first_refusal(table: &[u64], functions: &[Function]) -> Option<Refusal> {
    let mut known = table.to_vec();
    let mut refusals: Vec<Refusal> = vec![];
    for (k, f) in functions.iter().enumerate().filter(|(_, f)| !f.unused) {
        let number = match judge(f, &|id| known.get(id as usize).is_some_and(|&word| word != 0)) {
            0 => {
                known[f.id as usize] |= 1;
                places(f, &known).number
            }
            number => number,
        };
        refusals.extend((number != 0).then_some((number, k, f.id)));
    }
    refusals.iter().find(|(number, ..)| *number <= 3).or(refusals.first()).copied()
}

/// Does the function load a string, or have one in a table?
fn has_string(f: &Function) -> bool {
    let is = |c: &Constant| matches!(c, Constant::Str(_));
    let instr = |i: &Instr| match &i.does {
        Does::LoadConst(c) => is(c),
        Does::Lookup { entries, default } => is(default) || entries.iter().any(|(key, value)| is(key) || is(value)),
        _ => false,
    };
    let term = |t: &Term| matches!(&t.ends, Ends::Switch { keys } if keys.iter().any(is));
    f.blocks.iter().any(|b| b.instrs.iter().any(instr) || b.term.as_ref().is_some_and(term))
}

fn pairs(out: &mut Vec<String>, name: &str, all: impl Iterator<Item = Held>) {
    out.extend(all.enumerate().map(|(i, (kind, payload))| format!("{name} {i} {kind} {payload:016x}")));
}

fn lines(done: &Compiled) -> Vec<String> {
    let mut out: Vec<String> =
        done.code.ops.iter().zip(&done.code.spans).enumerate().map(|(pc, (op, span))| format!("op {pc} {op:016x} {span}")).collect();
    pairs(&mut out, "global", done.globals.iter().copied());
    out.extend(done.builtins.iter().enumerate().map(|(i, number)| format!("builtin {i} {number}")));
    let entries = done.code.functions.iter().enumerate().filter(|(_, word)| **word != 0);
    out.extend(entries.map(|(id, word)| format!("entry {id} {word:016x}")));
    tables(&mut out, done);
    for (f, (placed, _)) in done.each.iter().enumerate() {
        out.extend(placed.places.iter().enumerate().map(|(v, word)| format!("place {f} {v} {word}")));
    }
    out
}

fn tables(out: &mut Vec<String>, done: &Compiled) {
    let mut start = 0;
    for (i, table) in done.code.switches.iter().enumerate() {
        out.push(format!("switch {i} {:016x} {start} {}", table.first, table.targets.len()));
        start += table.targets.len();
    }
    let targets = done.code.switches.iter().flat_map(|t| &t.targets);
    out.extend(targets.enumerate().map(|(i, pc)| format!("target {i} {pc}")));
    let mut start = 0;
    for (i, table) in done.lookups.iter().enumerate() {
        let (kind, payload) = table.default;
        out.push(format!("lookup {i} {:016x} {start} {} {kind} {payload:016x}", table.first, table.values.len()));
        start += table.values.len();
    }
    pairs(out, "value", done.lookups.iter().flat_map(|t| t.values.iter().copied()));
}

/// The program of a file; its table is as long as `agnc` has room for.
fn read(path: &str) -> Result<Program, String> {
    let bytes = std::fs::read(path).map_err(|e| format!("{path}: {e}"))?;
    if bytes.len() % 4 != 0 {
        return Err("the file's length is not a whole number of words".into());
    }
    let words: Vec<u32> = bytes.chunks(4).map(|b| u32::from_le_bytes(b.try_into().unwrap())).collect();
    let (mut table, functions) = parts(&words)?;
    table.resize(IDS, 0);
    let parsed = functions.iter().enumerate().map(|(k, words)| {
        let f = Function::from_words(words).map_err(|what| format!("function {k}: {what}"))?;
        if f.id as usize >= IDS { Err(format!("function {k}: id {}", f.id)) } else { Ok(f) }
    });
    Ok(Program { functions: parsed.collect::<Result<_, String>>()?, table, strings_first: true })
}

/// The plain form of the program in a file. The strings of all functions are interned before the first is compiled, so a program that is refused
/// is compiled up to that function only where what is left has none.
pub fn plain(path: &str) -> Result<String, String> {
    let mut program = read(path)?;
    let refusal = first_refusal(&program.table, &program.functions);
    if let Some((number, k, _)) = refusal {
        let left = program.functions.split_off(if number <= 3 { 0 } else { k });
        if number > 3 && left.iter().any(has_string) {
            return Err(format!("function {k} is refused with {number}, and it or one behind it has strings"));
        }
    }
    let mut out = lines(&compile(&program));
    out.extend(refusal.map(|(number, k, id)| format!("refused {number} {} {k} {id}", NAMES[number as usize])));
    Ok(out.iter().map(|line| format!("{line}\n")).collect())
}

/// A program that has something of every kind, and not much of it.
fn is_sample(program: &Program) -> bool {
    let functions = &program.functions;
    if functions.len() < 3 || functions.iter().any(|f| f.unused) || first_refusal(&program.table, functions).is_some() {
        return false;
    }
    let done = compile(program);
    let calls = done.code.ops.iter().filter(|&op| op & 255 == CALL).count();
    let slots = done.each.iter().map(|(placed, _)| placed.slots).max();
    let lists = done.strings > 0 && !done.builtins.is_empty() && !done.code.switches.is_empty() && !done.lookups.is_empty();
    lists && calls > 1 && slots > Some(0) && done.code.ops.len() < MOST_OPS
}

/// The k-th random program whose strings come first.
fn random(k: u64) -> Program {
    let style = &mut |random: &mut Random| Style { kept: random.one_of(&[0, 0, 34]), calls: 30, switches: 30, ..Style::small() };
    Program { strings_first: true, ..program(&mut Random::numbered(SEED, k), 5, style) }
}

/// The words of its file.
pub fn words(k: u64) -> Vec<u32> {
    file(&random(k))
}

/// The first of them that has something of every kind.
pub fn sample() -> Vec<u32> {
    file(&(0..).map(random).find(is_sample).expect("one of them"))
}
