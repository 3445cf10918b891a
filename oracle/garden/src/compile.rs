//! Programs compiled and compacted by the commit's own text, the result as this project's words.
use crate::bc::{Cc, CcFunc};
use crate::convert;
use crate::model::{Function, Held, Program};
use crate::op::{LookupTable, Op};
use crate::shims::{STR, Value, config::Config, page::NoPages};
use crate::words::word;
use crate::{Func, Id};

/// Document 01's most slots of a function.
pub const MOST_SLOTS: u32 = 128;

#[derive(Clone, Debug, PartialEq)]
pub struct Switch {
    pub first: u64,
    pub targets: Vec<u32>,
}

#[derive(Clone, Debug, PartialEq)]
pub struct Lookup {
    pub first: u64,
    pub values: Vec<Held>,
    pub default: Held,
}

/// What compaction changes: ops, their spans, the switch tables, the function table by id.
#[derive(Clone, Debug, PartialEq)]
pub struct Code {
    pub ops: Vec<u64>,
    pub spans: Vec<u32>,
    pub switches: Vec<Switch>,
    pub functions: Vec<u64>,
}

/// Where one function's values are. The number is 0, or 8 for a function that needs more slots than there may be; then the rest is empty.
#[derive(Clone, Debug, Default, PartialEq)]
pub struct Placed {
    pub number: u32,
    pub slots: u32,
    pub top: u32,
    pub places: Vec<u32>,
}

/// How much there is of each kind.
#[derive(Clone, Copy, Debug, Default, PartialEq)]
pub struct Used {
    pub ops: u32,
    pub globals: u32,
    pub builtins: u32,
    pub switches: u32,
    pub lookups: u32,
}

#[derive(Clone, Debug, PartialEq)]
pub struct Compiled {
    pub code: Code,
    pub globals: Vec<Held>,
    pub builtins: Vec<u32>,
    pub lookups: Vec<Lookup>,
    /// Of each function its places, and how much the program has after it. An unused function has none and adds nothing.
    pub each: Vec<(Placed, Used)>,
    /// How many strings were interned before the first function.
    pub strings: u32,
    /// The code after compaction.
    pub compacted: Code,
}

fn entry<'a>(table_word: u64) -> Option<CcFunc<'a>> {
    let number = table_word >> 2;
    match table_word & 3 {
        0 => None,
        1 => Some(CcFunc::Bc { name: "", pc: number as usize }),
        kind => Some(CcFunc::Native { name: "", idx: number as u16, returns_double: kind == 3 }),
    }
}

fn table_word(entry: Option<&CcFunc>) -> u64 {
    match entry {
        None => 0,
        Some(CcFunc::Bc { pc, .. }) => 1 | (*pc as u64) << 2,
        Some(CcFunc::Native { idx, returns_double, .. }) => 2 | *returns_double as u64 | (*idx as u64) << 2,
    }
}

/// A compiler that has a function table and nothing else.
pub fn empty<'a>(table: &[u64]) -> Cc<'a> {
    let mut cc = Cc::new();
    for (id, &word) in table.iter().enumerate() {
        if let Some(entry) = entry(word) {
            cc.functions.insert(Id(id as u32), entry);
        }
    }
    cc
}

fn lower<'a>(cc: &mut Cc<'a>, functions: &'a [Func<'a>]) {
    let config = Config { no_jit: true, ..Config::default() };
    assert!(cc.compile(&config, functions, NoPages).unwrap().is_none());
}

fn held(value: Value) -> Held {
    (value.1, value.0)
}

fn globals(cc: &Cc) -> Vec<Held> {
    cc.globals.to_vec().into_iter().map(|c| held(Value::from(c))).collect()
}

fn code(cc: &Cc, ids: usize) -> Code {
    let tables = cc.switch_tables.iter();
    Code {
        ops: cc.buf.iter().map(|&op| word(op, &cc.switch_tables, &cc.lookup_tables)).collect(),
        spans: cc.pc_to_span.clone(),
        switches: tables.map(|t| Switch { first: t.first, targets: t.targets.iter().map(|&pc| pc as u32).collect() }).collect(),
        functions: (0..ids).map(|id| table_word(cc.functions.get(&Id(id as u32)))).collect(),
    }
}

fn lookup(table: &LookupTable) -> Lookup {
    Lookup { first: table.first, values: table.values.iter().map(|&v| held(v)).collect(), default: held(table.default) }
}

fn used(cc: &Cc) -> Used {
    Used {
        ops: cc.buf.len() as u32,
        globals: cc.globals.map.len() as u32,
        builtins: cc.std_fns.map.len() as u32,
        switches: cc.switch_tables.len() as u32,
        lookups: cc.lookup_tables.len() as u32,
    }
}

/// The places that the function compiled last has.
fn placed(cc: &Cc) -> Placed {
    match cc.slots_made() {
        slots if slots <= MOST_SLOTS => Placed { number: 0, slots, top: cc.top_used(), places: cc.map_words() },
        _ => Placed { number: 8, ..Placed::default() },
    }
}

/// Compiled alone and thrown away: the Rust goes on past 128 slots, so whether it does has to be known before.
fn trial(cc: &Cc, function: &Func) -> Placed {
    let mut alone = Cc::new();
    for (&id, entry) in &cc.functions {
        alone.functions.insert(id, entry.clone());
    }
    lower(&mut alone, std::slice::from_ref(function));
    placed(&alone)
}

/// One function more, unless it is unused or refused.
fn one<'a>(cc: &mut Cc<'a>, function: &'a Func<'a>) -> (Placed, Used) {
    if function.unused {
        return (Placed::default(), used(cc));
    }
    let places = trial(cc, function);
    if places.number == 0 {
        lower(cc, std::slice::from_ref(function));
        assert_eq!(places, placed(cc));
    }
    (places, used(cc))
}

/// The program as it stands, not compacted yet.
fn standing(cc: &Cc, ids: usize, strings: u32, each: &[(Placed, Used)]) -> Compiled {
    let before = code(cc, ids);
    let lookups = cc.lookup_tables.iter().map(|t| lookup(t)).collect();
    let (builtins, each) = (cc.std_fns.to_vec(), each.to_vec());
    Compiled { code: before.clone(), globals: globals(cc), builtins, lookups, each, strings, compacted: before }
}

/// All functions by one call of the commit's `compile`, which interns their strings first.
fn whole<'a>(program: &Program, functions: &'a [Func<'a>]) -> Cc<'a> {
    let mut cc = empty(&program.table);
    lower(&mut cc, functions);
    cc
}

/// The program, function by function. Where strings come first it has to be what the commit's `compile` gives for the whole list.
/// `edit` may change ops before compaction, as the commit's passes over the ops do.
pub fn compile_then(program: &Program, edit: &mut dyn FnMut(&mut [Op])) -> Compiled {
    let ids = program.table.len();
    let builtins = convert::builtins(&program.functions);
    let functions: Vec<Func> = program.functions.iter().map(|f| convert::func(f, &builtins)).collect();
    let mut cc = empty(&program.table);
    let whole = program.strings_first.then(|| whole(program, &functions));
    whole.iter().for_each(|whole| cc.take_strings(whole));
    let strings = used(&cc).globals;
    let each: Vec<_> = functions.iter().map(|f| one(&mut cc, f)).collect();
    if let Some(whole) = whole {
        assert!(each.iter().all(|(placed, _)| placed.number == 0), "a refused function's strings would stand among the others");
        assert_eq!(standing(&cc, ids, strings, &each), standing(&whole, ids, strings, &each));
    }
    edit(&mut cc.buf);
    let mut done = standing(&cc, ids, strings, &each);
    cc.compact_nops();
    done.compacted = code(&cc, ids);
    done
}

pub fn compile(program: &Program) -> Compiled {
    compile_then(program, &mut |_| {})
}

/// The strings of the used functions in the order in which the commit interns them before it compiles any. It lowers the functions too, so
/// they have to be such as it can lower: 7 and 8 are no hindrance, but a string key's number has to be small, since it makes a table of them.
pub fn strings(program: &Program) -> Vec<Held> {
    let builtins = convert::builtins(&program.functions);
    let functions: Vec<Func> = program.functions.iter().map(|f| convert::func(f, &builtins)).collect();
    globals(&whole(program, &functions)).into_iter().filter(|(kind, _)| *kind == STR).collect()
}

/// The places of one function, unused or not, where the table has all that it calls.
pub fn places(function: &Function, table: &[u64]) -> Placed {
    let builtins = convert::builtins(std::slice::from_ref(function));
    let mut func = convert::func(function, &builtins);
    func.unused = false;
    trial(&empty(table), &func)
}

/// A compiler's state before and after compaction, whoever made it.
pub fn compact(mut cc: Cc, ids: usize) -> (Code, Code) {
    let before = code(&cc, ids);
    cc.compact_nops();
    (before, code(&cc, ids))
}

/// The time that the commit's `compile` takes for the whole list, once around, and how many ops it makes. What it is fed is made before.
pub fn time(program: &Program, rounds: u32) -> (std::time::Duration, usize) {
    let builtins = convert::builtins(&program.functions);
    let functions: Vec<Func> = program.functions.iter().map(|f| convert::func(f, &builtins)).collect();
    let mut ops = 0;
    let start = std::time::Instant::now();
    for _ in 0..rounds {
        ops = whole(program, &functions).buf.len();
    }
    (start.elapsed() / rounds, ops)
}
