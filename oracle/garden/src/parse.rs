//! A function from its words (docs/INPUT.md): the inverse of `Function::to_words`.
use crate::model::{Block, Constant, Does, Edge, Ends, Function, Instr, Term, Value};

type Parsed<T> = Result<T, String>;

/// Where the tables stand in a head: their counts, their starts, and how many words a record of each has.
const WIDTHS: [usize; 6] = [3, 14, 8, 3, 3, 1];
const HEAD: usize = 14;
const VALUES: usize = 0;
const BLOCKS: usize = 1;
const INSTRS: usize = 2;
const EDGES: usize = 3;
const CONSTANTS: usize = 4;
const POOL: usize = 5;

/// The words of one function, whose tables are where the head says.
struct Words<'w> {
    all: &'w [u32],
    starts: [usize; 6],
    counts: [usize; 6],
}

fn check(holds: bool, what: impl FnOnce() -> String) -> Parsed<()> {
    if holds { Ok(()) } else { Err(what()) }
}

fn flag(word: u32, what: &str) -> Parsed<bool> {
    check(word <= 1, || format!("{what} is {word}"))?;
    Ok(word == 1)
}

impl<'w> Words<'w> {
    /// Each table starts where the one before it ends, and the words end with the pool.
    fn new(all: &'w [u32]) -> Parsed<Self> {
        check(all.len() >= HEAD, || format!("{} words are no head", all.len()))?;
        let counts = std::array::from_fn(|k| all[3 + k] as usize);
        let mut starts = [HEAD; 6];
        for k in 1..6 {
            starts[k] = starts[k - 1] + WIDTHS[k - 1] * counts[k - 1];
            check(all[8 + k] as usize == starts[k], || format!("table {k} starts at word {}, not at {}", starts[k], all[8 + k]))?;
        }
        let end = starts[POOL] + counts[POOL];
        check(end == all.len(), || format!("the pool ends at word {end}, the words at {}", all.len()))?;
        Ok(Self { all, starts, counts })
    }

    /// `count` records of a table from `first` on.
    fn records(&self, table: usize, first: u32, count: u32) -> Parsed<impl Iterator<Item = &'w [u32]>> {
        let (first, count, width) = (first as usize, count as usize, WIDTHS[table]);
        check(first + count <= self.counts[table], || format!("records {first} and {count} more of table {table}"))?;
        let from = self.starts[table] + first * width;
        Ok(self.all[from..from + count * width].chunks(width))
    }

    fn list(&self, at: u32, count: u32) -> Parsed<Vec<u32>> {
        Ok(self.records(POOL, at, count)?.map(|w| w[0]).collect())
    }

    fn constants(&self, first: u32, count: u32) -> Parsed<Vec<Constant>> {
        self.records(CONSTANTS, first, count)?.map(constant).collect()
    }

    fn edges(&self, first: u32, count: u32) -> Parsed<Vec<Edge>> {
        self.records(EDGES, first, count)?.map(|w| Ok(Edge { to: w[0], args: self.list(w[1], w[2])? })).collect()
    }

    fn block(&self, w: &[u32]) -> Parsed<Block> {
        let instrs = self.records(INSTRS, w[4], w[5])?.map(|w| self.instr(w)).collect::<Parsed<_>>()?;
        let term = if w[6] == 0 { None } else { Some(self.term(&w[6..])?) };
        Ok(Block { id: w[0], tombstone: flag(w[1], "a tombstone")?, params: self.list(w[2], w[3])?, instrs, term })
    }

    /// A block's fields from its terminator's kind on.
    fn term(&self, w: &[u32]) -> Parsed<Term> {
        let (x, y) = (w[6], w[7]);
        let ends = match w[0] {
            1 => Ends::Return,
            2 => Ends::Jump,
            3 => Ends::Branch,
            4 => Ends::BranchCmpImm { op: x, imm: y as i32 },
            5 => Ends::BranchCmp { op: x },
            6 => Ends::Tail { function: x },
            7 => Ends::Switch { keys: self.constants(x, y)? },
            kind => return Err(format!("a terminator of kind {kind}")),
        };
        Ok(Term { span: w[1], operands: self.list(w[2], w[3])?, edges: self.edges(w[4], w[5])?, ends })
    }

    fn instr(&self, w: &[u32]) -> Parsed<Instr> {
        let dst = w[2].checked_sub(1);
        Ok(Instr { span: w[1], dst, operands: self.list(w[3], w[4])?, does: self.does(w[0], w[5], w[6], w[7])? })
    }

    fn does(&self, kind: u32, x: u32, y: u32, z: u32) -> Parsed<Does> {
        let byte = |word: u32| u8::try_from(word).map_err(|_| format!("{word} is no byte"));
        Ok(match kind {
            0 => Does::Bin { op: x },
            1 => Does::BinImm { op: x, imm: y as i32 },
            2 => Does::LoadConst(self.constants(x, 1)?[0]),
            3 => Does::Call { function: x },
            4 => Does::Sys { builtin: x },
            5 => Does::Cast { to: x, from: y },
            6 => Does::Alloc { kind: byte(x)?, size: y, align: byte(z)? },
            7 => Does::Store { offset: y },
            8 => Does::Assert,
            9 => Does::Load { offset: y },
            10 => Does::AddrOf { offset: y },
            11 => self.lookup(x, y)?,
            12 => Does::Noop,
            kind => return Err(format!("an instruction of kind {kind}")),
        })
    }

    /// Key, value, key, value, and then the default.
    fn lookup(&self, first: u32, entries: u32) -> Parsed<Does> {
        let count = entries.checked_mul(2).and_then(|n| n.checked_add(1)).ok_or("too many entries")?;
        let all = self.constants(first, count)?;
        let entries = all.chunks_exact(2).map(|pair| (pair[0], pair[1])).collect();
        Ok(Does::Lookup { entries, default: all[all.len() - 1] })
    }
}

fn constant(w: &[u32]) -> Parsed<Constant> {
    let payload = w[1] as u64 | (w[2] as u64) << 32;
    check(w[0] >= 3 || payload == 0, || format!("a constant of kind {} with a payload", w[0]))?;
    Ok(match w[0] {
        0 => Constant::Undefined,
        1 => Constant::False,
        2 => Constant::True,
        3 => Constant::Int(payload as i64),
        4 => Constant::Double(payload),
        5 => Constant::Str(payload),
        kind => return Err(format!("a constant of kind {kind}")),
    })
}

fn value(w: &[u32]) -> Parsed<Value> {
    check(w[2] <= 64, || format!("a first hint of {}", w[2]))?;
    Ok(Value { start: w[0], end: w[1], hint: w[2].checked_sub(1).map(|r| r as u8) })
}

impl Function {
    /// The function whose words these are; what is wrong where there is none. Fields that a kind doesn't use are not looked at.
    pub fn from_words(words: &[u32]) -> Parsed<Self> {
        let all = Words::new(words)?;
        let values = all.records(VALUES, 0, words[3])?.map(value).collect::<Parsed<_>>()?;
        let blocks = all.records(BLOCKS, 0, words[4])?.map(|w| all.block(w)).collect::<Parsed<_>>()?;
        Ok(Self { id: words[0], span: words[1], unused: flag(words[2], "unused")?, values, blocks })
    }
}
