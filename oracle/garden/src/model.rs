//! A function as plain data, and its words by docs/INPUT.md.

/// A constant: equal when kind and payload are. A string is its number.
#[derive(Clone, Copy, Debug, PartialEq, Eq)]
pub enum Constant {
    Undefined,
    False,
    True,
    Int(i64),
    Double(u64),
    Str(u64),
}

/// A constant as it is held: kind and payload.
pub type Held = (u32, u64);

impl Constant {
    pub fn held(self) -> Held {
        match self {
            Self::Undefined => (0, 0),
            Self::False => (1, 0),
            Self::True => (2, 0),
            Self::Int(i) => (3, i as u64),
            Self::Double(bits) => (4, bits),
            Self::Str(number) => (5, number),
        }
    }
}

/// A value's live interval and first hint.
#[derive(Clone, Copy, Debug, Default, PartialEq, Eq)]
pub struct Value {
    pub start: u32,
    pub end: u32,
    pub hint: Option<u8>,
}

impl Value {
    pub fn is_read(&self) -> bool {
        self.start < self.end
    }
}

/// Types of a Cast.
pub const INT: u32 = 0;
pub const DOUBLE: u32 = 1;
pub const BOOL: u32 = 2;

#[derive(Clone, Debug, PartialEq)]
pub enum Does {
    Bin { op: u32 },
    BinImm { op: u32, imm: i32 },
    LoadConst(Constant),
    Call { function: u32 },
    Sys { builtin: u32 },
    Cast { to: u32, from: u32 },
    Alloc { kind: u8, size: u32, align: u8 },
    Store { offset: u32 },
    Assert,
    Load { offset: u32 },
    AddrOf { offset: u32 },
    Lookup { entries: Vec<(Constant, Constant)>, default: Constant },
    Noop,
}

/// An instruction: its operands stand in the order of docs/INPUT.md, whatever it does.
#[derive(Clone, Debug, PartialEq)]
pub struct Instr {
    pub span: u32,
    pub dst: Option<u32>,
    pub operands: Vec<u32>,
    pub does: Does,
}

#[derive(Clone, Debug, PartialEq)]
pub struct Edge {
    pub to: u32,
    pub args: Vec<u32>,
}

#[derive(Clone, Debug, PartialEq)]
pub enum Ends {
    Return,
    Jump,
    Branch,
    BranchCmpImm { op: u32, imm: i32 },
    BranchCmp { op: u32 },
    Tail { function: u32 },
    Switch { keys: Vec<Constant> },
}

/// A terminator: its edges stand in bc's order, no before yes, the cases before the default.
#[derive(Clone, Debug, PartialEq)]
pub struct Term {
    pub span: u32,
    pub operands: Vec<u32>,
    pub edges: Vec<Edge>,
    pub ends: Ends,
}

#[derive(Clone, Debug, PartialEq)]
pub struct Block {
    pub id: u32,
    pub tombstone: bool,
    pub params: Vec<u32>,
    pub instrs: Vec<Instr>,
    pub term: Option<Term>,
}

#[derive(Clone, Debug, Default, PartialEq)]
pub struct Function {
    pub id: u32,
    pub span: u32,
    pub unused: bool,
    pub values: Vec<Value>,
    pub blocks: Vec<Block>,
}

impl Function {
    pub fn live_blocks(&self) -> impl Iterator<Item = (usize, &Block)> {
        self.blocks.iter().enumerate().filter(|(_, b)| !b.tombstone)
    }

    /// The words of docs/INPUT.md.
    pub fn to_words(&self) -> Vec<u32> {
        self.words_by(Tables::default())
    }

    /// The same function, but that equal lists, and equal runs of edges and constants, stand in their tables once.
    pub fn to_shared_words(&self) -> Vec<u32> {
        self.words_by(Tables { shared: true, ..Tables::default() })
    }

    fn words_by(&self, mut tables: Tables) -> Vec<u32> {
        for value in &self.values {
            tables.values.extend([value.start, value.end, value.hint.map_or(0, |r| r as u32 + 1)]);
        }
        self.blocks.iter().for_each(|b| tables.block(b));
        let counts =
            [(&tables.values, 3), (&tables.blocks, 14), (&tables.instrs, 8), (&tables.edges, 3), (&tables.constants, 3), (&tables.pool, 1)];
        let mut words = vec![self.id, self.span, self.unused as u32];
        words.extend(counts.iter().map(|(table, width)| (table.len() / width) as u32));
        let mut at = 14;
        for (table, _) in &counts[..5] {
            at += table.len() as u32;
            words.push(at);
        }
        counts.iter().for_each(|(table, _)| words.extend(*table));
        words
    }
}

/// The six tables while they are filled. A list's place is where its table ended, so that an empty list has a place too.
#[derive(Default)]
struct Tables {
    values: Vec<u32>,
    blocks: Vec<u32>,
    instrs: Vec<u32>,
    edges: Vec<u32>,
    constants: Vec<u32>,
    pool: Vec<u32>,
    /// What stands in a table already is not put there again.
    shared: bool,
}

/// The record of a table at which the words stand, records of `width` words; they are put at its end where they don't stand yet, or are not
/// to be shared.
fn put(table: &mut Vec<u32>, words: &[u32], width: usize, shared: bool) -> u32 {
    let there = |k: &usize| table[k * width..].starts_with(words);
    if let Some(k) = (0..table.len() / width).filter(|_| shared).find(there) {
        return k as u32;
    }
    table.extend(words);
    ((table.len() - words.len()) / width) as u32
}

impl Tables {
    fn list(&mut self, values: &[u32]) -> [u32; 2] {
        [put(&mut self.pool, values, 1, self.shared), values.len() as u32]
    }

    fn constants(&mut self, all: impl IntoIterator<Item = Constant>) -> u32 {
        let held = all.into_iter().map(Constant::held);
        let words: Vec<u32> = held.flat_map(|(kind, payload)| [kind, payload as u32, (payload >> 32) as u32]).collect();
        put(&mut self.constants, &words, 3, self.shared)
    }

    fn block(&mut self, block: &Block) {
        let mut record = vec![block.id, block.tombstone as u32];
        record.extend(self.list(&block.params));
        record.extend([self.instrs.len() as u32 / 8, block.instrs.len() as u32]);
        block.instrs.iter().for_each(|i| self.instr(i));
        match &block.term {
            Some(term) => self.term(term, &mut record),
            None => record.extend([0; 8]),
        }
        self.blocks.extend(record);
    }

    fn term(&mut self, term: &Term, record: &mut Vec<u32>) {
        let (kind, x, y) = match &term.ends {
            Ends::Return => (1, 0, 0),
            Ends::Jump => (2, 0, 0),
            Ends::Branch => (3, 0, 0),
            Ends::BranchCmpImm { op, imm } => (4, *op, *imm as u32),
            Ends::BranchCmp { op } => (5, *op, 0),
            Ends::Tail { function } => (6, *function, 0),
            Ends::Switch { keys } => (7, self.constants(keys.iter().copied()), keys.len() as u32),
        };
        record.extend([kind, term.span]);
        record.extend(self.list(&term.operands));
        // the lists of arguments stand behind the operands, edge by edge
        let mut edges = vec![];
        for edge in &term.edges {
            let [at, count] = self.list(&edge.args);
            edges.extend([edge.to, at, count]);
        }
        record.extend([put(&mut self.edges, &edges, 3, self.shared), term.edges.len() as u32, x, y]);
    }

    fn instr(&mut self, instr: &Instr) {
        let (kind, x, y, z) = match &instr.does {
            Does::Bin { op } => (0, *op, 0, 0),
            Does::BinImm { op, imm } => (1, *op, *imm as u32, 0),
            Does::LoadConst(constant) => (2, self.constants([*constant]), 0, 0),
            Does::Call { function } => (3, *function, 0, 0),
            Does::Sys { builtin } => (4, *builtin, 0, 0),
            Does::Cast { to, from } => (5, *to, *from, 0),
            Does::Alloc { kind, size, align } => (6, *kind as u32, *size, *align as u32),
            Does::Store { offset } => (7, 0, *offset, 0),
            Does::Assert => (8, 0, 0, 0),
            Does::Load { offset } => (9, 0, *offset, 0),
            Does::AddrOf { offset } => (10, 0, *offset, 0),
            Does::Lookup { entries, default } => {
                let pairs = entries.iter().flat_map(|&(key, value)| [key, value]);
                (11, self.constants(pairs.chain([*default])), entries.len() as u32, 0)
            }
            Does::Noop => (12, 0, 0, 0),
        };
        let [at, count] = self.list(&instr.operands);
        self.instrs.extend([kind, instr.span, instr.dst.map_or(0, |v| v + 1), at, count, x, y, z]);
    }
}

/// Functions to be compiled one by one into one program.
#[derive(Clone, Debug, Default)]
pub struct Program {
    pub functions: Vec<Function>,
    /// The function table at the start, a word for each id.
    pub table: Vec<u64>,
    /// The strings of all used functions are interned before the first is compiled. Otherwise each function's are when it is compiled.
    pub strings_first: bool,
}
