//! A function in our words, built record by record, and the fields by docs/INPUT.md's names.

/// N, the register count.
pub const N: u32 = 32;
pub const MAX: u32 = u32::MAX;

/// The hint of a value, behind the start and the end of its interval.
pub const HINT: usize = 2;

/// Fields of a block.
pub const ID: usize = 0;
pub const TOMBSTONE: usize = 1;
pub const PARAMS_AT: usize = 2;
pub const PARAMS: usize = 3;
pub const FIRST: usize = 4;
pub const INSTRS: usize = 5;
pub const TERM: usize = 6;
pub const TERM_SPAN: usize = 7;
pub const TERM_OPERANDS_AT: usize = 8;
pub const TERM_OPERANDS: usize = 9;
pub const EDGES_FROM: usize = 10;
pub const EDGES: usize = 11;
pub const TERM_X: usize = 12;
pub const TERM_Y: usize = 13;

/// Kinds of terminator.
pub const NONE: u32 = 0;
pub const RETURN: u32 = 1;
pub const JUMP: u32 = 2;
pub const BRANCH: u32 = 3;
pub const BRANCH_CMP_IMM: u32 = 4;
pub const BRANCH_CMP: u32 = 5;
pub const TAIL: u32 = 6;
pub const SWITCH: u32 = 7;

/// Fields of an instruction.
pub const KIND: usize = 0;
pub const SPAN: usize = 1;
pub const DST: usize = 2;
pub const OPERANDS_AT: usize = 3;
pub const OPERANDS: usize = 4;
pub const X: usize = 5;
pub const Y: usize = 6;
pub const Z: usize = 7;

/// Kinds of instruction.
pub const BIN: u32 = 0;
pub const BIN_IMM: u32 = 1;
pub const LOAD_CONST: u32 = 2;
pub const CALL: u32 = 3;
pub const SYS: u32 = 4;
pub const CAST: u32 = 5;
pub const ALLOC: u32 = 6;
pub const STORE: u32 = 7;
pub const ASSERT: u32 = 8;
pub const LOAD: u32 = 9;
pub const ADDR_OF: u32 = 10;
pub const LOOKUP: u32 = 11;
pub const NOOP: u32 = 12;

/// Fields of an edge.
pub const TARGET: usize = 0;
pub const ARGS_AT: usize = 1;
pub const ARGS: usize = 2;

/// Fields of a constant, and its kinds.
pub const CONST_KIND: usize = 0;
pub const LOW: usize = 1;
pub const HIGH: usize = 2;
pub const UNDEFINED: u32 = 0;
pub const FALSE: u32 = 1;
pub const TRUE: u32 = 2;
pub const INT: u32 = 3;
pub const DOUBLE: u32 = 4;
pub const STR: u32 = 5;

#[derive(Clone, Default)]
pub struct Function {
    /// Id, span, mark.
    pub head: [u32; 3],
    pub values: Vec<[u32; 3]>,
    pub blocks: Vec<[u32; 14]>,
    pub instrs: Vec<[u32; 8]>,
    pub edges: Vec<[u32; 3]>,
    pub constants: Vec<[u32; 3]>,
    pub pool: Vec<u32>,
}

impl Function {
    pub fn new(id: u32) -> Self {
        Self { head: [id, 0, 0], ..Self::default() }
    }

    /// The next value, by its live interval.
    pub fn value(&mut self, start: u32, end: u32) -> u32 {
        self.values.push([start, end, 0]);
        self.values.len() as u32 - 1
    }

    /// So many values of one interval.
    pub fn values(&mut self, count: u32, start: u32, end: u32) -> Vec<u32> {
        (0..count).map(|_| self.value(start, end)).collect()
    }

    pub fn constant(&mut self, kind: u32, payload: i64) -> u32 {
        self.constants.push([kind, payload as u32, (payload as u64 >> 32) as u32]);
        self.constants.len() as u32 - 1
    }

    fn list(&mut self, numbers: &[u32]) -> (u32, u32) {
        let at = self.pool.len() as u32;
        self.pool.extend(numbers);
        (at, numbers.len() as u32)
    }

    /// The next block, live, without a terminator.
    pub fn block(&mut self, params: &[u32]) -> u32 {
        let id = self.blocks.len() as u32;
        let (at, count) = self.list(params);
        let mut block = [0; 14];
        block[ID] = id;
        block[PARAMS_AT] = at;
        block[PARAMS] = count;
        block[FIRST] = self.instrs.len() as u32;
        self.blocks.push(block);
        id
    }

    /// The next instruction of the last block.
    pub fn instr(&mut self, kind: u32, dst: Option<u32>, operands: &[u32], xyz: [u32; 3]) {
        let (at, count) = self.list(operands);
        let dst = dst.map_or(0, |v| v + 1);
        self.instrs.push([kind, 0, dst, at, count, xyz[0], xyz[1], xyz[2]]);
        self.blocks.last_mut().unwrap()[INSTRS] += 1;
    }

    /// The last block's terminator; an edge is a block and its arguments.
    pub fn term(&mut self, kind: u32, operands: &[u32], edges: &[(u32, &[u32])], xy: [u32; 2]) {
        let (at, count) = self.list(operands);
        let first = self.edges.len() as u32;
        for (target, arguments) in edges {
            let (at, count) = self.list(arguments);
            self.edges.push([*target, at, count]);
        }
        let block = self.blocks.last_mut().unwrap();
        block[TERM..].copy_from_slice(&[kind, 0, at, count, first, edges.len() as u32, xy[0], xy[1]]);
    }

    pub fn returns(&mut self) {
        self.term(RETURN, &[], &[], [0, 0]);
    }

    pub fn jump(&mut self, target: u32, arguments: &[u32]) {
        self.term(JUMP, &[], &[(target, arguments)], [0, 0]);
    }

    /// The row that the next instruction or terminator of the last block has.
    pub fn row(&self) -> u32 {
        self.blocks.iter().filter(|b| b[TOMBSTONE] == 0).map(|b| b[INSTRS] + 2).sum::<u32>() - 1
    }

    /// The same with a change.
    pub fn but(&self, change: impl FnOnce(&mut Self)) -> Self {
        let mut other = self.clone();
        change(&mut other);
        other
    }

    pub fn words(&self) -> Vec<u32> {
        let counts = [self.values.len(), self.blocks.len(), self.instrs.len(), self.edges.len(), self.constants.len(), self.pool.len()];
        let (mut starts, mut at) = (vec![], 14);
        for (count, width) in counts.iter().zip([3, 14, 8, 3, 3]) {
            at += count * width;
            starts.push(at as u32);
        }
        let mut words = self.head.to_vec();
        words.extend(counts.map(|n| n as u32));
        words.extend(starts);
        words.extend(self.values.iter().flatten());
        words.extend(self.blocks.iter().flatten());
        words.extend(self.instrs.iter().flatten());
        words.extend(self.edges.iter().flatten());
        words.extend(self.constants.iter().flatten());
        words.extend(&self.pool);
        words
    }
}

/// The smallest function: one block that returns nothing. Rows: 0 parameters, 1 terminator.
pub fn smallest() -> Function {
    let mut f = Function::new(1);
    f.block(&[]);
    f.returns();
    f
}

/// Document 01's example 7, as docs/INPUT.md has it word by word.
pub fn example_7() -> Vec<u32> {
    vec![
        1, 0, 0, // id 1, span 0, used
        3, 1, 1, 0, 0, 5, // values, blocks, instructions, edges, constants, pool
        23, 37, 45, 45, 45, // where each but the values starts
        0, 1, 0, 0, 1, 0, 1, 2, 0, // v0, v1, v2
        0, 0, 0, 2, 0, 1, 1, 0, 4, 1, 0, 0, 0, 0, // block 0
        0, 0, 3, 2, 2, 0, 0, 0, // Bin into v2, IAdd
        0, 1, 0, 1, 2, // pool
    ]
}

/// A kind of instruction: its name, whether it has a destination, its operands, and x, y, z that it can have.
pub struct InstrKind(pub u32, pub &'static str, pub bool, pub u32, pub [u32; 3]);

pub const INSTR_KINDS: [InstrKind; 13] = [
    InstrKind(BIN, "Bin", true, 2, [0, 0, 0]),
    InstrKind(BIN_IMM, "BinImm", true, 1, [0, 0, 0]),
    InstrKind(LOAD_CONST, "LoadConst", true, 0, [0, 0, 0]),
    InstrKind(CALL, "Call", true, 1, [1, 0, 0]), // itself
    InstrKind(SYS, "Sys", true, 1, [0, 0, 0]),
    InstrKind(CAST, "Cast", true, 1, [1, 0, 0]), // Int to Double
    InstrKind(ALLOC, "Alloc", true, 0, [0, 8, 8]),
    InstrKind(STORE, "Store", false, 2, [0, 0, 0]),
    InstrKind(ASSERT, "Assert", true, 1, [0, 0, 0]),
    InstrKind(LOAD, "Load", true, 1, [0, 0, 0]),
    InstrKind(ADDR_OF, "AddrOf", true, 1, [0, 0, 0]),
    InstrKind(LOOKUP, "Lookup", true, 1, [0, 1, 0]), // one entry, then the default
    InstrKind(NOOP, "Noop", false, 0, [0, 0, 0]),
];

/// A function with one instruction. v0 and v1 (0,1) are the parameters, v2 (1,1) its destination; three Int constants, and one number of the
/// pool that no list has. Rows: 0 parameters, 1 instruction, 2 Return.
pub fn with_instr(kind: u32) -> Function {
    let InstrKind(_, _, has_dst, operands, xyz) = INSTR_KINDS[kind as usize];
    let mut f = Function::new(1);
    let params = f.values(2, 0, 1);
    let dst = f.value(1, 1);
    for _ in 0..3 {
        f.constant(INT, 0);
    }
    f.block(&params);
    f.instr(kind, has_dst.then_some(dst), &params[..operands as usize], xyz);
    f.returns();
    f.pool.push(0);
    f
}

/// A kind of terminator: its name, its operands, its edges, and x and y that it can have.
pub struct TermKind(pub u32, pub &'static str, pub u32, pub u32, pub [u32; 2]);

pub const TERM_KINDS: [TermKind; 7] = [
    TermKind(RETURN, "Return", 1, 0, [0, 0]),
    TermKind(JUMP, "Jump", 0, 1, [0, 0]),
    TermKind(BRANCH, "Branch", 1, 2, [0, 0]),
    TermKind(BRANCH_CMP_IMM, "BranchCmpImm", 1, 2, [8, 0]), // IEq
    TermKind(BRANCH_CMP, "BranchCmp", 2, 2, [16, 0]),       // SEq
    TermKind(TAIL, "Tail", 1, 0, [1, 0]),                   // itself
    TermKind(SWITCH, "Switch", 1, 2, [0, 1]),               // one case, then the default
];

/// A function whose block 0 has the terminator, every edge to block 1, which returns. v0 and v1 (0,1) are block 0's parameters; one Int constant,
/// and one edge and one number of the pool that no list has. Rows: 0 and 1 block 0, 2 and 3 block 1.
pub fn with_term(kind: u32) -> Function {
    let TermKind(_, _, operands, edges, xy) = TERM_KINDS[kind as usize - 1];
    let mut f = Function::new(1);
    let params = f.values(2, 0, 1);
    f.constant(INT, 0);
    f.block(&params);
    let none: &[u32] = &[];
    f.term(kind, &params[..operands as usize], &vec![(1, none); edges as usize], xy);
    f.block(&[]);
    f.returns();
    f.edges.push([1, 0, 0]);
    f.pool.push(0);
    f
}
