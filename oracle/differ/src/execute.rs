//! Demand 3 by execution: the small machine walks the finished ops beside a walk over the function itself. An op that computes, stores, calls or
//! decides is an event of both walks; at each the machine's registers have to hold what the function's operands are. Moves, pushes, pops and
//! jumps happen between. What an event computes is a fresh number on both sides, so a value that got lost or came out as another shows.
use garden::REGISTER_COUNT;
use garden::compile::{Code, Placed};
use garden::model::{BOOL, Constant, Does, Edge, Ends, Function, INT, Instr, Term};
use garden::rng::Random;
use garden::rows::{term_rows, value_rows};

const N: usize = REGISTER_COUNT;
const FIRST_KEPT: usize = 19;

/// A value, none where no op defines it: it may be anything.
type Known = Option<u64>;

struct Op {
    code: u8,
    a: usize,
    b: usize,
    c: usize,
    w: u32,
}

fn parts(word: u64) -> Op {
    let byte = |k: u32| (word >> (8 * k)) as u8 as usize;
    Op { code: word as u8, a: byte(1), b: byte(2), c: byte(3), w: (word >> 32) as u32 }
}

struct Machine<'p> {
    code: &'p Code,
    pc: usize,
    regs: [u64; N],
    /// The top is last.
    stack: Vec<u64>,
    steps: u32,
}

impl Machine<'_> {
    fn slot(&mut self, k: u32) -> Result<&mut u64, String> {
        let at = self.stack.len().checked_sub(k as usize + 1).ok_or("a slot below the stack")?;
        Ok(&mut self.stack[at])
    }

    fn pop(&mut self) -> Result<u64, String> {
        self.stack.pop().ok_or("a pop of an empty stack".into())
    }

    /// Runs what is no event; the event's op.
    fn next_event(&mut self) -> Result<Op, String> {
        loop {
            self.steps += 1;
            let op = parts(*self.code.ops.get(self.pc).ok_or("control past the end")?);
            self.pc += 1;
            match op.code {
                0 => {}
                2 => self.regs[op.a] = self.regs[op.b],
                5 => self.pc = op.w as usize,
                18 => self.stack.push(self.regs[op.a]),
                19 => self.stack.extend([self.regs[op.a], self.regs[op.b]]),
                20 => self.stack.extend([self.regs[op.a], self.regs[op.b], self.regs[op.c]]),
                21 => self.regs[op.a] = self.pop()?,
                22 => (self.regs[op.a], self.regs[op.b]) = (self.pop()?, self.pop()?),
                23 => (self.regs[op.a], self.regs[op.b], self.regs[op.c]) = (self.pop()?, self.pop()?, self.pop()?),
                24 => *self.slot(op.w)? = self.regs[op.a],
                25 => self.regs[op.a] = *self.slot(op.w)?,
                _ => return Ok(op),
            }
            if self.steps > 100_000 {
                return Err("no event in sight".into());
            }
        }
    }
}

fn most_arguments(f: &Function) -> usize {
    let calls = f.blocks.iter().flat_map(|b| &b.instrs).filter(|i| matches!(i.does, Does::Call { .. } | Does::Sys { .. }));
    let tails = f.blocks.iter().filter_map(|b| b.term.as_ref()).filter(|t| matches!(t.ends, Ends::Tail { .. }));
    calls.map(|i| i.operands.len()).chain(tails.map(|t| t.operands.len())).max().unwrap_or(0)
}

/// The walk over the function, beside the machine.
pub struct Walk<'p, 'r> {
    f: &'p Function,
    placed: &'p Placed,
    random: &'r mut Random,
    machine: Machine<'p>,
    values: Vec<Known>,
    /// The row of each value, and of each block's terminator.
    rows: Vec<Option<u32>>,
    term_rows: Vec<u32>,
    entry_regs: [u64; N],
    entry_stack: Vec<u64>,
    pub events: u64,
}

impl<'p, 'r> Walk<'p, 'r> {
    fn new(f: &'p Function, placed: &'p Placed, code: &'p Code, random: &'r mut Random) -> Self {
        let regs = std::array::from_fn(|_| random.next());
        let stack: Vec<u64> = (0..5).map(|_| random.next()).collect();
        let pc = (code.functions[f.id as usize] >> 2) as usize;
        let machine = Machine { code, pc, regs, stack: stack.clone(), steps: 0 };
        let (rows, term_rows) = (value_rows(f), term_rows(f));
        Self { f, placed, random, machine, values: vec![None; f.values.len()], rows, term_rows, entry_regs: regs, entry_stack: stack, events: 0 }
    }

    fn event(&mut self, code: u8) -> Result<Op, String> {
        self.events += 1;
        let op = self.machine.next_event()?;
        if op.code == code { Ok(op) } else { Err(format!("op {} at {} where {code} was due", op.code, self.machine.pc - 1)) }
    }

    fn holds(&self, what: &str, register: usize, value: u32) -> Result<(), String> {
        match self.values[value as usize] {
            Some(x) if x != self.machine.regs[register] => Err(format!("{what}: register {register} does not hold value {value}")),
            _ => Ok(()),
        }
    }

    /// An op that computes: its operands by register, a fresh result in a.
    fn computes(&mut self, code: u8, instr: &Instr, registers: impl Fn(&Op) -> Vec<usize>) -> Result<(), String> {
        let op = self.event(code)?;
        for (register, &v) in registers(&op).into_iter().zip(&instr.operands) {
            self.holds("operand", register, v)?;
        }
        let fresh = self.random.next();
        self.machine.regs[op.a] = fresh;
        self.values[instr.dst.unwrap() as usize] = Some(fresh);
        Ok(())
    }

    /// Called code: arguments in their registers; it overwrites what it may.
    fn called(&mut self, args: &[u32], kept_from: usize) -> Result<u64, String> {
        for (k, &v) in args.iter().enumerate() {
            self.holds("argument", k, v)?;
        }
        for r in 0..N {
            if r < kept_from.max(args.len()) || r >= N - 2 {
                self.machine.regs[r] = self.random.next();
            }
        }
        Ok(self.machine.regs[0])
    }

    /// Call or Native: which of them stands in the table now may have come later.
    fn call(&mut self) -> Result<u8, String> {
        self.events += 1;
        match self.machine.next_event()?.code {
            code @ (14 | 15 | 17) => Ok(code),
            code => Err(format!("op {code} at {} where a call was due", self.machine.pc - 1)),
        }
    }

    fn instr(&mut self, instr: &Instr) -> Result<(), String> {
        match &instr.does {
            Does::Noop => {}
            Does::LoadConst(Constant::Undefined) => self.values[instr.dst.unwrap() as usize] = None,
            Does::LoadConst(Constant::True | Constant::False) => self.computes(3, instr, |_| vec![])?,
            Does::LoadConst(Constant::Int(i)) if (-2147483647..2147483647).contains(i) => self.computes(3, instr, |_| vec![])?,
            Does::LoadConst(_) => self.computes(4, instr, |_| vec![])?,
            Does::Bin { op } => self.computes(35 + *op as u8, instr, |o| vec![o.b, o.c])?,
            Does::BinImm { op, .. } => self.computes([52, 53, 54, 55, 56, 57, 60, 59, 58][*op as usize], instr, |o| vec![o.b])?,
            // Bool to Int is a Mov
            Does::Cast { to: INT, from: BOOL } => self.values[instr.dst.unwrap() as usize] = self.values[instr.operands[0] as usize],
            Does::Cast { to, .. } => self.computes(26 + *to as u8, instr, |o| vec![o.b])?,
            Does::Alloc { .. } => self.computes(29, instr, |_| vec![])?,
            Does::Load { .. } => self.computes(31, instr, |o| vec![o.b])?,
            Does::AddrOf { .. } => self.computes(32, instr, |o| vec![o.b])?,
            Does::Lookup { .. } => self.computes(13, instr, |o| vec![o.b])?,
            Does::Store { .. } => {
                let op = self.event(30)?;
                self.holds("stored", op.b, instr.operands[0])?;
                self.holds("base", op.a, instr.operands[1])?;
            }
            Does::Assert => {
                let op = self.event(34)?;
                self.holds("condition", op.a, instr.operands[0])?;
                self.values[instr.dst.unwrap() as usize] = None;
            }
            Does::Call { .. } => {
                self.call()?;
                self.values[instr.dst.unwrap() as usize] = Some(self.called(&instr.operands, FIRST_KEPT)?);
            }
            Does::Sys { .. } => {
                self.event(16)?;
                self.values[instr.dst.unwrap() as usize] = Some(self.called(&instr.operands, 1)?);
            }
        }
        Ok(())
    }

    /// The parameters get the arguments, all at once. A value whose row comes later has no place yet in the block, whatever came before.
    fn take(&mut self, edge: &Edge) -> usize {
        let passed: Vec<Known> = edge.args.iter().map(|&a| self.values[a as usize]).collect();
        let end = self.term_rows[edge.to as usize];
        for (x, row) in self.values.iter_mut().zip(&self.rows) {
            *x = x.filter(|_| row.is_some_and(|row| row < end));
        }
        for (&p, x) in self.f.blocks[edge.to as usize].params.iter().zip(passed) {
            self.values[p as usize] = x.filter(|_| self.f.values[p as usize].is_read());
        }
        edge.to as usize
    }

    /// A slot without a case goes to the default's block past the default edge's moves.
    fn take_no_edge(&mut self, edge: &Edge) -> usize {
        let place = |v: u32| self.placed.places[v as usize];
        let stays: Vec<bool> = edge.args.iter().zip(&self.f.blocks[edge.to as usize].params).map(|(&a, &p)| place(a) == place(p)).collect();
        let to = self.take(edge);
        for (&p, stays) in self.f.blocks[to].params.iter().zip(stays) {
            self.values[p as usize] = self.values[p as usize].filter(|_| stays);
        }
        to
    }

    fn decide(&mut self, code: u8, term: &Term, target: fn(&Op) -> u32) -> Result<usize, String> {
        let op = self.event(code)?;
        self.holds("condition", op.a, term.operands[0])?;
        if let Some(&right) = term.operands.get(1) {
            self.holds("condition", op.b, right)?;
        }
        if self.random.chance(50) {
            self.machine.pc = target(&op) as usize;
            return Ok(self.take(&term.edges[0]));
        }
        Ok(self.take(&term.edges[1]))
    }

    fn switch(&mut self, term: &Term, keys: &[Constant]) -> Result<usize, String> {
        let op = self.event(12)?;
        self.holds("subject", op.a, term.operands[0])?;
        let table = &self.machine.code.switches[op.w as usize];
        let slot = self.random.below(table.targets.len() as u32 + 1) as usize;
        let default = &term.edges[keys.len()];
        let Some(&pc) = table.targets.get(slot) else { return Ok(self.take(default)) };
        let key = table.first.wrapping_add(slot as u64);
        self.machine.pc = pc as usize;
        match keys.iter().rposition(|&k| k == Constant::Int(key as i64)) {
            Some(case) => Ok(self.take(&term.edges[case])),
            None => Ok(self.take_no_edge(default)),
        }
    }

    /// Registers that the caller counts on, and its stack. A frame does not save an argument register that only a shuffle writes.
    fn leaves(&self) -> Result<(), String> {
        let from = FIRST_KEPT.max(most_arguments(self.f));
        let saved = if self.f.id == 0 { 0..0 } else { from..N - 2 };
        if self.machine.stack != self.entry_stack {
            return Err("the stack is not as it was".into());
        }
        match saved.into_iter().find(|&r| self.machine.regs[r] != self.entry_regs[r]) {
            Some(r) => Err(format!("register {r} is not as it was")),
            None => Ok(()),
        }
    }

    fn ret(&mut self) -> Result<(), String> {
        self.event(33)?;
        self.leaves()
    }

    fn tail(&mut self, term: &Term) -> Result<(), String> {
        let code = self.call()?;
        if code == 14 {
            self.leaves()?;
        }
        self.called(&term.operands, FIRST_KEPT)?;
        if code == 14 { Ok(()) } else { self.ret() }
    }

    /// The next block, none at the end.
    fn term(&mut self, term: &Term) -> Result<Option<usize>, String> {
        match &term.ends {
            Ends::Jump => Ok(Some(self.take(&term.edges[0]))),
            Ends::Branch => self.decide(7, term, |o| o.w).map(Some),
            Ends::BranchCmpImm { .. } => self.decide(9, term, |o| o.b as u32 | (o.c as u32) << 8).map(Some),
            Ends::BranchCmp { .. } => self.decide(11, term, |o| o.w).map(Some),
            Ends::Switch { keys } => self.switch(term, keys).map(Some),
            Ends::Tail { .. } => self.tail(term).map(|()| None),
            Ends::Return => {
                self.event(33)?;
                term.operands.first().map_or(Ok(()), |&v| self.holds("returned", 0, v))?;
                self.leaves().map(|()| None)
            }
        }
    }

    fn run(&mut self) -> Result<(), String> {
        let f = self.f;
        for (k, &p) in f.blocks[0].params.iter().enumerate() {
            self.values[p as usize] = Some(self.entry_regs[k]).filter(|_| f.values[p as usize].is_read());
        }
        let mut b = 0;
        let mut blocks = 0;
        while self.events < 300 && blocks < 300 {
            blocks += 1;
            for instr in &f.blocks[b].instrs {
                self.instr(instr)?;
            }
            match &f.blocks[b].term {
                // the root's last block gets no Ret where the program's last op is one already: what is run then is no code of its own
                None => return Ok(()),
                Some(term) => match self.term(term)? {
                    None => return Ok(()),
                    Some(next) => b = next,
                },
            }
        }
        Ok(())
    }
}

/// A few walks through one function; how many events there were.
pub fn function(f: &Function, placed: &Placed, code: &Code, random: &mut Random) -> Result<u64, String> {
    let mut events = 0;
    for _ in 0..3 {
        let mut walk = Walk::new(f, placed, code, random);
        walk.run()?;
        events += walk.events;
    }
    Ok(events)
}
