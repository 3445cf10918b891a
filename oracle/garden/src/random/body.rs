//! Instructions, terminators and the arguments of edges.
use super::graph::{Graph, Kind};
use super::{Style, arity, constants};
use crate::model::{BOOL, Block, Constant, DOUBLE, Does, Edge, Ends, Function, INT, Instr, Term};
use crate::rng::Random;

struct Builder<'b> {
    random: &'b mut Random,
    style: &'b Style,
    graph: &'b Graph,
    callees: &'b [u32],
    /// How many values there are so far, and which each block has defined.
    count: u32,
    defined: Vec<Vec<u32>>,
    /// The values that may be operands now, and those that are kept for the last block.
    scope: Vec<u32>,
    kept: Vec<u32>,
    /// The instructions of the block that is being made.
    instrs: Vec<Instr>,
}

pub fn function(random: &mut Random, style: &Style, graph: &Graph, id: u32, callees: &[u32]) -> Function {
    let span = random.next() as u32;
    let defined = vec![vec![]; graph.live.len()];
    let mut builder = Builder { random, style, graph, callees, count: 0, defined, scope: vec![], kept: vec![], instrs: vec![] };
    let blocks = (0..graph.live.len()).map(|b| builder.block(b)).collect();
    Function { id, span, unused: false, values: vec![Default::default(); builder.count as usize], blocks }
}

impl Builder<'_> {
    fn value(&mut self, b: usize) -> u32 {
        self.count += 1;
        self.defined[b].push(self.count - 1);
        self.scope.push(self.count - 1);
        self.count - 1
    }

    /// A value that may be an operand: one of the latest, or any, or one that is kept.
    fn operand(&mut self) -> u32 {
        let n = self.scope.len() as u32;
        match self.random.below(10) {
            0..=4 => self.scope[(n - 1 - self.random.below(n.min(6))) as usize],
            5 if !self.kept.is_empty() && !self.style.wild => {
                let kept = self.random.one_of(&self.kept);
                if self.scope.contains(&kept) { kept } else { self.scope[0] }
            }
            _ => self.random.one_of(&self.scope),
        }
    }

    fn operands(&mut self, n: u32) -> Vec<u32> {
        if n > 0 && self.random.chance(5) {
            // the same value n times
            return vec![self.operand(); n as usize];
        }
        (0..n).map(|_| self.operand()).collect()
    }

    fn block(&mut self, b: usize) -> Block {
        if !self.graph.live[b] {
            return Block { id: b as u32, tombstone: true, params: vec![], instrs: vec![], term: None };
        }
        self.scope = (0..b).filter(|&d| self.style.wild || self.graph.dominators[b][d]).flat_map(|d| self.defined[d].clone()).collect();
        let params = (0..self.graph.params[b]).map(|_| self.value(b)).collect();
        if self.scope.is_empty() {
            self.load_const(b);
        }
        for _ in 0..if b == 0 { self.style.kept } else { 0 } {
            let kept = self.load_const(b);
            self.kept.push(kept);
        }
        for _ in 0..self.random.below(self.style.instrs + 1) {
            self.instr(b);
        }
        if b == self.graph.last() {
            self.use_kept(b);
        }
        let term = self.term(b);
        Block { id: b as u32, tombstone: false, params, instrs: std::mem::take(&mut self.instrs), term }
    }

    fn push(&mut self, b: usize, operands: Vec<u32>, does: Does) -> u32 {
        let span = if does == Does::Noop { 0 } else { self.random.next() as u32 };
        let dst = (!matches!(does, Does::Store { .. } | Does::Noop)).then(|| self.value(b));
        self.instrs.push(Instr { span, dst, operands, does });
        dst.unwrap_or(0)
    }

    fn load_const(&mut self, b: usize) -> u32 {
        let constant = constants::any(self.random);
        self.push(b, vec![], Does::LoadConst(constant))
    }

    /// Every kept value is an operand once more.
    fn use_kept(&mut self, b: usize) {
        let mut kept: Vec<u32> = self.kept.iter().copied().filter(|v| self.scope.contains(v)).collect();
        self.random.shuffle(&mut kept);
        for pair in kept.chunks(2) {
            let op = self.random.below(17);
            self.push(b, vec![pair[0], pair[pair.len() - 1]], Does::Bin { op });
        }
    }

    fn instr(&mut self, b: usize) {
        if self.random.chance(self.style.calls) {
            return self.call(b);
        }
        let random = &mut *self.random;
        let word = random.next() as u32;
        let (n, does) = match random.below(25) {
            0..=5 => (2, Does::Bin { op: random.below(17) }),
            6..=8 => (1, Does::BinImm { op: random.below(9), imm: word as i32 }),
            9..=11 => (0, Does::LoadConst(constants::any(random))),
            12..=13 => {
                let (from, to) = random.one_of(&[(INT, DOUBLE), (DOUBLE, INT), (INT, BOOL), (BOOL, INT)]);
                (1, Does::Cast { to, from })
            }
            14 => (0, Does::Alloc { kind: word as u8, size: word, align: random.one_of(&[0, 1, 8, 16, 128]) }),
            15..=16 => (2, Does::Store { offset: word }),
            17 => (1, Does::Assert),
            18..=19 => (1, Does::Load { offset: word }),
            20..=21 => (1, Does::AddrOf { offset: word }),
            22..=23 => (1, self.lookup()),
            _ => (0, Does::Noop),
        };
        let operands = self.operands(n);
        self.push(b, operands, does);
    }

    fn lookup(&mut self) -> Does {
        let large = self.style.large_tables && self.random.chance(30);
        let count = if large { self.random.from_to(30, 1024) } else { self.random.from_to(1, 6) };
        let keys = constants::keys(self.random, count, large);
        let entries = keys.into_iter().map(|key| (Constant::Int(key), constants::any(self.random))).collect();
        Does::Lookup { entries, default: constants::any(self.random) }
    }

    fn call(&mut self, b: usize) {
        let n = arity(self.random);
        let operands = self.operands(n);
        let does = if self.random.chance(50) {
            Does::Call { function: self.random.one_of(self.callees) }
        } else {
            Does::Sys { builtin: self.random.one_of(&[0, 1, 2, 3, 9, 70000, u32::MAX]) }
        };
        self.push(b, operands, does);
    }

    fn term(&mut self, b: usize) -> Option<Term> {
        let span = self.random.next() as u32;
        let kind = self.graph.kinds[b];
        let cases = self.graph.targets[b].len() as u32;
        let (n, ends) = match kind {
            Kind::Nothing => return None,
            Kind::Return => (self.random.below(4).min(1), Ends::Return),
            Kind::Jump => (0, Ends::Jump),
            Kind::Branch => (1, Ends::Branch),
            Kind::BranchCmpImm => (1, Ends::BranchCmpImm { op: 8, imm: self.random.next() as i32 }),
            Kind::BranchCmp => (2, Ends::BranchCmp { op: 16 }),
            Kind::Tail => (arity(self.random), Ends::Tail { function: self.random.one_of(self.callees) }),
            Kind::Switch => {
                let keys = constants::keys(self.random, cases - 1, self.style.large_tables);
                (1, Ends::Switch { keys: keys.into_iter().map(Constant::Int).collect() })
            }
        };
        let operands = self.operands(n);
        let targets = self.graph.targets[b].clone();
        let edges = targets.iter().map(|&to| Edge { to: to as u32, args: self.arguments(b, to) }).collect();
        Some(Term { span, operands, edges, ends })
    }

    /// For a block that this one comes by, its own parameters most often: as they are, in a circle, in another order, or mixed with others.
    fn arguments(&mut self, b: usize, to: usize) -> Vec<u32> {
        let n = self.graph.params[to];
        let seen = to <= b && self.graph.dominators[b][to];
        if n == 0 || !seen || self.random.chance(30) {
            return self.operands(n);
        }
        let mut args = self.defined[to][..n as usize].to_vec();
        match self.random.below(4) {
            0 => args.rotate_left(1),
            1 => self.random.shuffle(&mut args),
            2 => {
                for k in 0..args.len() {
                    args[k] = if self.random.chance(50) { self.operand() } else { self.random.one_of(&args) };
                }
            }
            _ => {}
        }
        args
    }
}
