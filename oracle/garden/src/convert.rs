//! From our model to ir's records.
use crate::model::{BOOL, Block, Constant, DOUBLE, Does, Edge, Ends, Function, INT, Instr};
use crate::ptype::Type;
use crate::{BinOp, Const, Fn, Func, Id, ParamsId, TypeId};
use std::alloc::Layout;
use std::collections::HashMap;

/// ir's operators in its order.
const OPERATORS: [BinOp; 17] = [
    BinOp::IAdd,
    BinOp::ISub,
    BinOp::IMul,
    BinOp::IDiv,
    BinOp::IMod,
    BinOp::IAnd,
    BinOp::ILt,
    BinOp::IGt,
    BinOp::IEq,
    BinOp::DAdd,
    BinOp::DSub,
    BinOp::DMul,
    BinOp::DDiv,
    BinOp::DLt,
    BinOp::DGt,
    BinOp::BEq,
    BinOp::SEq,
];

/// ir's record of a builtin, by number.
pub type Builtins = HashMap<u32, Fn<'static>>;

fn builtin(number: u32) -> Fn<'static> {
    Fn {
        name: "",
        doc: "",
        ptr: number,
        pure: false,
        eval: None,
        arg_names: &[],
        args: &[],
        ret: Type::Int,
        specialises: None,
        with_slots: false,
        intrinsic: None,
        native: None,
    }
}

/// Those that the functions call.
pub fn builtins(functions: &[Function]) -> Builtins {
    let instrs = functions.iter().flat_map(|f| &f.blocks).flat_map(|b| &b.instrs);
    let numbers = instrs.filter_map(|i| match i.does {
        Does::Sys { builtin } => Some(builtin),
        _ => None,
    });
    numbers.map(|n| (n, builtin(n))).collect()
}

fn constant(constant: Constant) -> Const<'static> {
    match constant {
        Constant::Undefined => Const::Undefined,
        Constant::False => Const::False,
        Constant::True => Const::True,
        Constant::Int(i) => Const::Int(i),
        Constant::Double(bits) => Const::Double(bits),
        Constant::Str(number) => number.to_string().into(),
    }
}

fn typed(id: u32, ty: Type<'static>) -> TypeId<'static> {
    TypeId { id: Id(id), ty }
}

fn cast_type(number: u32) -> Type<'static> {
    match number {
        INT => Type::Int,
        DOUBLE => Type::Double,
        BOOL => Type::Bool,
        _ => Type::Other("any other"),
    }
}

/// A layout whose alignment is cut to the byte that is asked for: 256 is cut to 0.
fn layout(size: u32, align: u8) -> Layout {
    let align = if align == 0 { 256 } else { align as usize };
    Layout::from_size_align(size as usize, align).expect("an alignment is a power of two")
}

/// A function being made; the builtins are lent.
struct Maker<'a> {
    func: Func<'a>,
    builtins: &'a Builtins,
}

impl<'a> Maker<'a> {
    fn params(&mut self, values: &[u32]) -> ParamsId {
        self.func.intern_params(values.iter().map(|&v| Id(v)))
    }

    fn edge(&mut self, edge: &Edge) -> (Id, ParamsId) {
        (Id(edge.to), self.params(&edge.args))
    }

    fn instr(&mut self, from: &Instr) -> crate::Instr<'a> {
        let span = from.span;
        let operand = |k: usize| Id(from.operands[k]);
        let dst = |ty| typed(from.dst.expect("a destination"), ty);
        let any = Type::Other("");
        match &from.does {
            Does::Bin { op } => crate::Instr::Bin { op: OPERATORS[*op as usize], dst: dst(any), lhs: operand(0), rhs: operand(1), span },
            Does::BinImm { op, imm } => {
                crate::Instr::BinImm { op: OPERATORS[*op as usize], dst: dst(any), lhs: operand(0), imm: *imm, span }
            }
            Does::LoadConst(value) => crate::Instr::LoadConst { dst: dst(any), value: constant(*value), span },
            Does::Cast { to, from } => {
                crate::Instr::Cast { dst: dst(cast_type(*to)), from: TypeId { id: operand(0), ty: cast_type(*from) }, span }
            }
            Does::Alloc { kind, size, align } => crate::Instr::Alloc { dst: dst(Type::Heap(*kind)), layout: layout(*size, *align), span },
            Does::Store { offset } => crate::Instr::Store { src: operand(0), base: operand(1), offset: *offset, span },
            Does::Assert => crate::Instr::Assert { dst: dst(any), cond: operand(0), span },
            Does::Load { offset } => crate::Instr::Load { dst: dst(any), base: operand(0), offset: *offset, span },
            Does::AddrOf { offset } => crate::Instr::AddrOf { dst: dst(any), base: operand(0), offset: *offset, span },
            Does::Noop => crate::Instr::Noop,
            Does::Call { .. } | Does::Sys { .. } | Does::Lookup { .. } => self.instr_with_list(from, dst(any)),
        }
    }

    /// The instructions that have a list.
    fn instr_with_list(&mut self, from: &Instr, dst: TypeId<'a>) -> crate::Instr<'a> {
        let span = from.span;
        match &from.does {
            Does::Call { function } => crate::Instr::Call { dst, func: Id(*function), args: self.params(&from.operands), span },
            Does::Sys { builtin } => {
                crate::Instr::Sys { dst, path: "", fun: &self.builtins[builtin], args: self.params(&from.operands), span }
            }
            Does::Lookup { entries, default } => crate::Instr::Lookup {
                dst,
                subject: Id(from.operands[0]),
                entries: self.func.intern_entries(entries.iter().map(|&(key, value)| (constant(key), constant(value)))),
                default: constant(*default),
                span,
            },
            other => unreachable!("{other:?} has no list"),
        }
    }

    fn term(&mut self, from: &crate::model::Term) -> crate::Terminator {
        let span = from.span;
        let operand = |k: usize| Id(from.operands[k]);
        let edges: Vec<(Id, ParamsId)> = from.edges.iter().map(|e| self.edge(e)).collect();
        match &from.ends {
            Ends::Return => crate::Terminator::Return { value: from.operands.first().map(|&v| Id(v)), span },
            Ends::Jump => crate::Terminator::Jump { id: edges[0].0, params: edges[0].1, span },
            Ends::Branch => crate::Terminator::Branch { cond: operand(0), no: edges[0], yes: edges[1], span },
            Ends::BranchCmpImm { op, imm } => crate::Terminator::BranchCmpImm {
                op: OPERATORS[*op as usize],
                lhs: operand(0),
                imm: *imm,
                no: edges[0],
                yes: edges[1],
                span,
            },
            Ends::BranchCmp { op } => crate::Terminator::BranchCmp {
                op: OPERATORS[*op as usize],
                lhs: operand(0),
                rhs: operand(1),
                no: edges[0],
                yes: edges[1],
                span,
            },
            Ends::Tail { function } => crate::Terminator::Tail { func: Id(*function), args: self.params(&from.operands), span },
            Ends::Switch { keys } => {
                let cases = keys.iter().zip(&edges).map(|(&key, &target)| crate::Case { key: constant(key), target });
                let (subject, default) = (operand(0), edges[keys.len()]);
                crate::Terminator::Switch { subject, cases: self.func.intern_cases(cases), default, span }
            }
        }
    }

    fn block(&mut self, from: &Block) {
        let block = crate::Block {
            tombstone: from.tombstone,
            id: Id(from.id),
            instructions: from.instrs.iter().map(|i| self.instr(i)).collect(),
            params: self.params(&from.params),
            term: from.term.as_ref().map(|t| self.term(t)),
        };
        self.func.blocks.push(block);
    }
}

/// The function as ir has it, its intervals and first hints beside it.
pub fn func<'a>(from: &Function, builtins: &'a Builtins) -> Func<'a> {
    let mut maker = Maker { func: Func::new("", Id(from.id), vec![], None).with_span(from.span), builtins };
    maker.func.unused = from.unused;
    from.blocks.iter().for_each(|b| maker.block(b));
    maker.func.facts.intervals = from.values.iter().map(|v| (v.start, v.end)).collect();
    maker.func.facts.hints = from.values.iter().map(|v| v.hint).collect();
    maker.func
}

/// The first hints that the commit itself would give the function's values.
pub fn commit_hints(from: &Function) -> Vec<Option<u8>> {
    let builtins = builtins(std::slice::from_ref(from));
    let mut hints = vec![];
    func(from, &builtins).arg_hints_into(&mut hints);
    hints.resize(from.values.len(), None);
    hints
}
