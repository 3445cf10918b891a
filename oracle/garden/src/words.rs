//! The word of an op, by docs/OPS.md: the opcode byte, bytes a, b and c, then w.
use crate::op::{LookupTable, Op, SwitchKind, SwitchTable};
use crate::shims::AllocType;
use std::ptr::NonNull;

/// A field's bits.
trait Bits {
    fn bits(self) -> u64;
}

macro_rules! bits {
    ($($ty:ty => |$x:ident| $e:expr),* $(,)?) => {
        $(impl Bits for $ty { fn bits(self) -> u64 { let $x = self; $e as u64 } })*
    };
}
bits! { u8 => |x| x, u16 => |x| x, u32 => |x| x, i32 => |x| x as u32, bool => |x| x, AllocType => |x| x.0 }

#[derive(Default)]
struct Word(u64);

impl Word {
    fn a(&mut self, x: impl Bits) {
        self.0 |= x.bits() << 8;
    }

    fn b(&mut self, x: impl Bits) {
        self.0 |= x.bits() << 16;
    }

    fn c(&mut self, x: impl Bits) {
        self.0 |= x.bits() << 24;
    }

    /// Two bytes, the lower one in b.
    fn bc(&mut self, x: u16) {
        self.0 |= x.bits() << 16;
    }

    fn w(&mut self, x: impl Bits) {
        self.0 |= x.bits() << 32;
    }
}

/// A row for each op that holds no table: its opcode, and each of its fields behind the place where it stands.
macro_rules! rows {
    ($op:expr; $($code:literal $name:ident ( $($place:ident $field:ident),* );)*) => {
        match $op {
            $(Op::$name { $($field),* } => {
                #[allow(unused_mut)]
                let mut word = Word($code);
                $(word.$place($field);)*
                word.0
            })*
            Op::Switch { .. } | Op::Lookup { .. } => unreachable!("an op with a table"),
        }
    };
}

#[rustfmt::skip]
fn plain(op: Op) -> u64 {
    rows! { op;
        0 Nop(); 1 Halt(); 2 Mov(a dst, b src); 3 LoadI(a dst, w value); 4 LoadG(a dst, w idx);
        5 Jmp(w target); 6 JmpT(a cond, w target); 7 JmpF(a cond, w target);
        8 JmpEqI(a lhs, w imm, bc target); 9 JmpNeI(a lhs, w imm, bc target);
        10 JmpSEq(a lhs, b rhs, w target); 11 JmpSNe(a lhs, b rhs, w target);
        14 Tail(w func); 15 Call(w func); 16 Sys(w idx, a argc); 17 Native(w idx, a returns_double);
        18 Push(a src); 19 Push2(a a, b b); 20 Push3(a a, b b, c c);
        21 Pop(a dst); 22 Pop2(a a, b b); 23 Pop3(a a, b b, c c);
        24 StoreSlot(w slot, a src); 25 LoadSlot(a dst, w slot);
        26 CastToInt(a dst, b src); 27 CastToDouble(a dst, b src); 28 CastToBool(a dst, b src);
        29 Alloc(a dst, b kind, w size, c align); 30 Store(a base, w offset, b src);
        31 Load(a dst, b base, w offset); 32 AddrOf(a dst, b base, w offset); 33 Ret(); 34 Assert(a cond);
        35 IAdd(a dst, b lhs, c rhs); 36 ISub(a dst, b lhs, c rhs); 37 IMul(a dst, b lhs, c rhs);
        38 IDiv(a dst, b lhs, c rhs); 39 IMod(a dst, b lhs, c rhs); 40 IAnd(a dst, b lhs, c rhs);
        41 ILt(a dst, b lhs, c rhs); 42 IGt(a dst, b lhs, c rhs); 43 IEq(a dst, b lhs, c rhs);
        44 DAdd(a dst, b lhs, c rhs); 45 DSub(a dst, b lhs, c rhs); 46 DMul(a dst, b lhs, c rhs);
        47 DDiv(a dst, b lhs, c rhs); 48 DLt(a dst, b lhs, c rhs); 49 DGt(a dst, b lhs, c rhs);
        50 BEq(a dst, b lhs, c rhs); 51 SEq(a dst, b lhs, c rhs);
        52 IAddI(a dst, b lhs, w imm); 53 ISubI(a dst, b lhs, w imm); 54 IMulI(a dst, b lhs, w imm);
        55 IDivI(a dst, b lhs, w imm); 56 IModI(a dst, b lhs, w imm); 57 IAndI(a dst, b lhs, w imm);
        58 IEqI(a dst, b lhs, w imm); 59 IGtI(a dst, b lhs, w imm); 60 ILtI(a dst, b lhs, w imm);
    }
}

fn number<T>(tables: &[Box<T>], table: NonNull<T>) -> u32 {
    tables.iter().position(|t| NonNull::from(&**t) == table).expect("a table of the program") as u32
}

/// The word of an op of a program that has these tables.
pub fn word(op: Op, switches: &[Box<SwitchTable>], lookups: &[Box<LookupTable>]) -> u64 {
    let mut word = Word::default();
    match op {
        Op::Switch { kind, subject, table } => {
            assert_eq!(kind, SwitchKind::Int);
            word.0 = 12;
            word.a(subject);
            word.w(number(switches, table));
        }
        Op::Lookup { kind, dst, subject, table } => {
            assert_eq!(kind, SwitchKind::Int);
            word.0 = 13;
            word.a(dst);
            word.b(subject);
            word.w(number(lookups, table));
        }
        op => return plain(op),
    }
    word.0
}
