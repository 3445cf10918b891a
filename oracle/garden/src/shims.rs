//! What the source names and no file of it defines. A shim has what the compiler's text asks of it and no more.
use crate::constant::Const;
use crate::ptype::Type;
use crate::{Id, LookupTable, SwitchTable};
use std::alloc::Allocator;

/// A builtin stands for its function as a number.
pub type BuiltinFn = u32;

/// The kind of a string, by docs/INPUT.md.
pub const STR: u32 = 5;

/// A value of the machine: its payload, and beside it the kind of the constant that it was made of (docs/INPUT.md), which the machine's own
/// values have not. So the values of a table come back as constants.
#[derive(Debug, Clone, Copy, PartialEq, Eq)]
pub struct Value(pub u64, pub u32);

impl Value {
    pub const UNDEF: Value = Value(0, 0);
}

impl From<Const<'_>> for Value {
    fn from(constant: Const<'_>) -> Self {
        match constant {
            Const::Undefined => Self::UNDEF,
            Const::False => Self(0, 1),
            Const::True => Self(0, 2),
            Const::Int(i) => Self(i as u64, 3),
            Const::Double(bits) => Self(bits, 4),
            Const::Str(text) => string::value(&text),
        }
    }
}

pub mod string {
    use super::{STR, Value};

    pub const ALIGN: usize = 4;

    /// A string's text is its number.
    pub fn value(text: &str) -> Value {
        Value(text.parse().expect("a string's number"), STR)
    }

    pub fn padded_size(len: usize) -> usize {
        len.next_multiple_of(ALIGN)
    }

    pub fn hash(_bytes: &[u8]) -> u32 {
        0
    }

    /// # Safety
    /// Nothing is written.
    pub unsafe fn write_payload(_to: *mut u8, text: &str, _hash: u32) -> Value {
        value(text)
    }
}

/// A kind of heap object: a byte that is carried.
#[derive(Debug, Clone, Copy, PartialEq, Eq)]
pub struct AllocType(pub u8);

impl AllocType {
    pub fn from_ty(ty: &Type<'_>) -> Option<Self> {
        match ty {
            Type::Heap(kind) => Some(Self(*kind)),
            _ => None,
        }
    }
}

pub mod config {
    #[derive(Debug, Default)]
    pub struct Config {
        pub no_jit: bool,
        pub disassemble: u32,
        pub perf_map: bool,
    }
}

pub mod page {
    pub trait Pages {}

    /// Where native code would go: there is none.
    pub struct NoPages;
    impl Pages for NoPages {}
}

pub mod jit {
    //! Never compiles anything.
    use super::*;
    use std::{collections::HashMap, hash::RandomState, marker::PhantomData};

    pub type Natives<A> = HashMap<Id, BuiltinFn, RandomState, A>;

    #[derive(Debug, Clone)]
    pub struct Jit<S>(PhantomData<S>);

    impl<S> Jit<S> {
        pub fn new_in(_scratch: S) -> Self {
            Self(PhantomData)
        }

        pub fn compile_func_with_liveness<F, L: ?Sized, M, V, N>(
            &mut self,
            _fun: &F,
            _liveness: &L,
            _globals: &M,
            _strings: &V,
            _natives: &N,
            _entry: BuiltinFn,
        ) -> Option<()> {
            None
        }

        pub fn code(&self) -> &[u8] {
            &[]
        }
    }

    pub struct CodeArena<P>(PhantomData<P>);

    impl<P> CodeArena<P> {
        pub fn new_in(_pages: P) -> Result<Self, String> {
            Ok(Self(PhantomData))
        }

        pub fn next_entry(&self) -> BuiltinFn {
            0
        }

        pub fn push(&mut self, _code: &[u8]) -> Option<BuiltinFn> {
            None
        }

        pub fn seal(&mut self) -> Result<(), String> {
            Ok(())
        }
    }
}

/// `finalize` fills a machine; nothing here runs one.
pub struct VmConfig;

#[derive(Default)]
pub struct Vm<'vm> {
    pub pc: usize,
    pub bytecode: Vec<crate::op::Op>,
    pub switch_tables: Vec<Box<SwitchTable>>,
    pub lookup_tables: Vec<Box<LookupTable>>,
    pub globals: Vec<Value>,
    pub strings: Strings,
    pub const_pool: Box<[u32]>,
    held: std::marker::PhantomData<&'vm ()>,
}

impl<'vm> Vm<'vm> {
    pub fn new_in(_config: VmConfig, _alloc: impl Allocator + 'vm) -> Self {
        Self::default()
    }
}

#[derive(Default)]
pub struct Strings;

impl Strings {
    /// # Safety
    /// Nothing is kept.
    pub unsafe fn insert(&mut self, _value: Value) {}
}

pub struct DebugInfo;

impl DebugInfo {
    pub fn new(_spans: Box<[u32]>) -> Self {
        Self
    }
}
