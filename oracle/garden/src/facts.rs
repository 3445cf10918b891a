//! What is known of a function beside its records. The optimiser's facts are in no file that we have; the place is used to hand in each value's
//! live interval and first hint, which are inputs.
use crate::Id;
use std::{alloc::Allocator, marker::PhantomData};

#[derive(Debug, Clone)]
pub struct Facts<A> {
    pub intervals: Vec<(u32, u32)>,
    pub hints: Vec<Option<u8>>,
    alloc: PhantomData<A>,
}

impl<A> Facts<A> {
    pub fn new_in(_alloc: A) -> Self {
        Self { intervals: vec![], hints: vec![], alloc: PhantomData }
    }

    pub fn nonzero(&self, _block: Id, _param: usize) -> bool {
        false
    }

    pub fn live_set_into<V: Allocator>(&self, out: &mut Vec<(u32, u32), V>) {
        out.clear();
        out.extend_from_slice(&self.intervals);
    }

    pub fn arg_hints_into<V: Allocator>(&self, out: &mut Vec<Option<u8>, V>) {
        out.clear();
        out.extend_from_slice(&self.hints);
    }
}
