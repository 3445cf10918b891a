// What this crate sees and sets of bc's own state. It stands where the source has its disassembler, a module inside bc, so that private fields
// are in reach without a change of the text.
use super::{Cc, Const, Location, Reg, Value};

/// The word of a place in a map: 0 for none, else 1 and register r, or 1 and 256 + k for slot k.
fn map_word(location: Option<Location>) -> u32 {
    match location {
        None => 0,
        Some(Location::Reg(Reg::Gpr(r))) => 1 + r as u32,
        Some(Location::Stack(k)) => 257 + k as u32,
        Some(Location::Reg(Reg::Fpr(r))) => unreachable!("f{r}: no value is floating"),
    }
}

impl<'cc> Cc<'cc> {
    /// Of the function compiled last, the place of each of its values.
    pub fn map_words(&self) -> Vec<u32> {
        (0..self.live_set.len()).map(|v| map_word(self.regalloc.location(v))).collect()
    }

    pub fn slots_made(&self) -> u32 {
        self.regalloc.slots() as u32
    }

    /// One past the highest register that was used, 0 for none.
    pub fn top_used(&self) -> u32 {
        (0..64u8).rev().find(|&r| self.regalloc.used(Reg::Gpr(r))).map_or(0, |r| r as u32 + 1)
    }

    /// The strings of another program, interned and laid out as they are there.
    pub fn take_strings(&mut self, from: &Cc<'cc>) {
        for constant in from.globals.to_vec() {
            if let Const::Str(_) = constant {
                self.globals.intern(constant);
            }
        }
        self.str_values = from.str_values.clone();
        assert_eq!(self.globals.map.len(), self.str_values.iter().filter(|&&v| v != Value::UNDEF).count());
    }

    /// The moves as one list, and nothing else.
    pub fn only_moves(&mut self, moves: Vec<(Location, Location)>) {
        self.emit_parallel_move(moves);
    }
}
