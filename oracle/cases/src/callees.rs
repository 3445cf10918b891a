//! Refusal 6, UnknownFunc, over the live blocks: "callee neither in the table nor the function itself". A table word's two lowest bits say what
//! the function is (crates/program/specs/Functions.antt): 0 not there, 1 bytecode, 2 native, 3 native that returns a double.
use crate::function::*;
use crate::list::Cases;

/// A function that calls `callee`, and one that ends in a Tail to it.
fn calling(callee: u32) -> [(&'static str, Function); 2] {
    [("Call", with_instr(CALL).but(|f| f.instrs[0][X] = callee)), ("Tail", with_term(TAIL).but(|f| f.blocks[0][TERM_X] = callee))]
}

pub fn cases(cases: &mut Cases) {
    // function 1
    for (number, callee, table) in [
        (0, 1, &[][..]), // itself, in no table
        (0, 1, &[0, 0]), // itself, not there
        (0, 1, &[0, 1]), // itself, there
        (6, 0, &[]),     // past an empty table
        (6, 0, &[0]),    // not there
        (6, 0, &[4]),    // not there, whatever its number
        (6, 0, &[u64::MAX - 3]),
        (0, 0, &[1]), // bytecode at 0
        (0, 0, &[5]), // bytecode at 1
        (0, 0, &[2]), // native
        (0, 0, &[3]), // native that returns a double
        (0, 0, &[u64::MAX]),
        (6, 2, &[1, 1]),    // one past the table
        (0, 2, &[0, 0, 1]), // its last
        (6, 2, &[1, 1, 0]),
        (6, 3, &[1, 1, 1]),
        (6, MAX, &[1, 1, 1]),
    ] {
        for (name, f) in calling(callee) {
            cases.with_table(number, format!("{name} of function {callee}, table {table:?}"), &f, table);
        }
    }
    // the root is function 0
    for (number, callee) in [(0, 0), (6, 1)] {
        for (name, f) in calling(callee) {
            cases.add(number, format!("{name} of function {callee} by the root"), &f.but(|f| f.head[0] = 0));
        }
    }
    // "function ids in a program: 65,534"
    let mut table = vec![0; 65534];
    table[65533] = 1;
    for (number, callee) in [(0, 65533), (6, 65534)] {
        let [(name, f), _] = calling(callee);
        cases.with_table(number, format!("{name} of function {callee}, table of 65534"), &f, &table);
    }
    for (name, f) in calling(65533) {
        cases.add(0, format!("{name} of function 65533 by itself"), &f.but(|f| f.head[0] = 65533));
    }
    // any builtin: 6 is of Call and Tail alone
    cases.add(0, "Sys of builtin 9", &with_instr(SYS).but(|f| f.instrs[0][X] = 9));
    // of a tombstone, and of no block
    let dead = smallest().but(|f| {
        f.value(3, 3);
        f.block(&[]);
        f.instr(CALL, Some(0), &[], [9, 0, 0]);
        f.term(TAIL, &[], &[], [9, 0]);
    });
    cases.add(6, "a block that calls function 9", &dead);
    cases.add(0, "a tombstone that calls function 9", &dead.but(|f| f.blocks[1][TOMBSTONE] = 1));
    cases.add(0, "a Call of no block, of function 9", &smallest().but(|f| f.instrs.push([CALL, 0, 1, 0, 0, 9, 0, 0])));
}
