//! "Several at once: the lowest number wins, judged over the whole function." Seven places, each of which is wrong by one number or right, in two
//! orders: every set of them.
use crate::function::*;
use crate::list::Cases;

/// The place that is wrong by `number` if it is to be, as the next block. `p` is block 0's parameter, which lasts.
fn place(f: &mut Function, number: u32, wrong: bool, p: u32) {
    let block = if f.blocks.is_empty() { f.block(&[p]) } else { f.block(&[]) };
    let row = f.row();
    match number {
        // a Noop has no span
        1 => {
            f.instr(NOOP, None, &[], [0, 0, 0]);
            f.instrs.last_mut().unwrap()[SPAN] = wrong as u32;
        }
        // entries: at least one
        2 => lookup(f, row, p, INT, !wrong as u32),
        // BinImm IEq, or DAdd, which has no immediate form
        3 => {
            let dst = f.value(row, row);
            f.instr(BIN_IMM, Some(dst), &[p], [if wrong { 9 } else { 8 }, 0, 0]);
        }
        // two values, or one twice
        4 => {
            let (one, other) = (f.value(0, 1000), f.value(0, 1000));
            f.instr(ALLOC, Some(one), &[], [0, 0, 0]);
            f.instr(ALLOC, Some(if wrong { one } else { other }), &[], [0, 0, 0]);
        }
        // used at the row where it ends, or a row later
        5 => {
            let (v, dst) = (f.value(row, if wrong { row } else { row + 1 }), f.value(row + 1, row + 1));
            f.instr(ALLOC, Some(v), &[], [0, 0, 0]);
            f.instr(ASSERT, Some(dst), &[v], [0, 0, 0]);
        }
        // itself, or a function that is not in the table
        6 => {
            let dst = f.value(row, row);
            f.instr(CALL, Some(dst), &[p], [if wrong { 9 } else { 1 }, 0, 0]);
        }
        // a key that is Int or Double
        _ => lookup(f, row, p, if wrong { DOUBLE } else { INT }, 1),
    }
    if block < 6 { f.jump(block + 1, &[]) } else { f.returns() }
}

fn lookup(f: &mut Function, row: u32, subject: u32, kind: u32, entries: u32) {
    let dst = f.value(row, row);
    let first = f.constant(kind, 0);
    (0..2).for_each(|_| _ = f.constant(INT, 0));
    f.instr(LOOKUP, Some(dst), &[subject], [first, entries, 0]);
}

pub fn cases(cases: &mut Cases) {
    for order in [[1, 2, 3, 4, 5, 6, 7], [7, 6, 5, 4, 3, 2, 1]] {
        for set in 0..128u32 {
            let wrong: Vec<u32> = (1..=7).filter(|n| set >> (n - 1) & 1 == 1).collect();
            let mut f = Function::new(1);
            let p = f.value(0, 1000);
            for number in order {
                place(&mut f, number, wrong.contains(&number), p);
            }
            cases.add(wrong.first().copied().unwrap_or(0), format!("wrong by {wrong:?}, places in order {order:?}"), &f);
        }
    }
}
