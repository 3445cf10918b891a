//! Refusals 4, DoubleDef, and 5, BadInterval, over the live blocks: document 01's "Rows".
use crate::function::*;
use crate::list::Cases;

pub fn cases(cases: &mut Cases) {
    defined_twice(cases);
    definitions(cases);
    uses(cases);
    arguments(cases);
    numbering(cases);
}

/// 4: "a value defined twice". The values' intervals suit every row, so that nothing else is wrong.
fn defined_twice(cases: &mut Cases) {
    // block 0: v0 and v1 are parameters, v2 and v3 are made; block 1: v4 is a parameter, v5 is made
    let mut f = Function::new(1);
    f.values(6, 0, 100);
    f.block(&[0, 1]);
    f.instr(ALLOC, Some(2), &[], [0, 0, 0]);
    f.instr(ALLOC, Some(3), &[], [0, 0, 0]);
    f.jump(1, &[2]);
    f.block(&[4]);
    f.instr(ALLOC, Some(5), &[], [0, 0, 0]);
    f.returns();
    cases.add(0, "every value defined once", &f);
    let param = f.blocks[1][PARAMS_AT] as usize;
    cases.add(4, "a parameter twice in a list", &f.but(|f| f.pool[1] = 0));
    cases.add(4, "a parameter and an instruction", &f.but(|f| f.instrs[0][DST] = 1));
    cases.add(4, "two instructions", &f.but(|f| f.instrs[1][DST] = 3));
    cases.add(4, "an instruction and a later block's parameter", &f.but(|f| f.pool[param] = 3));
    cases.add(4, "a parameter and a later block's parameter", &f.but(|f| f.pool[param] = 0));
    cases.add(4, "a parameter and a later block's instruction", &f.but(|f| f.instrs[2][DST] = 1));
    cases.add(4, "a block's parameter and its own instruction", &f.but(|f| f.instrs[2][DST] = 5));
    // one record of two blocks is two rows
    let shared = f.but(|f| f.blocks[1][FIRST] = 0);
    cases.add(4, "an instruction of two blocks", &shared);
    let shared = f.but(|f| f.blocks[1][PARAMS_AT] = 0);
    cases.add(4, "a list of parameters of two blocks", &shared);
    // of a tombstone nothing is defined
    let dead = f.but(|f| {
        f.block(&[0]);
        f.instr(ALLOC, Some(2), &[], [0, 0, 0]);
        f.returns();
    });
    cases.add(4, "what a third block defines again", &dead);
    cases.add(0, "what a tombstone defines again", &dead.but(|f| f.blocks[2][TOMBSTONE] = 1));
    // a record that no block has defines nothing
    cases.add(0, "what an instruction of no block defines again", &f.but(|f| f.instrs.push([ALLOC, 0, 1, 0, 0, 0, 0, 0])));
}

/// 5: "Each defined value needs start not 4,294,967,295, start at most end, and start < end exactly when row < end."
fn definitions(cases: &mut Cases) {
    // a parameter of block 0 is defined at row 0
    for (number, start, end) in [
        (0, 0, 0),
        (0, 0, 1),
        (0, 0, MAX),
        (0, MAX - 1, MAX),
        (5, MAX, MAX), // start is 4,294,967,295; then start = end and row < end as well
        (5, MAX, 0),   // and with it start above end
        (5, 1, 0),     // start above end alone: neither start < end nor row < end
        (5, MAX - 1, 0),
        (5, 1, 1), // row < end, and not start < end
        (5, MAX - 1, MAX - 1),
        (0, 1, 2), // the start is not the row
    ] {
        let mut f = Function::new(1);
        let v = f.value(start, end);
        f.block(&[v]);
        f.returns();
        cases.add(number, format!("a parameter at row 0, ({start},{end})"), &f);
    }
    // the same of a value that no row defines
    for (start, end) in [(MAX, MAX), (1, 0), (1, 1)] {
        let f = smallest().but(|f| _ = f.value(start, end));
        cases.add(0, format!("no definition, ({start},{end})"), &f);
    }
    // an instruction's destination at row 1, and at row 2 behind a Noop
    for (number, row, start, end) in [
        (0, 1, 0, 0),
        (5, 1, 0, 1), // start < end, and not row < end
        (0, 1, 0, 2),
        (0, 1, 1, 1),
        (0, 1, 1, 2),
        (5, 1, 2, 1),
        (5, 1, 2, 2),
        (0, 1, 2, 3),
        (5, 1, MAX, MAX),
        (0, 2, 1, 1),
        (5, 2, 1, 2),
        (0, 2, 1, 3),
        (0, 2, 2, 2),
        (5, 2, 3, 3),
    ] {
        let mut f = Function::new(1);
        let v = f.value(start, end);
        f.block(&[]);
        (1..row).for_each(|_| f.instr(NOOP, None, &[], [0, 0, 0]));
        f.instr(ALLOC, Some(v), &[], [0, 0, 0]);
        f.returns();
        cases.add(number, format!("an Alloc at row {row}, ({start},{end})"), &f);
    }
    // a parameter of block 1, at row 2
    for (number, start, end) in [(0, 2, 2), (0, 2, 3), (5, 1, 2), (5, 3, 3), (5, 3, 2), (0, 0, 0)] {
        let mut f = Function::new(1);
        let v = f.value(start, end);
        f.block(&[]);
        f.returns();
        f.block(&[v]);
        f.returns();
        cases.add(number, format!("a parameter at row 2, ({start},{end})"), &f);
        cases.add(0, format!("a tombstone's parameter, ({start},{end})"), &f.but(|f| f.blocks[1][TOMBSTONE] = 1));
    }
}

/// 5: "A use needs the defining row earlier and end at or after the using row."
fn uses(cases: &mut Cases) {
    // every operand of every instruction, used at row 1: v0, whose row is 0; v2, whose row is 1; v3, which no row defines
    for InstrKind(kind, name, has_dst, operands, _) in INSTR_KINDS {
        for i in 0..operands as usize {
            let f = with_instr(kind).but(|f| {
                f.values[2] = [1, 100, 0];
                f.value(0, 100);
                f.pool[2..2 + operands as usize].fill(1);
                f.pool[2 + i] = 0;
            });
            cases.add(0, format!("{name}, operand {i} ends at its row"), &f);
            cases.add(5, format!("{name}, operand {i} ends before its row"), &f.but(|f| f.values[0] = [0, 0, 0]));
            cases.add(5, format!("{name}, operand {i} has no definition"), &f.but(|f| f.pool[2 + i] = 3));
            if has_dst {
                cases.add(5, format!("{name}, operand {i} is defined at its row"), &f.but(|f| f.pool[2 + i] = 2));
            }
        }
    }
    // every operand of every terminator, used at row 1: v0, whose row is 0; v2, whose row is 4; v3, which no row defines
    for TermKind(kind, name, operands, _, _) in TERM_KINDS {
        for i in 0..operands as usize {
            let f = with_term(kind).but(|f| {
                let later = f.value(4, 100);
                f.value(0, 100);
                f.block(&[later]);
                f.returns();
                f.pool[2..2 + operands as usize].fill(1);
                f.pool[2 + i] = 0;
            });
            cases.add(0, format!("{name}, operand {i} ends at its row"), &f);
            cases.add(5, format!("{name}, operand {i} ends before its row"), &f.but(|f| f.values[0] = [0, 0, 0]));
            cases.add(5, format!("{name}, operand {i} has no definition"), &f.but(|f| f.pool[2 + i] = 3));
            cases.add(5, format!("{name}, operand {i} is defined later"), &f.but(|f| f.pool[2 + i] = 2));
        }
    }
    before(cases);
}

/// Rows that follow each other: the definition at row 1, the use at row 2, and the other way round.
fn before(cases: &mut Cases) {
    let mut f = Function::new(1);
    let (v, w) = (f.value(1, 2), f.value(2, 2));
    f.block(&[]);
    f.instr(ALLOC, Some(v), &[], [0, 0, 0]);
    f.instr(ASSERT, Some(w), &[v], [0, 0, 0]);
    f.returns();
    cases.add(0, "made at row 1, used at row 2", &f);
    cases.add(5, "made at row 1, ends there, used at row 2", &f.but(|f| f.values[0] = [1, 1, 0]));
    let other = f.but(|f| {
        f.instrs.swap(0, 1);
        f.values[0] = [1, 100, 0];
        f.values[1] = [1, 1, 0];
    });
    cases.add(5, "used at row 1, made at row 2", &other);
    // of the live blocks' rows, whatever the edges: block 2 makes, block 1 uses
    let blocks = |maker: u32, user: u32| {
        let mut f = Function::new(1);
        let (v, w) = (f.value(0, 100), f.value(0, 100));
        for b in 0..3 {
            f.block(&[]);
            if b == maker {
                f.instr(ALLOC, Some(v), &[], [0, 0, 0]);
            }
            if b == user {
                f.instr(ASSERT, Some(w), &[v], [0, 0, 0]);
            }
            f.returns();
        }
        f
    };
    cases.add(0, "made in block 1, used in block 2", &blocks(1, 2));
    cases.add(5, "made in block 2, used in block 1", &blocks(2, 1));
    cases.add(5, "made in a tombstone, used in block 2", &blocks(1, 2).but(|f| f.blocks[1][TOMBSTONE] = 1));
    cases.add(0, "made in a tombstone, used in it", &blocks(2, 2).but(|f| f.blocks[2][TOMBSTONE] = 1));
    cases.add(0, "made in block 2, used in a tombstone", &blocks(2, 1).but(|f| f.blocks[1][TOMBSTONE] = 1));
    // an end far off is after every row
    cases.add(0, "used at row 1, end 4294967295", &with_instr(ASSERT).but(|f| f.values[0] = [0, MAX, 0]));
}

/// 5: an edge's arguments are used at the terminator's row. "An argument for an unread parameter (start = end) is exempt."
fn arguments(cases: &mut Cases) {
    for TermKind(kind, name, _, edges, _) in TERM_KINDS {
        for e in 0..edges as usize {
            // edge e goes to block 2 with v0 (0,1) for its parameter v2, defined at row 4; v3 has no definition. The edge's row is 1
            let f = with_term(kind).but(|f| {
                let param = f.value(4, 5);
                f.value(0, 100);
                let id = f.block(&[param]);
                f.returns();
                let at = f.pool.len() as u32;
                f.pool.push(0);
                f.edges[e] = [id, at, 1];
            });
            let last = f.pool.len() - 1;
            let unread = |f: &mut Function| f.values[2] = [4, 4, 0];
            cases.add(0, format!("{name}, edge {e}, argument ends at its row"), &f);
            // v0 ends at row 0; where it is an operand too, v1 takes that place
            let ended = f.but(|f| {
                f.values[0] = [0, 0, 0];
                let operands = f.blocks[0][TERM_OPERANDS] as usize;
                f.pool[2..2 + operands].fill(1);
            });
            cases.add(5, format!("{name}, edge {e}, argument ends before its row"), &ended);
            cases.add(0, format!("{name}, edge {e}, argument for an unread parameter ends before its row"), &ended.but(unread));
            let missing = f.but(|f| f.pool[last] = 3);
            cases.add(5, format!("{name}, edge {e}, argument has no definition"), &missing);
            cases.add(0, format!("{name}, edge {e}, argument for an unread parameter has no definition"), &missing.but(unread));
            // the parameter itself, which is defined later
            let own = f.but(|f| f.pool[last] = 2);
            cases.add(5, format!("{name}, edge {e}, argument is defined later"), &own);
            cases.add(0, format!("{name}, edge {e}, argument for an unread parameter is defined later"), &own.but(unread));
        }
    }
    second(cases);
    back(cases);
}

/// Two arguments, of which one alone is exempt.
fn second(cases: &mut Cases) {
    let mut f = Function::new(1);
    let params = f.values(2, 2, 3);
    let none = f.value(0, 100);
    f.block(&[]);
    f.jump(1, &[none, none]);
    f.block(&params);
    f.returns();
    cases.add(5, "two arguments without a definition", &f);
    for i in 0..2 {
        cases.add(5, format!("and parameter {i} is unread"), &f.but(|f| f.values[i] = [2, 2, 0]));
    }
    cases.add(0, "and both are", &f.but(|f| f.values[..2].fill([2, 2, 0])));
}

/// Back to an earlier block: the argument's row is earlier than the edge's, the parameter's too.
fn back(cases: &mut Cases) {
    // block 0: row 0, jump at 1; block 1: v0 at row 2, v1 made at row 3, jump back at row 4
    let mut f = Function::new(1);
    let (v0, v1) = (f.value(2, 3), f.value(3, 4));
    let first = f.value(0, 1);
    f.block(&[first]);
    f.jump(1, &[first]);
    f.block(&[v0]);
    f.instr(ASSERT, Some(v1), &[v0], [0, 0, 0]);
    f.jump(1, &[v1]);
    cases.add(0, "back with what the block made", &f);
    cases.add(5, "back with what ended before", &f.but(|f| f.values[1] = [3, 3, 0]));
    let last = f.pool.len() - 1;
    let own = f.but(|f| f.pool[last] = v0);
    cases.add(5, "back with its own parameter, which ended", &own);
    cases.add(0, "back with its own parameter", &own.but(|f| f.values[0] = [2, 4, 0]));
}

/// "Live blocks in order take one row for parameters, one per instruction, one for the terminator."
fn numbering(cases: &mut Cases) {
    // block 0 has rows 0 to 3, block 1, a tombstone, none, block 2 rows 4 to 6
    let f = |start: u32, end: u32| {
        let mut f = Function::new(1);
        let v = f.value(start, end);
        f.block(&[]);
        f.instr(NOOP, None, &[], [0, 0, 0]);
        f.instr(NOOP, None, &[], [0, 0, 0]);
        f.returns();
        f.block(&[]);
        f.instr(NOOP, None, &[], [0, 0, 0]);
        f.returns();
        f.blocks[1][TOMBSTONE] = 1;
        f.block(&[]);
        f.instr(ALLOC, Some(v), &[], [0, 0, 0]);
        f.term(RETURN, &[v], &[], [0, 0]);
        f
    };
    // made at row 5, used at row 6
    for (number, start, end) in [(0, 5, 6), (0, 4, 6), (0, 5, 7), (5, 5, 5), (5, 4, 5), (5, 6, 6), (5, 7, 6)] {
        cases.add(number, format!("made at row 5, used at row 6, ({start},{end})"), &f(start, end));
    }
    let live = f(8, 9).but(|f| f.blocks[1][TOMBSTONE] = 0);
    // with block 1 alive it is rows 8 and 9
    cases.add(0, "made at row 8, used at row 9, (8,9)", &live);
    cases.add(5, "made at row 8, used at row 9, (8,8)", &live.but(|f| f.values[0] = [8, 8, 0]));
}
