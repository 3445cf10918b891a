//! Refusal 1, BadWord: "a word that no record allows, or the input is cut short". Judged of every record, tombstones' too.
use crate::function::*;
use crate::list::Cases;

pub fn cases(cases: &mut Cases) {
    head(cases);
    values(cases);
    instrs(cases);
    terms(cases);
    constants(cases);
}

fn head(cases: &mut Cases) {
    let whole = example_7();
    cases.words(0, "example 7", &whole);
    // "the input is cut short"
    for n in 0..whole.len() {
        cases.words(1, format!("example 7, its first {n} words"), &whole[..n]);
    }
    // the words end with the pool
    cases.words(1, "example 7 and a word more", &[&whole[..], &[0]].concat());
    let with = |word: usize, is: u32| {
        let mut words = whole.clone();
        words[word] = is;
        words
    };
    cases.words(0, "example 7, any span", &with(1, MAX));
    cases.words(0, "example 7, marked unused", &with(2, 1));
    cases.words(1, "example 7, mark 2", &with(2, 2));
    cases.words(1, "example 7, mark 4294967295", &with(2, MAX));
    // counts, and where tables start: each table starts where the one before it ends
    for word in 3..14 {
        cases.words(1, format!("example 7, head word {word} one more"), &with(word, whole[word] + 1));
        cases.words(1, format!("example 7, head word {word} one less"), &with(word, whole[word].wrapping_sub(1)));
    }
    // a word that no table has, in front of each, with the head to match; and a word that two tables share
    for table in 9..14 {
        let mut gap = whole.clone();
        gap.insert(whole[table] as usize, 0);
        gap[table..14].iter_mut().for_each(|start| *start += 1);
        cases.words(1, format!("example 7, a gap in front of the table of head word {table}"), &gap);
        let mut shared = whole.clone();
        shared.remove(whole[table] as usize - 1);
        shared[table..14].iter_mut().for_each(|start| *start -= 1);
        cases.words(1, format!("example 7, a word shared with the table of head word {table}"), &shared);
    }
    // counts whose tables would end at the same word by 32-bit sums
    cases.words(1, "example 7, 2147483649 blocks", &with(4, 1 + (1 << 31)));
    cases.words(1, "example 7, 536870913 instructions", &with(5, 1 + (1 << 29)));
}

fn values(cases: &mut Cases) {
    // "a first hint of 64 or more is BadWord": the word is the register and 1
    let f = with_instr(ASSERT);
    for (number, hint) in [(0, 1), (0, N - 2), (0, 64), (1, 65), (1, MAX)] {
        cases.add(number, format!("a parameter's hint word {hint}"), &f.but(|f| f.values[0][HINT] = hint));
    }
    let unused = smallest().but(|f| f.values.push([0, 0, 0]));
    cases.add(0, "a value that no row has, hint word 64", &unused.but(|f| f.values[0][HINT] = 64));
    cases.add(1, "a value that no row has, hint word 65", &unused.but(|f| f.values[0][HINT] = 65));
}

/// The most that x, y and z may be, and the number of a function where the field is that, by kind of instruction.
const INSTR_MOST: [[(u32, u32); 3]; 13] = [
    [(16, 0), (0, 0), (0, 0)],      // Bin: operators 0 to 16
    [(16, 3), (MAX, 0), (0, 0)],    // BinImm: SEq has no immediate form; any immediate
    [(MAX, 3), (0, 0), (0, 0)],     // LoadConst: no such constant
    [(MAX, 6), (0, 0), (0, 0)],     // Call: no such function
    [(MAX, 0), (0, 0), (0, 0)],     // Sys: any builtin
    [(3, 3), (3, 3), (0, 0)],       // Cast: any other type
    [(255, 0), (MAX, 0), (255, 0)], // Alloc: kind and align are bytes
    [(0, 0), (MAX, 0), (0, 0)],     // Store: any offset
    [(0, 0), (0, 0), (0, 0)],       // Assert
    [(0, 0), (MAX, 0), (0, 0)],     // Load
    [(0, 0), (MAX, 0), (0, 0)],     // AddrOf
    [(MAX, 3), (MAX, 2), (0, 0)],   // Lookup: no such constant; entries
    [(0, 0), (0, 0), (0, 0)],       // Noop
];

fn instrs(cases: &mut Cases) {
    for InstrKind(kind, name, has_dst, operands, _) in INSTR_KINDS {
        let f = with_instr(kind);
        cases.add(0, name, &f);
        // destination: 0 for none, else the value and 1
        let dst = if has_dst { 0 } else { 3 };
        cases.add(1, format!("{name}, destination {dst}"), &f.but(|f| f.instrs[0][DST] = dst));
        // as many operands as the kind has; a Call or Sys has any number
        let any = if kind == CALL || kind == SYS { 0 } else { 1 };
        cases.add(any, format!("{name}, an operand more"), &f.but(|f| f.instrs[0][OPERANDS] = operands + 1));
        if operands > 0 {
            cases.add(any, format!("{name}, an operand less"), &f.but(|f| f.instrs[0][OPERANDS] = operands - 1));
        }
        for (field, (most, number)) in [X, Y, Z].into_iter().zip(INSTR_MOST[kind as usize]) {
            cases.add(number, format!("{name}, field {field} is {most}"), &f.but(|f| f.instrs[0][field] = most));
            if most < MAX {
                cases.add(1, format!("{name}, field {field} is {}", most + 1), &f.but(|f| f.instrs[0][field] = most + 1));
                cases.add(1, format!("{name}, field {field} is {MAX}"), &f.but(|f| f.instrs[0][field] = MAX));
            }
        }
        // a Noop has no span
        let number = if kind == NOOP { 1 } else { 0 };
        cases.add(number, format!("{name}, span 1"), &f.but(|f| f.instrs[0][SPAN] = 1));
    }
    // kinds 0 to 12
    cases.add(1, "instruction kind 13", &with_instr(NOOP).but(|f| f.instrs[0][KIND] = 13));
    cases.add(1, "instruction kind 4294967295", &with_instr(NOOP).but(|f| f.instrs[0][KIND] = MAX));
    // in a tombstone, and in no block
    let dead = with_dead(NOOP);
    cases.add(0, "a tombstone's Noop", &dead);
    cases.add(1, "a tombstone's Noop with a span", &dead.but(|f| f.instrs[0][SPAN] = 1));
    let unused = smallest().but(|f| f.instrs.push([NOOP, 0, 0, 0, 0, 0, 0, 0]));
    cases.add(0, "a Noop of no block", &unused);
    cases.add(1, "a Noop of no block with a span", &unused.but(|f| f.instrs[0][SPAN] = 1));
}

/// A live block 0 that returns, and block 1, a tombstone with one instruction, no operand and no terminator.
fn with_dead(kind: u32) -> Function {
    let mut f = smallest();
    f.block(&[]);
    f.instr(kind, None, &[], [0, 0, 0]);
    f.blocks[1][TOMBSTONE] = 1;
    f
}

/// The most that x, y and the span may be, and the number of a function where the field is that, by kind of terminator from Return on.
const TERM_MOST: [[(u32, u32); 3]; 7] = [
    [(0, 0), (0, 0), (MAX, 0)],    // Return
    [(0, 0), (0, 0), (MAX, 0)],    // Jump
    [(0, 0), (0, 0), (MAX, 0)],    // Branch
    [(16, 3), (MAX, 0), (MAX, 0)], // BranchCmpImm: IEq alone; any immediate
    [(16, 0), (0, 0), (MAX, 0)],   // BranchCmp: SEq
    [(MAX, 6), (0, 0), (MAX, 0)],  // Tail: no such function
    [(MAX, 3), (1, 0), (MAX, 0)],  // Switch: no such constant; one case more has an edge more
];

fn terms(cases: &mut Cases) {
    for TermKind(kind, name, operands, edges, _) in TERM_KINDS {
        let f = with_term(kind);
        cases.add(0, name, &f);
        // a Return has one or none, a Tail any number
        let more = if kind == TAIL { 0 } else { 1 };
        let less = if kind == TAIL || kind == RETURN { 0 } else { 1 };
        cases.add(more, format!("{name}, an operand more"), &f.but(|f| f.blocks[0][TERM_OPERANDS] = operands + 1));
        if operands > 0 {
            cases.add(less, format!("{name}, an operand less"), &f.but(|f| f.blocks[0][TERM_OPERANDS] = operands - 1));
        }
        cases.add(1, format!("{name}, an edge more"), &f.but(|f| f.blocks[0][EDGES] = edges + 1));
        if edges > 0 {
            cases.add(1, format!("{name}, an edge less"), &f.but(|f| f.blocks[0][EDGES] = edges - 1));
        }
        for (field, (most, number)) in [TERM_X, TERM_Y, TERM_SPAN].into_iter().zip(TERM_MOST[kind as usize - 1]) {
            cases.add(number, format!("{name}, field {field} is {most}"), &f.but(|f| f.blocks[0][field] = most));
            if most < MAX {
                cases.add(1, format!("{name}, field {field} is {}", most + 1), &f.but(|f| f.blocks[0][field] = most + 1));
                cases.add(1, format!("{name}, field {field} is {MAX}"), &f.but(|f| f.blocks[0][field] = MAX));
            }
        }
    }
    // "one for each case and one for the default"
    let f = with_term(SWITCH);
    let other = f.but(|f| {
        f.blocks[0][TERM_Y] = 2;
        f.blocks[0][EDGES] = 3;
        f.constant(INT, 1);
    });
    cases.add(0, "Switch, two cases and three edges", &other);
    let other = f.but(|f| {
        f.blocks[0][TERM_Y] = MAX;
        f.blocks[0][EDGES] = 0;
    });
    cases.add(1, "Switch, 4294967295 cases and no edge", &other);
    no_term(cases);
    // kinds 0 to 7
    cases.add(1, "terminator kind 8", &smallest().but(|f| f.blocks[0][TERM] = 8));
    cases.add(1, "terminator kind 4294967295", &smallest().but(|f| f.blocks[0][TERM] = MAX));
    // a tombstone mark is 0 or 1
    let dead = with_dead(NOOP);
    cases.add(1, "a block's mark 2", &dead.but(|f| f.blocks[1][TOMBSTONE] = 2));
    cases.add(1, "a block's mark 4294967295", &dead.but(|f| f.blocks[1][TOMBSTONE] = MAX));
    // in a tombstone
    cases.add(1, "a tombstone's terminator kind 8", &dead.but(|f| f.blocks[1][TERM] = 8));
    cases.add(1, "a tombstone's span without a terminator", &dead.but(|f| f.blocks[1][TERM_SPAN] = 1));
}

/// Kind 0, no terminator, in the root's only block.
fn no_term(cases: &mut Cases) {
    let mut f = Function::new(0);
    let v = f.value(0, 1);
    f.block(&[v]);
    f.edges.push([0, 0, 1]);
    cases.add(0, "no terminator", &f);
    for (name, field) in [("operand", TERM_OPERANDS), ("edge", EDGES), ("x", TERM_X), ("y", TERM_Y), ("span", TERM_SPAN)] {
        cases.add(1, format!("no terminator, {name} 1"), &f.but(|f| f.blocks[0][field] = 1));
    }
}

fn constants(cases: &mut Cases) {
    for (kind, name) in [(UNDEFINED, "Undefined"), (FALSE, "False"), (TRUE, "True"), (INT, "Int"), (DOUBLE, "Double"), (STR, "Str")] {
        let f = with_instr(LOAD_CONST).but(|f| f.constants[0][CONST_KIND] = kind);
        cases.add(0, name, &f);
        // "the others have none": Undefined, False and True
        let number = if kind < INT { 1 } else { 0 };
        for field in [LOW, HIGH] {
            cases.add(number, format!("{name}, payload word {field} is 1"), &f.but(|f| f.constants[0][field] = 1));
        }
    }
    let f = with_instr(LOAD_CONST);
    cases.add(1, "constant kind 6", &f.but(|f| f.constants[0][CONST_KIND] = 6));
    cases.add(1, "constant kind 4294967295", &f.but(|f| f.constants[0][CONST_KIND] = MAX));
    cases.add(1, "constant kind 6, which no row has", &f.but(|f| f.constants[2][CONST_KIND] = 6));
}
