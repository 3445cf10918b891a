//! Refusal 7, BadKey, over the live blocks: "a key not Int, or largest minus smallest key above 4,095".
use crate::function::*;
use crate::list::Cases;

/// A Switch and a Lookup with these keys; the Lookup's values and default are of kind `other`.
fn keyed(keys: &[(u32, i64)], other: u32) -> [(&'static str, Function); 2] {
    let count = keys.len() as u32;
    let switch = with_term(SWITCH).but(|f| {
        f.constants.clear();
        keys.iter().for_each(|&(kind, key)| _ = f.constant(kind, key));
        f.blocks[0][TERM_Y] = count;
        f.blocks[0][EDGES] = count + 1;
        f.edges = vec![[1, 0, 0]; count as usize + 1];
    });
    let lookup = with_instr(LOOKUP).but(|f| {
        f.constants.clear();
        for &(kind, key) in keys {
            f.constant(kind, key);
            f.constant(other, 0);
        }
        f.constant(other, 0);
        f.instrs[0][Y] = count;
    });
    [("Switch", switch), ("Lookup", lookup)]
}

pub fn cases(cases: &mut Cases) {
    // "a key not Int"
    for (kind, what) in [(UNDEFINED, "Undefined"), (FALSE, "False"), (TRUE, "True"), (INT, "Int"), (DOUBLE, "Double"), (STR, "Str")] {
        let number = if kind == INT { 0 } else { 7 };
        for (name, f) in keyed(&[(kind, 0)], INT) {
            cases.add(number, format!("{name} on a key {what}"), &f);
        }
        for (name, f) in keyed(&[(INT, 0), (kind, 0)], INT) {
            cases.add(number, format!("{name}, the second key {what}"), &f);
        }
        // a Lookup's values and default are any
        let [_, (name, f)] = keyed(&[(INT, 0), (INT, 1)], kind);
        cases.add(0, format!("{name}, values and default {what}"), &f);
    }
    // "largest minus smallest key above 4,095"
    for (number, keys) in [
        (0, &[5][..]),
        (0, &[i64::MIN]),
        (0, &[i64::MAX]),
        (0, &[7, 7]), // a later equal key wins
        (0, &[0, 4095]),
        (7, &[0, 4096]),
        (0, &[4095, 0]),
        (7, &[4096, 0]),
        (0, &[-1, 4094]),
        (7, &[-1, 4095]),
        (0, &[-4095, 0]),
        (7, &[-4096, 0]),
        (0, &[-5000, -905]),
        (7, &[-5000, -904]),
        (0, &[-2000, 2095]),
        (7, &[-2000, 2096]),
        (0, &[i64::MIN, i64::MIN + 4095]),
        (7, &[i64::MIN, i64::MIN + 4096]),
        (0, &[i64::MAX, i64::MAX - 4095]),
        (7, &[i64::MAX, i64::MAX - 4096]),
        (7, &[i64::MIN, i64::MAX]), // the difference passes 63 bits
        (7, &[i64::MAX, i64::MIN]),
        (7, &[i64::MIN, 0]),
        (7, &[-1, i64::MAX]),
        (0, &[0xFFFF_F001, 0x1_0000_0000]), // across 32 bits
        (7, &[0xFFFF_F000, 0x1_0000_0000]),
        (7, &[0, 1 << 32]),
        // the largest and the smallest of all, in any order
        (0, &[100, 0, 4095, 50]),
        (7, &[100, 0, 4096, 50]),
        (7, &[2000, 4096, 3000, 0]),
        (7, &[-1, 4095, 0, 4094]),
    ] {
        let keys: Vec<(u32, i64)> = keys.iter().map(|&k| (INT, k)).collect();
        for (name, f) in keyed(&keys, INT) {
            let keys: Vec<i64> = keys.iter().map(|&(_, k)| k).collect();
            cases.add(number, format!("{name} on keys {keys:?}"), &f);
        }
    }
    // a Lookup's values and default count for nothing
    let [_, (name, f)] = keyed(&[(INT, 0), (INT, 4095)], INT);
    let other = f.but(|f| {
        f.constants[1] = [INT, 0, 1];
        f.constants[3] = [INT, 0, MAX];
        f.constants[4] = [INT, 9999, 0];
    });
    cases.add(0, format!("{name} on keys 0 and 4095, values far off"), &other);
    slots(cases);
    dead(cases);
}

/// "cases or entries: 1,024" with keys up to the last slot of a table: 0, 4, .., 4092 and 4095 or 4096 for the last.
fn slots(cases: &mut Cases) {
    for (number, last) in [(0, 4095), (7, 4096)] {
        let keys: Vec<(u32, i64)> = (0..1023).map(|k| (INT, 4 * k)).chain([(INT, last)]).collect();
        for (name, f) in keyed(&keys, INT) {
            cases.add(number, format!("{name} on 1024 keys from 0 to {last}"), &f);
        }
    }
}

/// Of a tombstone, and of no block.
fn dead(cases: &mut Cases) {
    // block 1: v0 is its parameter, row 2; a Lookup, row 3, and a Switch, row 4
    for i in [0, 3] {
        let mut f = smallest();
        let (v, w) = (f.value(2, 4), f.value(3, 3));
        (0..4).for_each(|_| _ = f.constant(INT, 0));
        f.block(&[v]);
        f.instr(LOOKUP, Some(w), &[v], [0, 1, 0]);
        f.term(SWITCH, &[v], &[(0, &[]), (0, &[])], [3, 1]);
        cases.add(0, format!("a block with keys, constant {i} Int"), &f);
        f.constants[i][CONST_KIND] = STR;
        cases.add(7, format!("a block with keys, constant {i} Str"), &f);
        f.blocks[1][TOMBSTONE] = 1;
        cases.add(0, format!("a tombstone with keys, constant {i} Str"), &f);
    }
    let other = smallest().but(|f| {
        f.instrs.push([LOOKUP, 0, 1, 0, 1, 0, 1, 0]);
        f.constant(STR, 0);
    });
    cases.add(0, "a Lookup of no block on a key Str", &other);
}
