//! Calls that document 01 refuses, tried on copies of the buffers; every word of every buffer is compared afterwards.
use crate::compare::{Outcome, same};
use crate::need;
use crate::ours::{self, Lent};
use garden::check::judge;
use garden::compile::Compiled;
use garden::model::{Constant, Does, Ends, Function};
use garden::rng::Random;

fn zero<T: Default + Clone>(words: &mut [T], from: u64) {
    if from <= words.len() as u64 {
        words[from as usize..].fill(T::default());
    }
}

/// What a refused call leaves, by document 01.
fn left(before: &Lent) -> Lent {
    let mut b = before.clone();
    let u = b.used;
    zero(&mut b.ops, u.ops);
    zero(&mut b.spans, u.ops);
    zero(&mut b.globals, 2 * u.globals);
    zero(&mut b.builtins, u.builtins);
    zero(&mut b.switches, 3 * u.switches);
    zero(&mut b.targets, u.targets);
    zero(&mut b.lookups, 5 * u.lookups);
    zero(&mut b.values, 2 * u.values);
    zero(&mut b.places, 0);
    zero(&mut b.hints, 0);
    zero(&mut b.noted, 0);
    zero(&mut b.labels, 0);
    b
}

fn all_same(ours: &Lent, theirs: &Lent) -> Outcome {
    same("functions", &ours.functions, &theirs.functions)?;
    same("ops", &ours.ops, &theirs.ops)?;
    same("spans", &ours.spans, &theirs.spans)?;
    same("globals", &ours.globals, &theirs.globals)?;
    same("builtins", &ours.builtins, &theirs.builtins)?;
    same("switch tables", &ours.switches, &theirs.switches)?;
    same("targets", &ours.targets, &theirs.targets)?;
    same("lookup tables", &ours.lookups, &theirs.lookups)?;
    same("values", &ours.values, &theirs.values)?;
    same("places", &ours.places, &theirs.places)?;
    same("hints", &ours.hints, &theirs.hints)?;
    same("noted", &ours.noted, &theirs.noted)?;
    same("labels", &ours.labels, &theirs.labels)?;
    if ours.used == theirs.used { Ok(()) } else { Err(format!("used lengths {:?}, not {:?}", ours.used, theirs.used)) }
}

fn refused(mut lent: Lent, words: &[u32], number: u32, counts: &mut [u64; 10]) -> Outcome {
    let expected = left(&lent);
    let got = lent.compile(words);
    counts[number as usize] += 1;
    if got != number {
        return Err(format!("refused with {got}, not {number}"));
    }
    all_same(&lent, &expected).map_err(|e| format!("after refusal {number}: {e}"))
}

/// The function with something wrong in it, which may yet be right.
fn damage(random: &mut Random, f: &mut Function) {
    let b = random.below(f.blocks.len() as u32) as usize;
    let values = f.values.len() as u32;
    match random.below(12) {
        0 => f.values.iter_mut().for_each(|v| v.hint = Some(64)),
        1 => f.blocks[b].params.extend(vec![0; 200]),
        2 => f.blocks[b].id += 1,
        3 => f.blocks[0].tombstone = true,
        4 => f.blocks[b].params.push(values),
        5 => f.blocks[b].params.push(random.below(values.max(1))),
        6 => f.values.iter_mut().for_each(|v| v.end = v.end.min(1)),
        7 => f.values.iter_mut().for_each(|v| v.start = u32::MAX),
        8 => f.blocks.iter_mut().flat_map(|b| &mut b.instrs).for_each(|i| {
            if let Does::Call { function } = &mut i.does {
                *function = 70_000;
            }
        }),
        9 => f.blocks.iter_mut().flat_map(|b| &mut b.instrs).for_each(|i| {
            if let Does::Lookup { entries, .. } = &mut i.does {
                entries[0].0 = Constant::Double(0);
            }
        }),
        10 => f.blocks.iter_mut().filter_map(|b| b.term.as_mut()).for_each(|t| {
            if let Ends::Switch { keys } = &mut t.ends {
                keys[0] = Constant::Int(i64::MIN);
                *keys.last_mut().unwrap() = Constant::Int(0);
            }
        }),
        _ => f.blocks[b].term = None,
    }
}

/// One buffer a word short of what the function needs, if it needs any.
fn shorten(random: &mut Random, lent: &mut Lent, words: &[u32], done: &Compiled, k: usize) -> bool {
    let (before, after) = (lent.used, need::after(done, done.each[k].1));
    let values = words[3] as u64;
    let cut = |words: u64, floor: u64| (words > floor).then(|| words as usize - 1);
    fn to<T>(buffer: &mut Vec<T>, n: Option<usize>) -> bool {
        n.is_some_and(|n| { let less = n < buffer.len(); buffer.truncate(n); less })
    }
    match random.below(13) {
        0 => to(&mut lent.ops, cut(after.ops, before.ops)),
        1 => to(&mut lent.spans, cut(after.ops, before.ops)),
        2 => to(&mut lent.globals, cut(2 * after.globals, 2 * before.globals)),
        3 => to(&mut lent.builtins, cut(after.builtins, before.builtins)),
        4 => to(&mut lent.switches, cut(3 * after.switches, 3 * before.switches)),
        5 => to(&mut lent.targets, cut(after.targets, before.targets)),
        6 => to(&mut lent.lookups, cut(5 * after.lookups, 5 * before.lookups)),
        7 => to(&mut lent.values, cut(2 * after.values, 2 * before.values)),
        8 => to(&mut lent.places, cut(values, 0)),
        9 => to(&mut lent.hints, cut(values, 0)),
        10 => to(&mut lent.noted, cut(values, 0)),
        11 => to(&mut lent.labels, cut(need::labels(words) as u64, 0)),
        _ => {
            let id = words[0] as usize;
            // a callee past the end would be unknown, which is a lower number
            let calls_past = lent.functions[id + 1..].iter().any(|&f| f != 0);
            !calls_past && to(&mut lent.functions, Some(id))
        }
    }
}

/// One used length past its buffer.
fn overstate(random: &mut Random, lent: &mut Lent) {
    let more = random.one_of(&[1, 2, 70_000, u64::MAX]);
    let past = |words: usize, width: u64| (words as u64 / width).saturating_add(more);
    match random.below(7) {
        0 => lent.used.ops = past(lent.ops.len().min(lent.spans.len()), 1),
        1 => lent.used.globals = past(lent.globals.len(), 2),
        2 => lent.used.builtins = past(lent.builtins.len(), 1),
        3 => lent.used.switches = past(lent.switches.len(), 3),
        4 => lent.used.targets = past(lent.targets.len(), 1),
        5 => lent.used.lookups = past(lent.lookups.len(), 5),
        _ => lent.used.values = past(lent.values.len(), 2),
    }
}

/// Before a function is compiled, now and then: the same function refused, in each way that there is.
pub fn before(random: &mut Random, lent: &Lent, f: &Function, words: &[u32], done: &Compiled, k: usize, counts: &mut [u64; 10]) -> Outcome {
    let fits = done.each[k].0.number == 0;
    match random.below(8) {
        0 => {
            let cut = random.below(words.len() as u32) as usize;
            refused(lent.clone(), &words[..cut], 1, counts)
        }
        1 | 2 => {
            let mut worse = f.clone();
            damage(random, &mut worse);
            let number = judge(&worse, &|id| lent.functions.get(id as usize).is_some_and(|&w| w != 0));
            let words = worse.to_words();
            let ours = ours::judge(&words, &lent.functions);
            if ours != number {
                return Err(format!("judged {ours}, not {number}: {worse:?}"));
            }
            if number == 0 { Ok(()) } else { refused(lent.clone(), &words, number, counts) }
        }
        3 | 4 if fits => {
            let mut less = lent.clone();
            if shorten(random, &mut less, words, done, k) { refused(less, words, 9, counts) } else { Ok(()) }
        }
        5 => {
            let mut over = lent.clone();
            overstate(random, &mut over);
            refused(over, words, 2, counts)
        }
        _ => Ok(()),
    }
}
