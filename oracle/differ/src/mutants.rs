//! Faults put into what we emit, on a copy: each has to be caught, by comparison, and those that change what the ops do by execution too.
use crate::compare;
use crate::execute;
use crate::ours::Lent;
use garden::REGISTER_COUNT;
use garden::compile::{Compiled, compile};
use garden::model::Program;
use garden::random::{Style, program};
use garden::rng::Random;

/// A change of the buffers that compiling left, if there is something to change.
type Mutant = fn(&mut Lent) -> bool;

fn code(w: u64) -> u64 {
    w & 255
}

fn field(w: u64, k: u32) -> u64 {
    w >> (8 * k) & 255
}

fn with_field(w: u64, k: u32, x: u64) -> u64 {
    w & !(255 << (8 * k)) | x << (8 * k)
}

/// The ops of the program.
fn ops(lent: &mut Lent) -> &mut [u64] {
    let n = lent.used.ops as usize;
    &mut lent.ops[..n]
}

/// The first op, and the one behind it, that are such.
fn first(lent: &mut Lent, such: impl Fn(u64, u64) -> bool) -> Option<usize> {
    let ops = ops(lent);
    (0..ops.len().saturating_sub(1)).find(|&k| such(ops[k], ops[k + 1]))
}

fn at(lent: &mut Lent, such: impl Fn(u64, u64) -> bool, change: impl Fn(u64) -> u64) -> bool {
    first(lent, such).map(|k| ops(lent)[k] = change(ops(lent)[k])).is_some()
}

/// The first move of a list parks its source in SCRATCH: here the next move comes before it, so the parked value is lost.
fn parked_late(lent: &mut Lent) -> bool {
    let scratch = REGISTER_COUNT as u64 - 1;
    let found = first(lent, |a, b| code(a) == 2 && field(a, 1) == scratch && code(b) == 2 && field(b, 1) == field(a, 2));
    found.map(|k| ops(lent).swap(k, k + 1)).is_some()
}

/// A move takes the value that its neighbour should.
fn wrong_source(lent: &mut Lent) -> bool {
    at(lent, |a, b| code(a) == 2 && code(b) == 2 && field(a, 2) != field(b, 2), |w| with_field(w, 2, field(w, 2) ^ 1))
}

fn jump_past(lent: &mut Lent) -> bool {
    at(lent, |a, _| code(a) == 5, |w| w + (1 << 32))
}

fn pops_turned(lent: &mut Lent) -> bool {
    at(lent, |a, _| code(a) == 22 && field(a, 1) != field(a, 2), |w| with_field(with_field(w, 1, field(w, 2)), 2, field(w, 1)))
}

fn slot_off_by_one(lent: &mut Lent) -> bool {
    at(lent, |a, _| code(a) == 25, |w| w + (1 << 32))
}

fn result_left_behind(lent: &mut Lent) -> bool {
    let call = first(lent, |a, b| (15..=17).contains(&code(a)) && code(b) == 2 && field(b, 1) != 0);
    call.map(|k| ops(lent)[k + 1] = 0).is_some()
}

fn case_to_its_neighbour(lent: &mut Lent) -> bool {
    let slots = &mut lent.targets[..lent.used.targets as usize];
    (1..slots.len()).find(|&k| slots[k] != slots[k - 1]).map(|k| slots[k] = slots[k - 1]).is_some()
}

fn wrong_span(lent: &mut Lent) -> bool {
    let n = lent.used.ops as usize;
    lent.spans[..n].last_mut().map(|s| *s ^= 1).is_some()
}

fn two_in_one_place(lent: &mut Lent) -> bool {
    let places = &mut lent.places;
    (1..places.len()).find(|&v| places[v] != 0 && places[v - 1] != 0 && places[v] != places[v - 1]).map(|v| places[v] = places[v - 1]).is_some()
}

fn work_room_left(lent: &mut Lent) -> bool {
    lent.noted.first_mut().map(|x| *x = 1).is_some()
}

/// Each by name, and whether it changes what the ops do.
const MUTANTS: [(&str, Mutant, bool); 10] = [
    ("a source is parked too late", parked_late, true),
    ("a move takes another register", wrong_source, true),
    ("a jump goes one op too far", jump_past, true),
    ("two pops come in the order of the pushes", pops_turned, true),
    ("a slot is read beside its place", slot_off_by_one, true),
    ("a result stays in register 0", result_left_behind, true),
    ("a case goes where its neighbour goes", case_to_its_neighbour, true),
    ("an op has another span", wrong_span, false),
    ("two values get one place", two_in_one_place, false),
    ("work room is not zeroed", work_room_left, false),
];

fn runs_wrong(random: &mut Random, program: &Program, done: &Compiled, lent: &Lent) -> bool {
    let code = compare::code_of(lent);
    program.functions.iter().zip(&done.each).any(|(f, (placed, _))| {
        (0..5).any(|_| execute::function(f, placed, &code, random).is_err())
    })
}

/// How often each was put in and caught; the last line is 'N passed, 0 failed'.
pub fn run(programs: u64) {
    let (mut passed, mut failed) = (0, 0);
    for (name, mutant, acts) in MUTANTS {
        let (mut made, mut compared, mut executed) = (0, 0, 0);
        for k in 0..programs {
            let random = &mut Random::numbered(77, k);
            let style = |random: &mut Random| Style { wild: false, loops: true, kept: random.one_of(&[0, 10, 40]), ..Style::any(random) };
            let mut program = program(random, 1, &mut { style });
            program.functions.truncate(1);
            let done = compile(&program);
            if program.functions.is_empty() || program.functions[0].unused || done.each[0].0.number != 0 {
                continue;
            }
            let words: Vec<Vec<u32>> = program.functions.iter().map(|f| f.to_words()).collect();
            let mut lent = compare::lent(&program, &words, &done).expect("compiled");
            if !mutant(&mut lent) {
                continue;
            }
            made += 1;
            compared += compare::all_is(&lent, &words, &done).is_err() as u32;
            executed += (acts && runs_wrong(random, &program, &done, &lent)) as u32;
        }
        let caught = made > 0 && compared == made && (!acts || executed > 0);
        let how = if acts { format!(", {executed} by execution") } else { String::new() };
        println!("{name}: put in {made} times, caught {compared} times by comparison{how}");
        if caught { passed += 1 } else { failed += 1 }
    }
    println!("{passed} passed, {failed} failed");
    std::process::exit((failed > 0) as i32);
}
