//! Functions in our words with the number that document 01 gives each, written here by hand, clause by clause: `cases write FILE` writes them as
//! u32 words, least byte first, and prints what a program that replays them has to print: it judges each, and calls the compiler with each, once
//! with used lengths that fit and once with each used length one too many. `cases name INDEX` names one,
//! `cases repeat NAME COUNT FILE` writes one many times.
//!
//! File: the number of cases; each: its number, how many words the function table has, each of these, low half first, how many words the
//! function has, and these.

mod callees;
mod counts;
mod forms;
mod function;
mod intervals;
mod keys;
mod list;
mod shape;
mod together;

use list::Cases;

/// Those of ops, globals, builtins, switches, their slots, lookups, their pairs.
const USED_LENGTHS: usize = 7;

fn write(path: &str, words: &[u32]) {
    let bytes: Vec<u8> = words.iter().flat_map(|w| w.to_le_bytes()).collect();
    std::fs::write(path, bytes).unwrap();
}

fn main() {
    let mut cases = Cases::default();
    forms::cases(&mut cases);
    counts::cases(&mut cases);
    shape::cases(&mut cases);
    intervals::cases(&mut cases);
    callees::cases(&mut cases);
    keys::cases(&mut cases);
    together::cases(&mut cases);

    let args: Vec<String> = std::env::args().collect();
    match args.iter().map(String::as_str).collect::<Vec<_>>()[..] {
        [_, "write", file] => {
            write(file, &cases.file());
            let n = cases.0.len();
            println!("{n} cases, 0 differ");
            println!("{n} calls of the compiler and {} with a used length too many, 0 differ", USED_LENGTHS * n);
        }
        [_, "name", index] => {
            let case = &cases.0[index.parse::<usize>().unwrap()];
            println!("{} {}", case.number, case.name);
        }
        [_, "repeat", name, count, file] => {
            counts::slow(&mut cases);
            write(file, &cases.repeated(name, count.parse().unwrap()));
        }
        _ => panic!("usage: cases write FILE | name INDEX | repeat NAME COUNT FILE"),
    }
}
