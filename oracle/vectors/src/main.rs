//! Writes test vectors whose answers are the Rust's own: `vectors KIND FILE`, and on standard output what a program that replays them has to
//! print. The files are lists of u32, least byte first; the format of each stands at the top of its source file.
//!
//! `vectors count N` compiles N random programs and says what was in them. `vectors compacted OPS COUNT FILE` writes a program to compact many
//! times over, to time it, and `vectors refused OPS COUNT FILE` one that is refused at once.
//!
//! `vectors plain FILE` reads a program's file and prints what `agnc plain FILE` has to print; `vectors sample FILE` writes such a file, and
//! `vectors random K FILE` the K-th of random ones.
mod alloc;
mod compact;
mod compile;
mod count;
mod hand;
mod moves;
mod places;
mod plain;

fn main() {
    let args: Vec<String> = std::env::args().collect();
    let number = |n: &str| n.parse::<usize>().expect("a number");
    let (words, summary) = match args.iter().map(String::as_str).collect::<Vec<_>>()[..] {
        [_, "alloc", _] => alloc::vectors(),
        [_, "moves", _] => moves::vectors(),
        [_, "places", _] => places::vectors(),
        [_, "compact", _] => compact::vectors(),
        [_, "compile", _] => compile::vectors(),
        [_, "compacted", ops, n, _] => compact::repeat(number(ops), number(n), false),
        [_, "refused", ops, n, _] => compact::repeat(number(ops), number(n), true),
        [_, "sample", _] => (plain::sample(), "a sample".into()),
        [_, "random", k, _] => (plain::words(number(k) as u64), format!("program {k}")),
        [_, "plain", file] => return print!("{}", plain::plain(file).unwrap_or_else(|what| panic!("{what}"))),
        [_, "count", n] => return count::print(number(n) as u64),
        _ => panic!(
            "usage: vectors alloc|moves|places|compact|compile|sample|plain FILE, vectors compacted|refused OPS COUNT FILE, vectors count N, vectors random K FILE"
        ),
    };
    let bytes: Vec<u8> = words.iter().flat_map(|w| w.to_le_bytes()).collect();
    std::fs::write(args.last().unwrap(), bytes).unwrap();
    println!("{summary}");
}
