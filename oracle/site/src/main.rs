//! A site's functions from readable text to words: `site TEXT WORDS`. The file of words is what the command line takes: how many words the
//! function table has, these (wide), then each function by docs/INPUT.md, all of 32 bits, least byte first.
//!
//! Text, line by line; what follows a `;` is a remark, and `@N` at a line's end is its span:
//!   native ID NUMBER [double]        the function table says that ID is native code
//!   function ID NAME [unused]        a function; its blocks follow
//!   NAME(VALUE, ..):                 a block and its parameters
//!   VALUE = OPERATOR A B             an operator by ir's name in small letters; B a number for an immediate
//!   VALUE = int N | double X | string N | true | false | undefined
//!   VALUE = call FUNCTION A .. | sys NUMBER A .. | cast TO FROM A | alloc KIND SIZE ALIGN
//!   VALUE = load BASE OFFSET | addr BASE OFFSET | assert A
//!   VALUE = lookup A { KEY: CONSTANT, .., else: CONSTANT }
//!   store A BASE OFFSET
//!   return [A] | jump EDGE | if A EDGE else EDGE | ifeq A N EDGE else EDGE | ifsame A B EDGE else EDGE | tail FUNCTION A ..
//!   switch A { KEY: EDGE, .., else: EDGE }
//! An edge is BLOCK(VALUE, ..). FUNCTION is a name or an id. Live intervals are worked out here, as short as they may be.
#[path = "../../garden/src/intervals.rs"]
#[allow(dead_code)]
mod intervals;
#[path = "../../garden/src/model.rs"]
#[allow(dead_code)]
mod model;
mod parse;
#[path = "../../garden/src/rows.rs"]
#[allow(dead_code)]
mod rows;

fn words(text: &str) -> Result<Vec<u32>, String> {
    let site = parse::site(text)?;
    let mut words = vec![site.table.len() as u32];
    words.extend(site.table.iter().flat_map(|&w| [w as u32, (w >> 32) as u32]));
    for mut f in site.functions {
        intervals::exact(&mut f);
        words.extend(f.to_words());
    }
    Ok(words)
}

fn main() {
    let args: Vec<String> = std::env::args().collect();
    let [_, text, out] = &args[..] else {
        eprintln!("usage: site TEXT WORDS");
        std::process::exit(2);
    };
    let words = std::fs::read_to_string(text).map_err(|e| e.to_string()).and_then(|text| words(&text));
    let done = words.and_then(|words| {
        let bytes: Vec<u8> = words.iter().flat_map(|w| w.to_le_bytes()).collect();
        std::fs::write(out, bytes).map_err(|e| e.to_string())
    });
    if let Err(what) = done {
        eprintln!("{text}: {what}");
        std::process::exit(1);
    }
}
