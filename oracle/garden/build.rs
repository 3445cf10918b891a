//! Lays the commit's own files out as modules of this crate. They come from a path (PURPLE_GARDEN_SRC) and go into OUT_DIR: the source stays
//! outside the repository.
use std::{env, fs, path::Path};

/// Files of the source, and the module file that each becomes.
const FILES: [(&str, &str); 7] = [
    ("purple-garden-bc/src/lib.rs", "bc/mod.rs"),
    ("purple-garden-bc/src/intern.rs", "intern.rs"),
    ("purple-garden-ir/src/lib.rs", "ir/mod.rs"),
    ("purple-garden-ir/src/constant.rs", "ir/constant.rs"),
    ("purple-garden-ir/src/live.rs", "ir/live.rs"),
    ("purple-garden-runtime/src/op.rs", "op.rs"),
    ("purple-garden-shared/src/xralloc2.rs", "xralloc2.rs"),
];

/// Module files that the source declares and that are not among these. A module that it names from its crate's root stands at the root of this
/// crate; where it is declared an empty file is enough.
const OTHERS: [(&str, &str); 5] = [
    ("bc/dis.rs", "include!(concat!(env!(\"CARGO_MANIFEST_DIR\"), \"/src/window.rs\"));\n"),
    ("bc/intern.rs", ""),
    ("ir/display.rs", ""),
    ("ir/facts.rs", ""),
    ("ir/ptype.rs", "include!(concat!(env!(\"CARGO_MANIFEST_DIR\"), \"/src/ptype.rs\"));\n"),
];

/// The modules at the root. bc and ir ask for a feature by a name that only a crate's root may ask for: inside a module that is ignored.
const ROOT: &str = "\
#[allow(unused_attributes)]
pub mod bc;
mod intern;
#[allow(unused_attributes)]
pub mod ir;
pub mod op;
pub mod xralloc2;
";

/// A change of the source's text: what was there exactly once, and what stands there now.
struct Patch {
    file: &'static str,
    old: &'static str,
    new: &'static str,
    why: &'static str,
}

const PATCHES: [Patch; 2] = [
    Patch {
        file: "bc/mod.rs",
        old: "fun.live_set_into(&mut live_set);",
        new: "fun.facts.live_set_into(&mut live_set);",
        why: "live intervals are an input: they come with the function, in the shim of its facts",
    },
    Patch {
        file: "bc/mod.rs",
        old: "fun.arg_hints_into(&mut self.arg_hints);",
        new: "fun.facts.arg_hints_into(&mut self.arg_hints);",
        why: "first hints are an input, as intervals are",
    },
];

fn patched(file: &str, text: String) -> String {
    PATCHES.iter().filter(|p| p.file == file).fold(text, |text, p| {
        assert_eq!(text.matches(p.old).count(), 1, "{file} must have `{}` exactly once: {}", p.old, p.why);
        text.replace(p.old, p.new)
    })
}

fn write(name: &str, text: &str) {
    let path = Path::new(&env::var("OUT_DIR").unwrap()).join(name);
    fs::create_dir_all(path.parent().unwrap()).unwrap();
    fs::write(path, text).unwrap();
}

/// The register count, which is in no file of the source: PURPLE_GARDEN_N, else 32.
fn register_count() -> usize {
    let n = env::var("PURPLE_GARDEN_N").map_or(32, |n| n.parse().expect("PURPLE_GARDEN_N: a number"));
    assert!((22..=64).contains(&n), "PURPLE_GARDEN_N: from 22 to 64");
    n
}

fn main() {
    for name in ["PURPLE_GARDEN_SRC", "PURPLE_GARDEN_N"] {
        println!("cargo::rerun-if-env-changed={name}");
    }
    println!("cargo::rerun-if-changed=build.rs");
    let src = env::var("PURPLE_GARDEN_SRC").expect("PURPLE_GARDEN_SRC: the folder that has purple-garden-bc/");
    for (from, to) in FILES {
        let path = Path::new(&src).join(from);
        println!("cargo::rerun-if-changed={}", path.display());
        let text = fs::read_to_string(&path).unwrap_or_else(|e| panic!("{}: {e}", path.display()));
        write(to, &patched(to, text));
    }
    OTHERS.iter().for_each(|(to, text)| write(to, text));
    write("source.rs", &format!("{ROOT}pub const REGISTER_COUNT: usize = {};\n", register_count()));
}
