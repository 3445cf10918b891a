//! Links our static libraries, libagnulfrosc.a and liballoc_calls.a, from the folder AGNULFROSC_LIB.
fn main() {
    println!("cargo::rerun-if-env-changed=AGNULFROSC_LIB");
    let folder = std::env::var("AGNULFROSC_LIB").expect("AGNULFROSC_LIB names the folder of libagnulfrosc.a");
    println!("cargo::rustc-link-search=native={folder}");
    for name in ["agnulfrosc", "alloc_calls"] {
        println!("cargo::rerun-if-changed={folder}/lib{name}.a");
        println!("cargo::rustc-link-lib=static={name}");
    }
}
