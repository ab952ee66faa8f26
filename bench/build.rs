//! Links the proved library: on x86-64 the archive itself, on other machines what bench/native makes from its LLVM module.
fn main() {
    let root = concat!(env!("CARGO_MANIFEST_DIR"), "/..");
    let native = std::env::var("CARGO_CFG_TARGET_ARCH").is_ok_and(|arch| arch == "x86_64");
    let folder = if native { "crates/rei2/out" } else { "target/bench/native" };
    println!("cargo:rustc-link-search=native={root}/{folder}");
    println!("cargo:rustc-link-lib=static=rei2");
    println!("cargo:rerun-if-changed={root}/{folder}/librei2.a");
}
