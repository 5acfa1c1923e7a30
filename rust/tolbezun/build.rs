//! Has the calls proved and built as a static library, and links it.

fn main() {
    let archive = kit::link_library();
    println!("cargo::rustc-env=ARCHIVE={}", archive.display());
}
