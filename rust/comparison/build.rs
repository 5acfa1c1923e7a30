//! Has the interpreter and the search for the previous writer proved and built as static libraries, and
//! links them; has the program `cabinet` proved and built, and tells the tests where it is.

fn main() {
    kit::link("interpreter_exports");
    kit::link("search_exports");
    let program = kit::program("cabinet");
    println!("cargo::rustc-env=CABINET={}", program.display());
}
