//! For build scripts: has the Rattle kit prove and build a crate of this repository.

#![forbid(unsafe_code)]
#![warn(missing_docs)]

use std::path::{Path, PathBuf};
use std::process::{exit, Command, Stdio};
use std::{env, fs, io};

/// Has the calls proved and built as the product's static library by `./library`, and links it. Returns the archive.
pub fn link_library() -> PathBuf {
    let archive = build(".", &["bash", "library"], "target/staticlib/libtolbezun.a");
    link_archive(archive, "tolbezun")
}

/// Has the crate `name` proved and built as a static library, and links it. Returns the archive.
pub fn link(name: &str) -> PathBuf {
    let archive = build(
        &format!("crates/{name}"),
        &["rt", "lib"],
        &format!("out/lib{name}.a"),
    );
    link_archive(archive, name)
}

fn link_archive(archive: PathBuf, name: &str) -> PathBuf {
    let folder = archive.parent().expect("this is the path of a file");
    println!("cargo::rustc-link-search=native={}", folder.display());
    println!("cargo::rustc-link-lib=static={name}");
    archive
}

/// Has the crate `name` proved and built as a program: the kit builds one in order to run it, here on no input. Returns the program.
pub fn program(name: &str) -> PathBuf {
    build(
        &format!("crates/{name}"),
        &["rt", "run"],
        &format!("out/{name}"),
    )
}

/// Has this command carried out in a folder of the repository, and returns a copy of the file that it leaves there.
fn build(folder: &str, command: &[&str], file: &str) -> PathBuf {
    let root = variable("CARGO_MANIFEST_DIR").join("../..");
    for source in ["crates.txt", "library"] {
        watch(&root.join(source));
    }
    watch_sources(&root.join("crates"));
    watch_kit();
    let line = command.join(" ");
    let built = Command::new(command[0])
        .args(&command[1..])
        .current_dir(root.join(folder))
        .stdin(Stdio::null())
        .stdout(Stdio::from(io::stderr()))
        .status();
    match built {
        Ok(status) if status.success() => {}
        Ok(status) => fail(&format!("`{line}` failed: {status}")),
        Err(error) => fail(&format!("cannot run `{line}`: {error}")),
    }

    // The kit may replace what it built, so a copy is linked or run.
    let built = root.join(folder).join(file);
    let file_name = built.file_name().expect("this is the path of a file");
    let copy = variable("OUT_DIR").join(file_name);
    if let Err(error) = fs::copy(&built, &copy) {
        fail(&format!("`{line}` left no {file}: {error}"));
    }
    copy
}

/// Has the build script run again with another kit: one in another place, or with newer files.
///
/// Of files cargo compares the times alone, and those of another kit may be older. So the kit's
/// version is left beside what it built, in `kit`, and `.ci/run` compares that.
fn watch_kit() {
    for variable in ["PATH", "RATTLE_HOME"] {
        println!("cargo::rerun-if-env-changed={variable}");
    }
    // The guide is in a folder of the kit's.
    let guide = PathBuf::from(ask_kit("doc"));
    if let Some(home) = guide.ancestors().nth(2) {
        let files = ["KIT-ID", "bin/rt"].map(|file| home.join(file));
        files
            .iter()
            .filter(|file| file.exists())
            .for_each(|file| watch(file));
    }
    if let Err(error) = fs::write(variable("OUT_DIR").join("kit"), ask_kit("version")) {
        fail(&format!("cannot write down the kit's version: {error}"));
    }
}

/// What `rt` prints on this command.
fn ask_kit(command: &str) -> String {
    match Command::new("rt").arg(command).output() {
        Ok(output) if output.status.success() => {
            String::from_utf8_lossy(&output.stdout).trim().to_string()
        }
        Ok(output) => fail(&format!("`rt {command}` failed: {}", output.status)),
        Err(error) => fail(&format!("cannot run `rt {command}`: {error}")),
    }
}

/// Watches what each crate is proved and built from, and not `out`, into which the kit writes.
fn watch_sources(crates: &Path) {
    let folders =
        fs::read_dir(crates).unwrap_or_else(|error| fail(&format!("cannot read crates: {error}")));
    for folder in folders.flatten() {
        let parts = ["src", "specs", "proofs"].map(|part| folder.path().join(part));
        parts
            .iter()
            .filter(|part| part.exists())
            .for_each(|part| watch(part));
    }
}

fn watch(path: &Path) {
    println!("cargo::rerun-if-changed={}", path.display());
}

fn variable(name: &str) -> PathBuf {
    env::var_os(name)
        .unwrap_or_else(|| panic!("cargo sets {name}"))
        .into()
}

fn fail(message: &str) -> ! {
    eprintln!("error: {message}");
    exit(1)
}
