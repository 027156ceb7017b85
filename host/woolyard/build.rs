//! Links libwoolyard.a from where the toolchain writes it, once it has told that it is of this wrapper's ABI: an archive of
//! another one would be linked too, and answer in numbers that mean something else here.

#[path = "src/abi.rs"]
mod abi;

use abi::ABI;
use std::env;
use std::fs;
use std::path::{Path, PathBuf};
use std::process::{Command, Output};

const FOLDER: &str = "../../crates/woolyard/out";

/// Prints the archive's ABI.
const PROGRAM: &str = r#"
extern "C" {
    fn woolyard_abi() -> u64;
}

fn main() {
    // SAFETY: nothing is lent.
    println!("{}", unsafe { woolyard_abi() });
}
"#;

fn main() {
    let folder = Path::new(&named("CARGO_MANIFEST_DIR")).join(FOLDER);
    let archive = folder.join("libwoolyard.a");
    println!("cargo::rerun-if-changed={}", archive.display());
    println!("cargo::rustc-link-search=native={}", folder.display());
    println!("cargo::rustc-link-lib=static=woolyard");
    if let Err(reason) = check(&folder, &archive) {
        println!("cargo::error={reason}");
    }
}

/// The value of a variable that cargo sets.
fn named(variable: &str) -> String {
    env::var(variable).unwrap_or_else(|_| panic!("cargo sets {variable}"))
}

/// What stands against linking the archive.
fn check(folder: &Path, archive: &Path) -> Result<(), String> {
    if named("CARGO_CFG_TARGET_ARCH") != "x86_64" {
        return Err("libwoolyard.a is for x86-64 and can't be linked here.".to_string());
    }
    if !archive.is_file() {
        return Err("libwoolyard.a is missing: build it with `rt lib` in crates/woolyard.".to_string());
    }
    // a program for another machine can't be asked here; `woolyard::abi` can, there
    if named("HOST") != named("TARGET") {
        return Ok(());
    }
    let told = abi_of_archive(folder)?;
    if told != ABI.to_string() {
        return Err(format!(
            "libwoolyard.a is of ABI {told} and this wrapper of {ABI}: take both of one landing."
        ));
    }
    Ok(())
}

/// What a program says that is linked with the archive, as this package is.
fn abi_of_archive(folder: &Path) -> Result<String, String> {
    let own_folder = PathBuf::from(named("OUT_DIR"));
    let [source, program] = ["abi.rs", "abi"].map(|file| own_folder.join(file));
    fs::write(&source, PROGRAM).map_err(|error| format!("{}: {error}", source.display()))?;
    let mut compiler = Command::new(named("RUSTC"));
    compiler.arg(&source).arg("-o").arg(&program);
    compiler.arg("-L").arg(folder).arg("-lstatic=woolyard");
    let flags = env::var("CARGO_ENCODED_RUSTFLAGS").unwrap_or_default();
    compiler.args(flags.split('\x1f').filter(|flag| !flag.is_empty()));
    if let Ok(linker) = env::var("RUSTC_LINKER") {
        compiler.arg(format!("-Clinker={linker}"));
    }
    let compiled = run(compiler)?;
    if !compiled.status.success() {
        return Err(not_linked(&String::from_utf8_lossy(&compiled.stderr)));
    }
    let told = run(Command::new(program))?;
    Ok(String::from_utf8_lossy(&told.stdout).trim().to_string())
}

fn run(mut command: Command) -> Result<Output, String> {
    let output = command.output();
    output.map_err(|error| format!("{command:?}: {error}"))
}

/// What it means that the compiler says this of the program.
fn not_linked(said: &str) -> String {
    if said.contains("undefined") && said.contains("woolyard_abi") {
        return format!(
            "libwoolyard.a has no woolyard_abi and this wrapper is of ABI {ABI}: take both of one landing."
        );
    }
    for line in said.lines() {
        println!("cargo::warning={line}");
    }
    "libwoolyard.a can't be linked with a program that asks for its ABI.".to_string()
}
