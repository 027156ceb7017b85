//! Compiles the peer, and links it and the GNU Scientific Library.

use std::env;
use std::process::Command;

/// The folder of woolyard.h, seen from this one.
const INCLUDE: &str = "../../../include";

fn main() {
    let out = env::var("OUT_DIR").expect("cargo names the folder for what is built");
    compile_peer(&out);
    println!("cargo::rustc-link-search=native={out}");
    println!("cargo::rustc-link-lib=static=peer");
    for library in ["gsl", "gslcblas", "m"] {
        println!("cargo::rustc-link-lib={library}");
    }
    println!("cargo::rerun-if-changed={INCLUDE}/woolyard.h");
    println!("cargo::rerun-if-changed=peer.c");
    println!("cargo::rerun-if-changed=build.rs");
}

/// By gcc and no other compiler: peer.c says why.
fn compile_peer(out: &str) {
    let object = format!("{out}/peer.o");
    let archive = format!("{out}/libpeer.a");
    let warnings = ["-Wall", "-Wextra", "-Werror"];
    run(Command::new("gcc")
        .args(["-O2", "-I", INCLUDE, "-c", "peer.c", "-o", &object])
        .args(warnings));
    run(Command::new("ar").args(["rcs", &archive, &object]));
}

fn run(command: &mut Command) {
    let status = command.status();
    assert!(status.is_ok_and(|status| status.success()), "{command:?}");
}
