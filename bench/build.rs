//! Compiles nested.c with the machine's C compiler, at -O3.
use std::env;
use std::path::PathBuf;
use std::process::Command;

fn main() {
    println!("cargo:rerun-if-changed=nested.c");
    let out = PathBuf::from(env::var_os("OUT_DIR").unwrap());
    let object = out.join("nested.o");
    let archive = out.join("libnested.a");
    run(Command::new("cc").args(["-O3", "-g", "-c", "nested.c", "-o"]).arg(&object));
    run(Command::new("ar").arg("crs").arg(&archive).arg(&object));
    println!("cargo:rustc-link-search=native={}", out.display());
    println!("cargo:rustc-link-lib=static=nested");
}

fn run(command: &mut Command) {
    let status = command.status().unwrap_or_else(|e| panic!("{command:?}: {e}"));
    assert!(status.success(), "{command:?}: {status}");
}
