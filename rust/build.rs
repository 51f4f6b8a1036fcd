//! Links the proved library: `libdunnavish.a`, which `tools/build dunnavish` puts into `target/staticlib` of the repository. The
//! environment variable `DUNNAVISH_LIB_DIR` names another folder for it; a relative one is taken from where cargo is started.
use std::env;
use std::fs;
use std::os::unix::process::parent_id;
use std::path::PathBuf;
use std::process::exit;

fn main() {
    println!("cargo:rerun-if-env-changed=DUNNAVISH_LIB_DIR");
    let folder = match env::var_os("DUNNAVISH_LIB_DIR") {
        Some(folder) => from_caller(PathBuf::from(folder)),
        None => PathBuf::from(env::var_os("CARGO_MANIFEST_DIR").unwrap()).join("../target/staticlib"),
    };
    let archive = folder.join("libdunnavish.a");
    println!("cargo:rerun-if-changed={}", archive.display());
    if !archive.is_file() {
        eprintln!("error: the library {} is not there.", archive.display());
        eprintln!("Build it in the repository's root with `tools/build dunnavish`, or name its folder in DUNNAVISH_LIB_DIR.");
        exit(1);
    }
    println!("cargo:rustc-link-search=native={}", folder.display());
    println!("cargo:rustc-link-lib=static=dunnavish");
}

/// The folder as an absolute path. Cargo runs this script in the package's folder and stays itself in its caller's. The system
/// is asked for that one; where it does not say, it is the variable PWD that shells set.
fn from_caller(folder: PathBuf) -> PathBuf {
    if folder.is_absolute() {
        return folder;
    }
    println!("cargo:rerun-if-env-changed=PWD");
    let stated = env::var_os("PWD").map(PathBuf::from).filter(|caller| caller.is_absolute());
    match fs::read_link(format!("/proc/{}/cwd", parent_id())).ok().or(stated) {
        Some(caller) => caller.join(folder),
        None => {
            eprintln!(
                "error: DUNNAVISH_LIB_DIR is the relative path {}, and where cargo was started is not known.",
                folder.display()
            );
            eprintln!("Name the folder by an absolute path.");
            exit(1);
        }
    }
}
