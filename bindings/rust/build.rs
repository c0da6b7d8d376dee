//! Links the archive that `scripts/archive` makes: the one that AC3_ARCHIVE names by its absolute path, else the
//! repository's.
use std::path::PathBuf;
use std::{env, process};

fn main() {
    println!("cargo:rerun-if-env-changed=AC3_ARCHIVE");
    let here = PathBuf::from(env::var_os("CARGO_MANIFEST_DIR").expect("cargo names the crate's folder"));
    let archive = match env::var_os("AC3_ARCHIVE") {
        Some(named) => PathBuf::from(named),
        None => here.join("../../target/staticlib/libhost.a"),
    };
    println!("cargo:rerun-if-changed={}", archive.display());
    if !archive.is_file() {
        eprintln!("The archive of the AC-3 encoder core is missing: {}", archive.display());
        eprintln!("`scripts/archive`, in the repository's folder, makes it: target/staticlib/libhost.a.");
        eprintln!("Where it stands elsewhere, AC3_ARCHIVE names the file by its absolute path.");
        process::exit(1);
    }
    let folder = archive.parent().expect("a file stands in a folder");
    let name = archive.file_name().expect("a file has a name");
    println!("cargo:rustc-link-search=native={}", folder.display());
    println!("cargo:rustc-link-lib=static:+verbatim={}", name.to_string_lossy());
}
