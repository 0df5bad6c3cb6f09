//! Says where the archive of the proved library is: the folder that BHIRKULOM_LIB names, or the repository's target/lib.
use std::env;
use std::path::PathBuf;
use std::process;

fn main() {
    println!("cargo:rerun-if-env-changed=BHIRKULOM_LIB");
    let folder = match env::var_os("BHIRKULOM_LIB") {
        Some(folder) => PathBuf::from(folder),
        None => PathBuf::from(env!("CARGO_MANIFEST_DIR")).join("../../target/lib"),
    };
    let archive = folder.join("libbhirkulom.a");
    println!("cargo:rerun-if-changed={}", archive.display());
    if !folder.is_absolute() {
        eprintln!("BHIRKULOM_LIB is {}, and wants a whole path", folder.display());
        process::exit(1);
    }
    if !archive.is_file() {
        eprintln!("no {}", archive.display());
        eprintln!("run lib/build in the repository of Bhirkulom, which proves and makes it;");
        eprintln!("or name the folder that holds libbhirkulom.a in the variable BHIRKULOM_LIB");
        process::exit(1);
    }
    println!("cargo:rustc-link-search=native={}", folder.display());
    println!("cargo:rustc-link-lib=static=bhirkulom");
}
