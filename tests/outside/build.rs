//! Links the static library; or, for the self-test, makes the mutants of the oracle.

use std::env;
use std::path::PathBuf;

#[path = "mutants/make.rs"]
mod mutants;

fn main() {
    if env::var_os("CARGO_FEATURE_SELF_TEST").is_some() {
        println!("cargo::rustc-env=OUTSIDE_SUBJECT=the oracle itself (self-test), not the library");
        mutants::make();
    } else {
        link_library();
    }
}

/// `bash tools/build` writes the library to target/staticlib of the repository.
fn link_library() {
    println!("cargo::rerun-if-env-changed=RILL_STATICLIB_DIR");
    let folder = match env::var_os("RILL_STATICLIB_DIR") {
        Some(folder) => PathBuf::from(folder),
        None => PathBuf::from(env!("CARGO_MANIFEST_DIR")).join("../../target/staticlib"),
    };
    let library = folder.join("libboundary.a");
    println!("cargo::rerun-if-changed={}", library.display());
    match library.canonicalize() {
        Ok(library) => {
            println!("cargo::rustc-env=OUTSIDE_SUBJECT={}", library.display());
            println!("cargo::rustc-link-search=native={}", library.parent().unwrap().display());
            println!("cargo::rustc-link-lib=static=boundary");
        }
        Err(_) => println!(
            "cargo::error={} is missing: make it with `bash tools/build`, or name its folder in \
             RILL_STATICLIB_DIR, or build with --features self-test",
            library.display()
        ),
    }
}
