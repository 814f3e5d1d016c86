//! Writes a copy of the oracle for each edit, and a file that names them all.

use std::fmt::Write;
use std::path::{Path, PathBuf};
use std::{env, fs};

include!("edits.rs");

/// The oracle's files that no edit touches are copied all the same: a mutant is a whole oracle.
pub fn make() {
    let oracle = Path::new(env!("CARGO_MANIFEST_DIR")).join("src/oracle");
    let target = PathBuf::from(env::var_os("OUT_DIR").unwrap()).join("mutants");
    println!("cargo::rerun-if-changed=mutants");
    println!("cargo::rerun-if-changed={}", oracle.display());
    // Folders of edits that are gone must not stay behind.
    let _ = fs::remove_dir_all(&target);

    let mut modules = String::new();
    let mut list = String::from("pub fn all() -> Vec<(&'static str, Calls)> {\n    vec![\n");
    for (number, edit) in EDITS.iter().enumerate() {
        let folder = target.join(format!("m{number}"));
        fs::create_dir_all(&folder).unwrap();
        copy(&oracle, &folder, edit);
        writeln!(modules, "#[path = {:?}]\nmod m{number};", folder.join("mod.rs")).unwrap();
        writeln!(list, "        ({:?}, outside::calls_of!(crate::mutants::m{number})),", edit.says).unwrap();
    }
    list.push_str("    ]\n}\n");
    fs::write(target.join("all.rs"), modules + &list).unwrap();
}

fn copy(from: &Path, to: &Path, edit: &Edit) {
    for entry in fs::read_dir(from).unwrap() {
        let path = entry.unwrap().path();
        let name = path.file_name().unwrap();
        let mut text = fs::read_to_string(&path).unwrap();
        if name == edit.file {
            assert_eq!(text.matches(edit.from).count(), 1, "{}: one place in {}", edit.says, edit.file);
            text = text.replacen(edit.from, edit.to, 1);
        }
        fs::write(to.join(name), text).unwrap();
    }
}
