//! Makes a module of the oracle for each edit of this folder, with the edit made, and a list of all of them as sides.
//!
//! An edit NAME.edit says in its first line what is wrong, behind `# `. Lines `file: F.rs`, `old: TEXT` and `new: TEXT`
//! follow: the one place in that file where the old text stands gets the new one. There may be further such lines.

use std::collections::{BTreeMap, BTreeSet};
use std::path::{Path, PathBuf};
use std::{env, fs};

/// Texts by the names of their files, without what stands behind the dot.
type Files = BTreeMap<String, String>;

fn main() {
    println!("cargo:rerun-if-changed=.");
    println!("cargo:rerun-if-changed=../oracle");
    let out = PathBuf::from(env::var("OUT_DIR").expect("cargo names the directory for what is made"));
    let mut oracle = files("../oracle", "rs");
    oracle.remove("lib");
    let edits = files(".", "edit");
    let (mut modules, mut rows) = (String::new(), String::new());
    for (name, edit) in &edits {
        modules += &module(name, edit, &oracle, &out);
        rows += &format!("(\"{name}\", || Box::new({name}::Slip)),\n");
    }
    let table = format!("const SLIPS: &[(&str, fn() -> Box<dyn compare::sides::Side>)] = &[\n{rows}];\n");
    fs::write(out.join("slips.rs"), modules + &table).expect("the list of slips is written");
}

fn files(directory: &str, ending: &str) -> Files {
    let entries = fs::read_dir(directory).expect("a directory to read");
    let paths = entries.map(|entry| entry.expect("an entry to read").path());
    let wanted = paths.filter(|path| path.extension().is_some_and(|known| known == ending));
    let stem = |path: &Path| path.file_stem().expect("a file's name").to_string_lossy().into_owned();
    let text = |path: &Path| fs::read_to_string(path).expect("a text to read");
    wanted.map(|path| (stem(&path), text(&path))).collect()
}

/// Writes the files that an edit reaches and gives the module of them; all else is the oracle's own.
fn module(name: &str, edit: &str, oracle: &Files, out: &Path) -> String {
    let edited = edited(name, edit, oracle);
    let changed = oracle.keys().filter(|file| oracle[*file] != edited[*file]);
    let mut reached = users(oracle, changed.cloned().collect());
    // What the header does not use is not asked.
    reached.retain(|file| users(oracle, BTreeSet::from([file.clone()])).contains("header"));
    let directory = out.join(name);
    fs::create_dir_all(&directory).expect("a directory is made");
    let declared = reached.iter().map(|file| {
        let path = directory.join(file).with_extension("rs");
        fs::write(&path, &edited[file]).expect("a copy is written");
        format!("#[path = {path:?}]\npub mod {file};\n")
    });
    let declared: String = declared.collect();
    let side = "compare::side_of!(Slip, self::header);";
    format!("#[allow(warnings)]\nmod {name} {{\npub use oracle::*;\n{declared}{side}\n}}\n")
}

/// The oracle's files with an edit made.
fn edited(name: &str, edit: &str, oracle: &Files) -> Files {
    let mut files = oracle.clone();
    let (mut file, mut old) = ("", "");
    assert!(edit.starts_with("# "), "{name}: the first line says what is wrong");
    for line in edit.lines().skip(1) {
        match line.split_once(": ").unwrap_or((line, "")) {
            ("file", named) => file = named.trim_end_matches(".rs"),
            ("old", text) => old = text,
            ("new" | "new:", text) => {
                let Some(whole) = files.get_mut(file) else {
                    panic!("{name}: the oracle has no file {file}");
                };
                let places = whole.matches(old).count();
                assert_eq!(places, 1, "{name}: this must stand once in {file}: {old}");
                *whole = whole.replacen(old, text, 1);
            }
            _ => panic!("{name}: no line of an edit: {line}"),
        }
    }
    files
}

/// The given files and all that use one of them, directly or through others. Files name each other by `super`.
fn users(oracle: &Files, mut reached: BTreeSet<String>) -> BTreeSet<String> {
    for _ in oracle {
        let uses = |text: &str| reached.iter().any(|used| text.contains(&format!("super::{used}::")));
        let more: Vec<String> = oracle.keys().filter(|file| uses(&oracle[*file])).cloned().collect();
        reached.extend(more);
    }
    reached
}
