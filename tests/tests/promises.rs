//! docs/PROMISES.md names definitions, theorems, examples, functions and must-fail edits. Each of them has to be there,
//! and each must-fail edit has to be named.
use std::collections::BTreeSet;
use std::fs;
use std::path::{Path, PathBuf};

fn root() -> PathBuf {
    Path::new(env!("CARGO_MANIFEST_DIR")).join("..")
}

/// What stands between backquotes as CRATE/NAME, for the crates that there are.
fn names(text: &str) -> BTreeSet<(String, String)> {
    text.split('`')
        .skip(1)
        .step_by(2)
        .filter_map(|quoted| quoted.split_once('/'))
        .filter(|(layer, _)| root().join("crates").join(layer).is_dir())
        .map(|(layer, name)| (layer.to_string(), name.to_string()))
        .collect()
}

/// Whether a line of the file declares the name, as `name : ..`, or a record or enum of that name.
fn declares(file: &Path, name: &str) -> bool {
    let text = fs::read_to_string(file).unwrap_or_default();
    text.lines().any(|line| {
        line.split(' ').any(|word| word == name) && !line.trim_start().starts_with("--")
    })
}

fn is_there(layer: &str, name: &str) -> bool {
    let layer = root().join("crates").join(layer);
    match name.split_once('.') {
        Some((file, name)) => ["specs", "proofs"]
            .iter()
            .any(|part| declares(&layer.join(part).join(format!("{file}.antt")), name)),
        None => edit(&layer, name).is_file() || declares(&layer.join("proofs/Examples.antt"), name),
    }
}

fn edit(layer: &Path, name: &str) -> PathBuf {
    layer.join("must-fail").join(format!("{name}.edit"))
}

fn edits() -> BTreeSet<(String, String)> {
    let mut found = BTreeSet::new();
    for layer in fs::read_dir(root().join("crates")).unwrap() {
        let layer = layer.unwrap();
        let Ok(files) = fs::read_dir(layer.path().join("must-fail")) else {
            continue;
        };
        for file in files {
            let name = file.unwrap().file_name().into_string().unwrap();
            found.insert((
                layer.file_name().into_string().unwrap(),
                name.trim_end_matches(".edit").to_string(),
            ));
        }
    }
    found
}

#[test]
fn what_is_named_is_there() {
    let named = names(&fs::read_to_string(root().join("docs/PROMISES.md")).unwrap());
    assert!(
        named.len() > 200,
        "the names are not found any more: {}",
        named.len()
    );
    let missing: Vec<_> = named
        .iter()
        .filter(|(layer, name)| !is_there(layer, name))
        .collect();
    assert!(missing.is_empty(), "named and not there: {missing:?}");
}

#[test]
fn each_edit_is_named() {
    let named = names(&fs::read_to_string(root().join("docs/PROMISES.md")).unwrap());
    let edits = edits();
    assert!(!edits.is_empty());
    let left_out: Vec<_> = edits.difference(&named).collect();
    assert!(
        left_out.is_empty(),
        "edits that are not named: {left_out:?}"
    );
}

/// The public functions, each as TYPE::NAME where it stands in an `impl`, else as CRATE::NAME.
fn public_functions() -> BTreeSet<String> {
    let mut found = BTreeSet::new();
    for layer in fs::read_dir(root().join("crates")).unwrap() {
        let layer = layer.unwrap();
        let text = fs::read_to_string(layer.path().join("src/lib.rt")).unwrap_or_default();
        let mut owner = layer.file_name().into_string().unwrap();
        for line in text.lines() {
            if let Some(rest) = line.strip_prefix("impl ") {
                owner = rest.trim_end_matches(" {").to_string();
            } else if line == "}" {
                owner = layer.file_name().into_string().unwrap();
            } else if let Some(name) = public_function(line) {
                found.insert(format!("{owner}::{name}"));
            }
        }
    }
    found
}

/// The function that a line declares, for Rattle or for C. A lifetime may stand behind its name.
fn public_function(line: &str) -> Option<&str> {
    let line = line.trim_start();
    let declared = ["pub fn ", "pub extern \"C\" fn "];
    let rest = declared.iter().find_map(|start| line.strip_prefix(start))?;
    rest.split(['(', '<']).next()
}

#[test]
fn each_function_that_is_named_is_public() {
    let text = fs::read_to_string(root().join("docs/PROMISES.md")).unwrap();
    let named: BTreeSet<String> = text
        .split('`')
        .skip(1)
        .step_by(2)
        .filter(|quoted| quoted.contains("::"))
        .map(str::to_string)
        .collect();
    assert!(named.len() > 30, "found only {} functions", named.len());
    let missing: Vec<_> = named.difference(&public_functions()).cloned().collect();
    assert!(missing.is_empty(), "named and not there: {missing:?}");
}
