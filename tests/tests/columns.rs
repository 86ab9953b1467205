//! Documents, code and proofs have lines of at most 120 columns, so that they can be read side by side.
use std::fs;
use std::path::{Path, PathBuf};

const COLUMNS: usize = 120;

/// The files below a folder that people read, but for what is built.
fn files(folder: &Path, found: &mut Vec<PathBuf>) {
    for entry in fs::read_dir(folder).unwrap() {
        let path = entry.unwrap().path();
        let name = path.file_name().unwrap().to_str().unwrap();
        if path.is_dir() && !["target", "out", ".git"].contains(&name) {
            files(&path, found);
        } else if [".md", ".rt", ".antt"]
            .iter()
            .any(|ending| name.ends_with(ending))
        {
            found.push(path);
        }
    }
}

#[test]
fn lines_are_short() {
    let mut found = Vec::new();
    files(
        &Path::new(env!("CARGO_MANIFEST_DIR")).join(".."),
        &mut found,
    );
    assert!(found.len() > 100, "the files are not found any more");
    for file in found {
        for (at, line) in fs::read_to_string(&file).unwrap().lines().enumerate() {
            let columns = line.chars().count();
            assert!(
                columns <= COLUMNS,
                "{}:{} has {columns} columns",
                file.display(),
                at + 1
            );
        }
    }
}
