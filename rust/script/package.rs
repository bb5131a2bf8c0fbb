//! The files of the package that are made of proved sources: ordinary modules of plain Rust, one for each source.

use crate::between::between;
use crate::modules::{CALCULATOR, LIBRARY, written};
use crate::pages::Pages;
use crate::pointers::with_pointers;
use crate::references::references;
use std::collections::BTreeMap;
use std::path::Path;
use std::process::Command;
use std::{env, fs};

/// The tests of the library, and the example that they test.
const TESTS: [&str; 6] = [
    "guide",
    "tests_kernel",
    "tests_num",
    "tests_convert",
    "tests_policy",
    "tests_math",
];

/// The folders in which each file is made: the folders of `src`, but that of the program, and that of the calls for C.
const FOLDERS: [&str; 2] = ["src", "rust/c/src"];

/// Files by their paths in the repository.
pub type Files = BTreeMap<String, String>;

/// The files that are made, as the sources are now.
pub fn files(top: &Path) -> Result<Files, String> {
    formatted(unformatted(top)?)
}

/// The same, before rustfmt.
pub fn unformatted(top: &Path) -> Result<Files, String> {
    std::env::set_current_dir(top).map_err(|error| error.to_string())?;
    let crates = Path::new("crates");
    let library = [&LIBRARY[..], &CALCULATOR].concat();
    let pages = Pages::of(&library, &library)?;
    let mut files = Files::new();
    let mut put = |folder: &str, made: Files| {
        files.extend(made.into_iter().map(|(path, text)| (format!("{folder}/{path}"), text)));
    };
    put("src", written(crates, &library, Some(&pages))?);
    pages.examples.end()?;
    put("src", pages.definitions.files(&library, &CALCULATOR)?);
    put("src", written(crates, &TESTS, None)?);
    put("src/bin/zugyelmas", written(crates, &["prog"], None)?);
    put("rust/c/src", with_pointers(written(crates, &["face", "c"], None)?)?);
    put("src/edge", Files::from([("references.rs".to_string(), references())]));
    put("src/between", Files::from([("words.rs".to_string(), between())]));
    Ok(files)
}

/// Files as rustfmt writes them. It runs once, over copies in a folder of their own: it follows each crate's modules.
fn formatted(files: Files) -> Result<Files, String> {
    let folder = env::temp_dir().join(format!("package_{}", std::process::id()));
    let done = formatted_in(&folder, files);
    let _ = fs::remove_dir_all(&folder);
    done
}

fn formatted_in(folder: &Path, files: Files) -> Result<Files, String> {
    let failed = |error: std::io::Error| format!("rustfmt: {error}");
    for (path, text) in &files {
        let path = folder.join(path);
        fs::create_dir_all(path.parent().unwrap_or(folder)).map_err(failed)?;
        fs::write(path, text).map_err(failed)?;
    }
    let is_root = |path: &&String| {
        let (above, _) = path.rsplit_once('/').unwrap_or_default();
        path.ends_with("/mod.rs") || !files.contains_key(&format!("{above}/mod.rs"))
    };
    let roots = files.keys().filter(is_root).map(|path| folder.join(path));
    let done = Command::new("rustfmt").args(["--edition", "2024"]).args(roots).output();
    let done = done.map_err(failed)?;
    if !done.status.success() {
        return Err(String::from_utf8_lossy(&done.stderr).into_owned());
    }
    let read = |path: String| Ok((path.clone(), fs::read_to_string(folder.join(path)).map_err(failed)?));
    files.into_keys().map(read).collect()
}

/// Writes the files, and removes others that stand where each file is made. Returns how many differed.
pub fn write(top: &Path) -> Result<usize, String> {
    let files = files(top)?;
    let mut count = 0;
    for path in standing()?.iter().filter(|path| !files.contains_key(*path)) {
        fs::remove_file(path).map_err(|error| format!("{path}: {error}"))?;
        count += 1;
    }
    for (path, text) in &files {
        if fs::read_to_string(path).ok().as_ref() == Some(text) {
            continue;
        }
        let folder = Path::new(path).parent().unwrap_or(Path::new("."));
        fs::create_dir_all(folder).map_err(|error| format!("{path}: {error}"))?;
        fs::write(path, text).map_err(|error| format!("{path}: {error}"))?;
        count += 1;
    }
    Ok(count)
}

/// The files that differ from what the sources make, a line for each; nothing where the package is as it should be.
pub fn difference(top: &Path) -> Result<String, String> {
    let files = files(top)?;
    let mut said = String::new();
    for path in standing()?.iter().filter(|path| !files.contains_key(*path)) {
        said += &format!("{path}: no source makes this file\n");
    }
    for (path, text) in &files {
        match fs::read_to_string(path) {
            Err(error) => said += &format!("{path}: {error}\n"),
            Ok(stands) if stands != *text => {
                let same = stands.lines().zip(text.lines()).take_while(|(a, b)| a == b);
                let line = same.count() + 1;
                said += &format!("{path}:{line}: differs from what its source makes\n");
            }
            Ok(_) => {}
        }
    }
    Ok(said)
}

/// The files that stand where each file is made: those in the folders of `FOLDERS`, and not those right in them.
fn standing() -> Result<Vec<String>, String> {
    let mut found = Vec::new();
    for folder in FOLDERS {
        for inner in entries(folder)?.iter().filter(|path| Path::new(path).is_dir()) {
            if inner != "src/bin" {
                gather(inner, &mut found)?;
            }
        }
    }
    Ok(found)
}

fn gather(folder: &str, found: &mut Vec<String>) -> Result<(), String> {
    for path in entries(folder)? {
        match Path::new(&path).is_dir() {
            true => gather(&path, found)?,
            false => found.push(path),
        }
    }
    Ok(())
}

fn entries(folder: &str) -> Result<Vec<String>, String> {
    let mut found = Vec::new();
    let Ok(read) = fs::read_dir(folder) else { return Ok(found) };
    for entry in read {
        let name = entry.map_err(|error| error.to_string())?.file_name();
        found.push(format!("{folder}/{}", name.to_string_lossy()));
    }
    Ok(found)
}
