//! Writes the files of the package that are made of proved sources, and removes those that no source makes any more.
//! It runs in the top folder of the repository: `make package`.

use script::package::{difference, write};
use std::path::Path;
use std::process::ExitCode;

fn main() -> ExitCode {
    let top = Path::new(".");
    let is_check = std::env::args().any(|word| word == "--check");
    let done = match is_check {
        true => difference(top),
        false => write(top).map(|written| format!("{written} files written\n")),
    };
    match done {
        Ok(said) => {
            print!("{said}");
            ExitCode::from(u8::from(is_check && !said.is_empty()))
        }
        Err(error) => {
            eprintln!("{error}");
            ExitCode::FAILURE
        }
    }
}
