//! The runs over text: a script of filters, polynomials or intervals, from standard input to standard output.
//!
//!     cargo run --release --features runs --example runs -- filter|poly|interval <SCRIPT
//!
//! It ends with 0; with 1 where the script has a cause, which standard error names; with 2 for other words.

use std::io::{self, Read, Write};
use std::process::ExitCode;
use zugyelmas::filter::filter_run;
use zugyelmas::interval::interval_run;
use zugyelmas::memory::Global;
use zugyelmas::poly::poly_run;
use zugyelmas::text;

/// What a run prints, or its fault in words.
fn ran(name: &str, script: &[u8]) -> Option<Result<text::Output, String>> {
    match name {
        "filter" => Some(filter_run(Global, script).map_err(|fault| format!("{fault:?}"))),
        "poly" => Some(poly_run(Global, script).map_err(|fault| format!("{fault:?}"))),
        "interval" => Some(interval_run(Global, script).map_err(|fault| format!("{fault:?}"))),
        _ => None,
    }
}

fn main() -> io::Result<ExitCode> {
    let words: Vec<String> = std::env::args().skip(1).collect();
    let mut script = Vec::new();
    io::stdin().read_to_end(&mut script)?;
    match words.first().and_then(|name| ran(name, &script)) {
        Some(Ok(output)) => {
            io::stdout().write_all(output.as_bytes())?;
            Ok(ExitCode::SUCCESS)
        }
        Some(Err(fault)) => {
            eprintln!("{fault}");
            Ok(ExitCode::from(1))
        }
        None => {
            eprintln!("usage: runs filter|poly|interval <SCRIPT");
            Ok(ExitCode::from(2))
        }
    }
}
