//! The rehearsal program: standard input to standard output, over the
//! reference, or over the library under test with `--library`.
//! `--check FOLDER` runs each .in file of the folder instead and compares it
//! with the .out file beside it.

use differential::calls::{Calls, LIBRARY, REFERENCE};
use differential::session;
use std::io::{Read, Write};
use std::path::Path;
use std::process::ExitCode;

fn check(folder: &Path, calls: &Calls) -> std::io::Result<bool> {
    let mut inputs: Vec<_> = std::fs::read_dir(folder)?
        .filter_map(|entry| entry.ok().map(|e| e.path()))
        .filter(|path| path.extension().is_some_and(|e| e == "in"))
        .collect();
    inputs.sort();
    let mut wrong = 0;
    for path in &inputs {
        let printed = session::run(&std::fs::read(path)?, calls);
        let expected = std::fs::read(path.with_extension("out"))?;
        if printed.as_bytes() != expected {
            wrong += 1;
            println!("differs: {}", path.display());
        }
    }
    println!("{} sessions, {} differ", inputs.len(), wrong);
    Ok(wrong == 0 && !inputs.is_empty())
}

fn main() -> ExitCode {
    let mut calls = &REFERENCE;
    let mut folder = None;
    let mut arguments = std::env::args().skip(1);
    while let Some(argument) = arguments.next() {
        match argument.as_str() {
            "--library" => calls = &LIBRARY,
            "--check" => folder = arguments.next(),
            _ => {
                eprintln!("usage: session [--library] [--check FOLDER]");
                return ExitCode::from(2);
            }
        }
    }
    if let Some(folder) = folder {
        return match check(Path::new(&folder), calls) {
            Ok(true) => ExitCode::SUCCESS,
            Ok(false) => ExitCode::from(1),
            Err(e) => {
                eprintln!("{folder}: {e}");
                ExitCode::from(2)
            }
        };
    }
    let mut input = Vec::new();
    if let Err(e) = std::io::stdin().read_to_end(&mut input) {
        eprintln!("standard input: {e}");
        return ExitCode::from(2);
    }
    let printed = session::run(&input, calls);
    match std::io::stdout().write_all(printed.as_bytes()) {
        Ok(()) => ExitCode::SUCCESS,
        Err(_) => ExitCode::from(2),
    }
}
