//! The verdict on a sheet: `check [FILE]`, or standard input. The status is 0 for an accepted
//! sheet, 1 for a refused one, 2 if there is none.

use quanta_check::{check, Verdict};
use std::io::Read;
use std::process::ExitCode;
use std::{env, fs, io};

fn read_sheet() -> io::Result<Vec<u8>> {
    match env::args_os().nth(1) {
        Some(path) => fs::read(path),
        None => {
            let mut sheet = Vec::new();
            io::stdin().read_to_end(&mut sheet)?;
            Ok(sheet)
        }
    }
}

fn main() -> ExitCode {
    let sheet = match read_sheet() {
        Ok(sheet) => sheet,
        Err(error) => {
            eprintln!("{error}");
            return ExitCode::from(2);
        }
    };
    let verdict = check(&sheet).verdict;
    println!("{verdict}");
    match verdict {
        Verdict::Accepted => ExitCode::SUCCESS,
        _ => ExitCode::FAILURE,
    }
}
