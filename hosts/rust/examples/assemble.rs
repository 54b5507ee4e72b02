//! assemble SHEET: prints the best structure of a sheet, or why there is none.

use liivokarp::{assemble, Refusal, Structure, MOST_CANDIDATES};
use std::env;
use std::fs;
use std::process::ExitCode;

fn main() -> ExitCode {
    let Some(path) = env::args_os().nth(1) else {
        eprintln!("assemble SHEET");
        return ExitCode::from(2);
    };
    let sheet = match fs::read(&path) {
        Ok(sheet) => sheet,
        Err(fault) => {
            eprintln!("{}: {fault}", path.to_string_lossy());
            return ExitCode::from(2);
        }
    };
    let mut chain = [0; MOST_CANDIDATES];
    match assemble(&sheet, &mut chain) {
        Ok(structure) => {
            print_structure(&sheet, structure);
            ExitCode::SUCCESS
        }
        Err(refusal) => {
            print_refusal(&sheet, refusal);
            ExitCode::FAILURE
        }
    }
}

fn print_structure(sheet: &[u8], structure: Structure) {
    let text = String::from_utf8_lossy(sheet);
    // Candidate k is the k-th F line.
    let sites: Vec<&str> = text.lines().filter(|line| line.starts_with('F')).collect();
    println!("score {}", structure.score);
    for &candidate in structure.chain {
        match candidate as usize {
            0 => println!("{candidate:6}  BEGIN"),
            number if number > sites.len() => println!("{candidate:6}  END"),
            number => println!("{candidate:6}  {}", sites[number - 1]),
        }
    }
}

fn print_refusal(sheet: &[u8], refusal: Refusal) {
    println!("refused with {}: {refusal}", refusal.number());
    if let Some((number, line)) = refusal.line(sheet) {
        println!("line {number}: {}", String::from_utf8_lossy(line));
    }
}
