//! Compares the library with the judge: seed, number of cases and, if not 16, the megabytes of
//! stack that the library may use.

use std::env;
use std::process::ExitCode;

fn main() -> ExitCode {
    let arguments: Result<Vec<u64>, _> = env::args().skip(1).map(|word| word.parse()).collect();
    let (seed, cases, megabytes) = match arguments.as_deref() {
        Ok(&[seed, cases]) => (seed, cases, 16),
        Ok(&[seed, cases, megabytes]) => (seed, cases, megabytes),
        _ => {
            eprintln!("compare SEED CASES [MEGABYTES OF STACK]");
            return ExitCode::from(2);
        }
    };
    match peer::comparison::run(seed, cases, (megabytes as usize) << 20) {
        Ok(tally) => {
            println!("seed {seed}, {cases} cases, no difference");
            println!("{tally}");
            ExitCode::SUCCESS
        }
        Err(mismatch) => {
            println!("seed {seed}, {mismatch}");
            ExitCode::FAILURE
        }
    }
}
