//! The sheets of the repository, each against the answer beside it.

mod stack;

use liivokarp::{assemble, score_chain, Structure, MOST_CANDIDATES};
use stack::on_a_large_stack;
use std::fs;
use std::path::Path;

/// What the program `assemble` prints for this structure.
fn report(sheet: &str, structure: Structure) -> String {
    let length = sheet.lines().next().expect("an L line");
    let length = length.strip_prefix("L ").expect("an L line");
    let mut candidates = vec!["0 1".to_string()];
    for line in sheet.lines().filter(|line| line.starts_with('F')) {
        let fields: Vec<&str> = line.split(' ').collect();
        candidates.push(format!("{} {}", fields[1], fields[2]));
    }
    candidates.push(format!("1 {length}"));
    let mut lines = format!("0 0 {} {}\n", structure.score, structure.chain.len());
    for &number in structure.chain {
        lines += &format!("{number} {}\n", candidates[number as usize]);
    }
    lines
}

fn check(path: &Path) {
    let sheet = fs::read_to_string(path).expect("a sheet");
    let answer = fs::read_to_string(path.with_extension("out")).expect("its answer");
    let mut chain = [u32::MAX; MOST_CANDIDATES];
    let structure = assemble(sheet.as_bytes(), &mut chain).expect("a structure");
    assert!(report(&sheet, structure) == answer, "{}", path.display());
    let scored = score_chain(sheet.as_bytes(), structure.chain);
    assert_eq!(scored, Ok(structure.score));
    let length = structure.chain.len();
    assert!(chain[length..].iter().all(|&entry| entry == u32::MAX));
}

/// The number of sheets in a folder of the repository, each of which has been checked.
fn count_checked(folder: &str) -> usize {
    let folder = Path::new(env!("CARGO_MANIFEST_DIR"))
        .join("../..")
        .join(folder);
    let mut count = 0;
    for entry in fs::read_dir(folder).expect("the folder of sheets") {
        let path = entry.expect("an entry").path();
        if path.extension().is_some_and(|extension| extension == "txt") {
            check(&path);
            count += 1;
        }
    }
    count
}

#[test]
fn sheets() {
    assert_eq!(on_a_large_stack(|| count_checked("sheets")), 15);
}

#[test]
fn examples() {
    assert_eq!(on_a_large_stack(|| count_checked("examples")), 3);
}
