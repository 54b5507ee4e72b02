//! The library against the judge on seeded cases.

use crate::chains::{best_by_programme, best_by_trying_all};
use crate::generate::damage::damaged;
use crate::generate::draft::Draft;
use crate::generate::lent::lent_chain;
use crate::generate::{valid, Random};
use crate::reply::{Reply, BREAKS_MODEL};
use crate::sheet::{self, Sheet};
use crate::{library, tuned, Way};
use std::fmt;
use std::thread;

#[cfg(feature = "records")]
use crate::{generate::regions, records};

/// One case of so many is a sheet of full size, and one of so many is full to its last byte.
const FULL_EVERY: u64 = 500;
const BRIMFUL_EVERY: u64 = 2_500;

/// How often each number was replied.
#[derive(Clone, Debug, Default, PartialEq, Eq)]
pub struct Tally {
    pub assemble: [u64; 12],
    pub score_chain: [u64; 12],
    pub region_score: [u64; 12],
    /// Lent chains whose first bad step was the first, one in the middle, the last.
    pub bad_steps: [u64; 3],
    /// Sheets of full size, some of them damaged.
    pub full_size: u64,
}

impl fmt::Display for Tally {
    fn fmt(&self, formatter: &mut fmt::Formatter) -> fmt::Result {
        write!(formatter, "{:14}", "reply")?;
        for number in 0..12 {
            write!(formatter, "{number:>9}")?;
        }
        for (name, counts) in [
            ("assemble", &self.assemble),
            ("score_chain", &self.score_chain),
            ("region_score", &self.region_score),
        ] {
            write!(formatter, "\n{name:14}")?;
            for count in counts {
                write!(formatter, "{count:>9}")?;
            }
        }
        let [first, middle, last] = self.bad_steps;
        write!(
            formatter,
            "\nfirst bad step: first {first}, middle {middle}, last {last}"
        )?;
        write!(formatter, "\nsheets of full size: {}", self.full_size)
    }
}

/// What the library and the judge made of the same case.
#[derive(Debug)]
pub struct Mismatch {
    pub case: u64,
    pub function: &'static str,
    pub lent: String,
    pub judge: String,
    pub library: String,
    pub text: Vec<u8>,
}

impl fmt::Display for Mismatch {
    fn fmt(&self, formatter: &mut fmt::Formatter) -> fmt::Result {
        writeln!(formatter, "case {}: {} differs", self.case, self.function)?;
        writeln!(formatter, "lent: {}", self.lent)?;
        writeln!(formatter, "judge: {}", self.judge)?;
        writeln!(formatter, "library: {}", self.library)?;
        writeln!(formatter, "sheet, {} bytes:", self.text.len())?;
        write!(
            formatter,
            "{}",
            self.text.escape_ascii().to_string().replace("\\n", "\n")
        )
    }
}

/// Runs the cases on a thread with a stack of so many bytes.
pub fn run(seed: u64, cases: u64, stack: usize) -> Result<Tally, Box<Mismatch>> {
    let comparing = thread::Builder::new()
        .stack_size(stack)
        .spawn(move || compare_all(seed, cases))
        .expect("a thread can be started");
    comparing.join().expect("no case panics")
}

fn compare_all(seed: u64, cases: u64) -> Result<Tally, Box<Mismatch>> {
    let mut tally = Tally::default();
    for case in 0..cases {
        let mut random = Random::new(seed ^ case.wrapping_mul(0xd134_2543_de82_ef95));
        compare_sheet(&mut random, case, &mut tally)?;
        #[cfg(feature = "records")]
        compare_region(&mut random, case, &mut tally)?;
    }
    Ok(tally)
}

/// A text, and the plain ways by which its best chain can be found in time.
struct Case {
    text: Vec<u8>,
    sheet: Option<Sheet>,
    plain: Vec<Way>,
}

fn make_case(random: &mut Random, case: u64, tally: &mut Tally) -> Case {
    if case % BRIMFUL_EVERY == BRIMFUL_EVERY - 1 {
        let beyond = random.below(2);
        return case_of(valid::brimful(random, beyond), Vec::new());
    }
    if case % FULL_EVERY == FULL_EVERY - 1 {
        tally.full_size += 1;
        let sheet = valid::full(random);
        let text = if random.chance(25) {
            damaged(random, &sheet).text
        } else {
            Draft::of(&sheet).text()
        };
        return case_of(text, Vec::new());
    }
    match random.below(20) {
        0..=8 => {
            let text = Draft::of(&valid::small(random)).text();
            case_of(text, vec![best_by_programme, best_by_trying_all])
        }
        9..=10 => case_of(
            Draft::of(&valid::medium(random)).text(),
            vec![best_by_programme],
        ),
        11 => {
            let sheet = valid::medium(random);
            case_of(damaged(random, &sheet).text, vec![best_by_programme])
        }
        _ => {
            let sheet = valid::small(random);
            case_of(damaged(random, &sheet).text, vec![best_by_programme])
        }
    }
}

fn case_of(text: Vec<u8>, plain: Vec<Way>) -> Case {
    let sheet = sheet::read(&text).ok();
    Case { text, sheet, plain }
}

fn compare_sheet(random: &mut Random, case: u64, tally: &mut Tally) -> Result<(), Box<Mismatch>> {
    let made = make_case(random, case, tally);
    compare_assemble(random, case, &made, tally)?;
    let chain = match &made.sheet {
        Some(sheet) => lent_chain(random, sheet),
        None => vec![0, 1],
    };
    compare_score_chain(case, &made.text, &chain, tally)
}

/// Sometimes too short, otherwise as long as asked for or longer, and never blank.
fn buffer(random: &mut Random, sheet: Option<&Sheet>) -> Vec<u32> {
    let needed = sheet.map_or(5, |sheet| sheet.last_candidate() + 1);
    let length = match random.below(10) {
        0 => random.below(needed),
        1 => needed - 1,
        2..=5 => needed,
        _ => needed + random.below(9),
    };
    (0..length as u32).map(|at| 0xa5a5_0000 + at).collect()
}

fn compare_assemble(
    random: &mut Random,
    case: u64,
    made: &Case,
    tally: &mut Tally,
) -> Result<(), Box<Mismatch>> {
    let lent = buffer(random, made.sheet.as_ref());
    let mut library_buffer = lent.clone();
    let library_reply = library::assemble(&made.text, &mut library_buffer);
    let mut ways: Vec<Way> = vec![tuned::best];
    ways.extend(&made.plain);
    for way in ways {
        let mut judge_buffer = lent.clone();
        let judge_reply = crate::assemble_by(way, &made.text, &mut judge_buffer);
        if (judge_reply, &judge_buffer) != (library_reply, &library_buffer) {
            return Err(Box::new(Mismatch {
                case,
                function: "lk_assemble",
                lent: format!("a buffer of {}", lent.len()),
                judge: format!("{judge_reply}, buffer {judge_buffer:?}"),
                library: format!("{library_reply}, buffer {library_buffer:?}"),
                text: made.text.clone(),
            }));
        }
    }
    tally.assemble[library_reply.number as usize] += 1;
    Ok(())
}

fn compare_score_chain(
    case: u64,
    text: &[u8],
    chain: &[u32],
    tally: &mut Tally,
) -> Result<(), Box<Mismatch>> {
    let judge = crate::score_chain(text, chain);
    let library = library::score_chain(text, chain);
    if judge != library {
        return Err(Box::new(Mismatch {
            case,
            function: "lk_score_chain",
            lent: format!("chain {chain:?}"),
            judge: judge.to_string(),
            library: library.to_string(),
            text: text.to_vec(),
        }));
    }
    tally.score_chain[judge.number as usize] += 1;
    count_bad_step(&judge, chain.len(), tally);
    Ok(())
}

fn count_bad_step(reply: &Reply, length: usize, tally: &mut Tally) {
    if reply.number != BREAKS_MODEL {
        return;
    }
    if reply.place == 1 {
        tally.bad_steps[0] += 1;
    } else if reply.place + 1 < length as u64 {
        tally.bad_steps[1] += 1;
    } else {
        tally.bad_steps[2] += 1;
    }
}

#[cfg(feature = "records")]
fn compare_region(random: &mut Random, case: u64, tally: &mut Tally) -> Result<(), Box<Mismatch>> {
    let (region, lent) = regions::request(random);
    let judge = records::region_score(region, &lent);
    let library = library::region_score(region, &lent);
    if judge != library {
        return Err(Box::new(Mismatch {
            case,
            function: "lk_region_score",
            lent: format!("{region:?} over {lent:?}"),
            judge: judge.to_string(),
            library: library.to_string(),
            text: Vec::new(),
        }));
    }
    tally.region_score[judge.number as usize] += 1;
    Ok(())
}
