//! Chains to lend: valid ones, lists that are no chain, and chains that break the model.

use super::random::Random;
use crate::score;
use crate::sheet::Sheet;
use crate::tuned;

pub fn lent_chain(random: &mut Random, sheet: &Sheet) -> Vec<u32> {
    match random.below(10) {
        0..=1 => best(random, sheet),
        2..=3 => walked(random, sheet),
        4..=5 => no_chain(random, sheet),
        6..=8 => bent(random, sheet),
        _ => rising(random, sheet),
    }
}

fn end(sheet: &Sheet) -> u32 {
    sheet.last_candidate() as u32
}

fn best(random: &mut Random, sheet: &Sheet) -> Vec<u32> {
    match tuned::best(sheet) {
        Some(best) => best.chain,
        None => rising(random, sheet),
    }
}

/// From BEGIN by steps that are legal for as long as there are any.
fn walked(random: &mut Random, sheet: &Sheet) -> Vec<u32> {
    let mut chain = vec![0];
    let mut at = 0;
    while at < sheet.last_candidate() {
        let targets: Vec<usize> = (at + 1..=sheet.last_candidate())
            .take(12)
            .filter(|&target| score::step(sheet, at, target).is_some())
            .collect();
        at = if targets.is_empty() {
            sheet.last_candidate()
        } else {
            random.pick(&targets)
        };
        chain.push(at as u32);
    }
    chain
}

/// BEGIN, any candidates and END.
fn rising(random: &mut Random, sheet: &Sheet) -> Vec<u32> {
    let between: Vec<u32> = (1..end(sheet)).collect();
    let count = random.below(between.len() + 1);
    let mut chain = vec![0];
    chain.extend(random.some(&between, count));
    chain.push(end(sheet));
    chain
}

fn no_chain(random: &mut Random, sheet: &Sheet) -> Vec<u32> {
    let end = end(sheet);
    let mut chain = if random.chance(50) {
        best(random, sheet)
    } else {
        rising(random, sheet)
    };
    let last = chain.len() - 1;
    let at = random.below(chain.len());
    match random.below(14) {
        0 => chain.clear(),
        1 => chain = vec![0],
        2 => chain = vec![end],
        3 => chain = vec![end + 1],
        4 => {
            chain.remove(0);
        }
        5 => {
            chain.pop();
        }
        6 => chain[0] = 1,
        7 => chain[last] = end + 1,
        8 => chain[last] = u32::MAX,
        9 => chain.insert(at, chain[at]),
        10 => chain.swap(at, (at + 1) % (last + 1)),
        11 => chain.push(end + 1 + random.below(3) as u32),
        12 => chain.insert(last, end + random.below(3) as u32),
        _ => chain.insert(at, u32::MAX),
    }
    chain
}

/// The best chain with one candidate more or less at its front, in its middle or at its back.
fn bent(random: &mut Random, sheet: &Sheet) -> Vec<u32> {
    let mut chain = best(random, sheet);
    let last = chain.len() - 1;
    let step = random.pick(&[1, last.div_ceil(2), last]);
    if random.chance(50) && step < last {
        chain.remove(step);
    } else if chain[step] - chain[step - 1] > 1 {
        let between: Vec<u32> = (chain[step - 1] + 1..chain[step]).collect();
        chain.insert(step, random.pick(&between));
    }
    chain
}
