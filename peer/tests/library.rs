//! The library against the judge on 20,000 seeded cases, which reach every reply.

use peer::comparison;

const SEED: u64 = 20_260_416;
const CASES: u64 = 20_000;
const STACK: usize = 16 << 20;

/// How often each number from 0 to 11 must be replied at the least.
const ASSEMBLE: [u64; 12] = [4000, 300, 1000, 1000, 500, 300, 150, 250, 1000, 500, 0, 0];
const SCORE_CHAIN: [u64; 12] = [2000, 300, 1000, 1000, 500, 300, 150, 250, 0, 0, 1000, 1000];
#[cfg(feature = "records")]
const REGION_SCORE: [u64; 12] = [5000, 0, 0, 0, 1000, 200, 0, 100, 0, 0, 0, 0];
const BAD_STEPS: u64 = 300;
const FULL_SIZE: u64 = 30;

fn assert_reached(name: &str, counts: &[u64; 12], least: &[u64; 12]) {
    for (number, (count, least)) in counts.iter().zip(least).enumerate() {
        assert!(count >= least, "{name} replied {number} only {count} times");
    }
}

#[test]
fn library_agrees() {
    let tally = match comparison::run(SEED, CASES, STACK) {
        Ok(tally) => tally,
        Err(mismatch) => panic!("seed {SEED}, {mismatch}"),
    };
    println!("{tally}");
    assert_reached("assemble", &tally.assemble, &ASSEMBLE);
    assert_reached("score_chain", &tally.score_chain, &SCORE_CHAIN);
    #[cfg(feature = "records")]
    assert_reached("region_score", &tally.region_score, &REGION_SCORE);
    assert!(tally.bad_steps.iter().all(|&count| count >= BAD_STEPS));
    assert!(tally.full_size >= FULL_SIZE);
}
