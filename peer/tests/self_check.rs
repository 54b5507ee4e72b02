//! The judge against itself, against the bench values of the scope and against the sheets with
//! known answers.

use peer::chains::{best_by_programme, best_by_trying_all};
use peer::generate::damage::{damaged, WAYS};
use peer::generate::draft::Draft;
use peer::generate::{valid, Random};
use peer::reply::{Refusal, Reply};
use peer::score::{penalty, sum_by_base, sum_by_stretch};
use peer::sheet::{self, Point, Segment, MOST_BYTES};
use peer::{assemble, region_score, report, score_chain, tuned, Region};
use std::fs;
use std::path::Path;

const SHEET_ONE: &str = "L 100
P 1 0 1000
P 1 20 0
R 0 1 0 100 3 0 0 0 0
R 0 2 0 100 3 0 0 0 0
R 2 3 5 100 2 1 3 2 1
R 3 1 0 100 3 0 0 0 0
Q 2 3 0 2 3 0
F 2 10 1500
F 2 13 200
F 3 24 500
F 3 39 3000
S 0 10 21 2400
T 6 26 114 128 174
";

/// The lines with a trailer that fits them.
fn with_right_trailer(lines: &str) -> Vec<u8> {
    let mut draft = Draft {
        groups: Default::default(),
    };
    for line in lines.lines().filter(|line| !line.starts_with('T')) {
        let group = "LPRQFS".find(&line[..1]).expect("a group's letter");
        draft.groups[group].push(line.as_bytes().to_vec());
    }
    draft.text()
}

fn refusal(number: u64, place: u64) -> Reply {
    Refusal { number, place }.into()
}

fn assert_best(text: &[u8], score: i64, chain: &[u32]) {
    let mut buffer = vec![77; 2000];
    assert_eq!(assemble(text, &mut buffer), Reply::done(score, chain.len()));
    assert_eq!(&buffer[..chain.len()], chain);
    assert!(buffer[chain.len()..].iter().all(|&entry| entry == 77));
}

fn assert_refused(text: &[u8], number: u64, place: u64) {
    let mut buffer = vec![77; 2000];
    assert_eq!(assemble(text, &mut buffer), refusal(number, place));
    assert!(buffer.iter().all(|&entry| entry == 77));
}

#[test]
fn sheet_one() {
    assert_eq!(with_right_trailer(SHEET_ONE), SHEET_ONE.as_bytes());
    assert_best(SHEET_ONE.as_bytes(), 4100, &[0, 1, 3, 5]);
    assert_eq!(
        report(SHEET_ONE.as_bytes()),
        "0 0 4100 4\n0 0 1\n1 2 10\n3 3 24\n5 1 100\n"
    );
}

#[test]
fn changed_sheet_one() {
    let worse_start = SHEET_ONE.replace("F 2 10 1500", "F 2 10 -5000");
    assert_best(&with_right_trailer(&worse_start), 2050, &[0, 2, 3, 5]);
    let tie = SHEET_ONE.replace("F 2 13 200", "F 2 13 2250");
    assert_best(&with_right_trailer(&tie), 4100, &[0, 2, 3, 5]);
    let one_stop = SHEET_ONE.replace("F 3 24 500\n", "");
    assert_best(&with_right_trailer(&one_stop), 6900, &[0, 1, 3, 4]);
    let no_way = SHEET_ONE
        .replace("R 0 1 0 100 3 0 0 0 0\n", "")
        .replace("R 3 1 0 100 3 0 0 0 0\n", "");
    assert_refused(&with_right_trailer(&no_way), 9, 0);
}

#[test]
fn lent_chains_of_sheet_one() {
    let text = SHEET_ONE.as_bytes();
    assert_eq!(score_chain(text, &[0, 1, 4, 5]), refusal(11, 2));
    assert_eq!(score_chain(text, &[0, 1, 3, 5]), Reply::done(4100, 4));
    assert_eq!(score_chain(text, &[0, 5]), Reply::done(0, 2));
    assert_eq!(score_chain(text, &[0, 3, 5]), refusal(11, 1));
    assert_eq!(score_chain(text, &[0, 1, 5]), refusal(11, 2));
    let no_chains: [&[u32]; 9] = [
        &[],
        &[0],
        &[5],
        &[1, 5],
        &[0, 4],
        &[0, 6],
        &[0, 3, 3, 5],
        &[0, 6, 5],
        &[0, 4, 1, 5],
    ];
    for chain in no_chains {
        assert_eq!(score_chain(text, chain), refusal(10, 0));
    }
}

#[test]
fn short_buffer() {
    let mut buffer = vec![77; 5];
    assert_eq!(assemble(SHEET_ONE.as_bytes(), &mut buffer), refusal(8, 0));
    assert_eq!(buffer, vec![77; 5]);
    let mut buffer = vec![77; 6];
    let reply = assemble(SHEET_ONE.as_bytes(), &mut buffer);
    assert_eq!(reply, Reply::done(4100, 4));
    assert_eq!(buffer, [0, 1, 3, 5, 77, 77]);
}

#[test]
fn penalties() {
    let points = [(0, 0), (3, -10)].map(|(distance, penalty)| Point {
        function: 1,
        distance,
        penalty,
    });
    let falling = [1, 2, 3, 4].map(|distance| penalty(&points, 1, distance));
    assert_eq!(falling, [-4, -7, -10, -10]);
    let intron = [20, 48, 100, 1023, 1024, 4_000_000].map(|distance| penalty(&[], 17, distance));
    assert_eq!(intron, [6000, 1500, 191, 4000, 4000, 4000]);
}

fn segment(start: u32, end: u32, score: i64) -> Segment {
    Segment {
        kind: 0,
        start,
        end,
        score,
    }
}

fn region(source: u32, target: u32, method: u32) -> Region {
    Region {
        source,
        target,
        kind: 0,
        method,
        phase: 3,
        matching: 0,
    }
}

#[test]
fn region_scores() {
    let low = segment(10, 21, -2401);
    let far = segment(50, 60, 5);
    assert_eq!(
        region_score(region(10, 12, 1), &[low]),
        Reply::done(-601, 0)
    );
    assert_eq!(
        region_score(region(10, 12, 1), &[low, far]),
        Reply::done(0, 0)
    );
    let short = segment(4, 6, 100);
    assert_eq!(region_score(region(4, 6, 2), &[short]), Reply::done(99, 0));
    assert_eq!(region_score(region(4, 6, 2), &[]), Reply::done(0, 0));
}

#[test]
fn refused_records() {
    let good = segment(10, 21, 5);
    let most = segment(4_000_000, 4_000_000, -10_000_000);
    let asked = region(1, 4_000_000, 1);
    assert_eq!(region_score(asked, &[good, most]).number, 0);
    for bad in [
        segment(0, 3, 5),
        segment(5, 4, 5),
        segment(5, 4_000_001, 5),
        segment(5, 6, 10_000_001),
        segment(5, 6, -10_000_001),
        Segment { kind: 16, ..good },
    ] {
        assert_eq!(region_score(asked, &[bad]), refusal(4, 1));
        assert_eq!(region_score(asked, &[good, bad]), refusal(4, 2));
    }
    assert_eq!(region_score(asked, &[good, good]), refusal(5, 2));
    assert_eq!(region_score(asked, &[most, good]), refusal(5, 2));
    let many: Vec<Segment> = (1..=1025).map(|start| segment(start, 5000, 1)).collect();
    assert_eq!(region_score(asked, &many), refusal(7, 1025));
    assert_eq!(region_score(asked, &many[1..]).number, 0);
    for bad in [
        region(0, 5, 1),
        region(6, 5, 1),
        region(5, 4_000_001, 1),
        region(5, 6, 0),
        region(5, 6, 3),
        Region { kind: 16, ..asked },
        Region { phase: 4, ..asked },
        Region {
            matching: 4,
            ..asked
        },
    ] {
        assert_eq!(region_score(bad, &many), refusal(4, 0));
    }
}

#[test]
fn smallest_sheets() {
    assert_best(&with_right_trailer("L 1\nR 0 1 0 5 3 0 0 0 0"), 0, &[0, 1]);
    assert_refused(&with_right_trailer("L 1\nR 0 1 1 5 3 0 0 0 0"), 9, 0);
    assert_refused(b"", 1, 0);
    assert_refused(&with_right_trailer("L 1"), 9, 0);
    assert_refused(&with_right_trailer("L 4000000"), 9, 0);
    assert_refused(&with_right_trailer("L 4000001"), 4, 0);
    assert_refused(b"\nT 1 1 1 1 1\n", 3, 0);
    assert_refused(b"T 1 1 1 1 1\n", 2, 0);
    assert_refused(b"L 5\nL 0\nT 8 8 8 8 8\n", 7, 4);
    assert_refused(b"L 5\nT 4 4 4 4 4\nT 4 4 4 4 4\n", 3, 4);
}

#[test]
fn forced_chain_of_300() {
    let mut lines =
        "L 302\nR 0 2 1 1 3 0 0 0 0\nR 2 1 1 1 3 0 0 0 0\nR 2 2 1 1 3 0 0 0 0\n".to_string();
    for position in 2..302 {
        lines += &format!("F 2 {position} -10000000\n");
    }
    let chain: Vec<u32> = (0..=301).collect();
    assert_best(&with_right_trailer(&lines), -3_000_000_000, &chain);
}

#[test]
fn most_features() {
    let mut lines = "L 2000\nR 0 1 0 5000 3 0 0 0 0\n".to_string();
    for position in 1..=1024 {
        lines += &format!("F 2 {position} 0\n");
    }
    assert_best(&with_right_trailer(&lines), 0, &[0, 1025]);
    let place = lines.len();
    lines += "F 2 1025 0\n";
    assert_refused(&with_right_trailer(&lines), 7, place as u64);
}

/// The number of sheets in a folder beside this package, each of which gets the answer beside it.
fn count_answered(folder: &str) -> usize {
    let folder = Path::new(env!("CARGO_MANIFEST_DIR"))
        .join("..")
        .join(folder);
    let mut count = 0;
    for entry in fs::read_dir(folder).expect("the folder of sheets") {
        let path = entry.expect("an entry").path();
        if path.extension().is_some_and(|extension| extension == "txt") {
            let text = fs::read(&path).expect("a sheet");
            let answer = fs::read_to_string(path.with_extension("out")).expect("its answer");
            assert!(report(&text) == answer, "{}", path.display());
            count += 1;
        }
    }
    count
}

#[test]
fn sheets_with_answers() {
    assert_eq!(count_answered("sheets"), 15);
}

#[test]
fn examples_with_answers() {
    assert_eq!(count_answered("examples"), 3);
}

#[test]
fn sums_by_base_and_by_stretch_agree() {
    let mut random = Random::new(4);
    for _ in 0..3000 {
        let sheet = valid::small(&mut random);
        let source = random.between(1, 60);
        let target = random.between(source, 60);
        assert_eq!(
            sum_by_base(&sheet.segments, source, target),
            sum_by_stretch(&sheet.segments, source, target)
        );
    }
}

#[test]
fn three_ways_agree_on_small_sheets() {
    let mut random = Random::new(1);
    let mut with_chain = 0;
    for _ in 0..20_000 {
        let drawn = valid::small(&mut random);
        let text = Draft::of(&drawn).text();
        let sheet = sheet::read(&text).expect("a valid sheet");
        assert_eq!(sheet, drawn);
        let best = best_by_trying_all(&sheet);
        let shown = String::from_utf8_lossy(&text);
        assert_eq!(best, best_by_programme(&sheet), "\n{shown}");
        assert_eq!(best, tuned::best(&sheet), "\n{shown}");
        with_chain += usize::from(best.is_some());
    }
    assert!(with_chain > 12_000);
}

#[test]
fn two_ways_agree_on_medium_sheets() {
    let mut random = Random::new(2);
    for _ in 0..2_000 {
        let sheet = valid::medium(&mut random);
        let shown = Draft::of(&sheet).text();
        let shown = String::from_utf8_lossy(&shown);
        assert_eq!(best_by_programme(&sheet), tuned::best(&sheet), "\n{shown}");
    }
}

#[test]
fn two_ways_agree_on_large_sheets() {
    let mut random = Random::new(6);
    for _ in 0..40 {
        let sheet = valid::large(&mut random);
        assert_eq!(best_by_programme(&sheet), tuned::best(&sheet));
    }
}

#[test]
fn two_ways_agree_on_full_sheets() {
    for seed in [102, 103, 110] {
        let sheet = valid::full(&mut Random::new(seed));
        assert_eq!(best_by_programme(&sheet), tuned::best(&sheet));
    }
}

#[test]
fn full_sheets_are_read() {
    let mut random = Random::new(3);
    let mut at_most = 0;
    for _ in 0..40 {
        let sheet = valid::full(&mut random);
        let text = Draft::of(&sheet).text();
        assert_eq!(sheet::read(&text).as_ref(), Ok(&sheet));
        let counts = [
            sheet.points.len(),
            sheet.rules.len(),
            sheet.qualifiers.len(),
            sheet.features.len(),
            sheet.segments.len(),
        ];
        at_most += usize::from(counts == [512, 256, 256, 1024, 1024]);
        let Some(best) = tuned::best(&sheet) else {
            continue;
        };
        assert_eq!(
            score_chain(&text, &best.chain),
            Reply::done(best.score, best.chain.len())
        );
    }
    assert!(at_most > 30);
    let brimful = valid::brimful(&mut random, 0);
    assert_eq!(brimful.len(), MOST_BYTES);
    assert!(sheet::read(&brimful).is_ok());
    let beyond = valid::brimful(&mut random, 1);
    assert_eq!(beyond.len(), MOST_BYTES + 1);
    assert_refused(&beyond, 1, 0);
}

#[test]
fn damage_is_refused_as_foretold() {
    let mut random = Random::new(5);
    for round in 0..4_000 {
        let sheet = if round % 4 == 0 {
            valid::medium(&mut random)
        } else {
            valid::small(&mut random)
        };
        for way in WAYS {
            let Some(damaged) = way(&mut random, &sheet) else {
                continue;
            };
            let mut buffer = vec![77; 2000];
            let reply = assemble(&damaged.text, &mut buffer);
            if let Some(foretold) = damaged.refusal {
                let shown = damaged.text.escape_ascii();
                assert_eq!(reply, foretold.into(), "\n{shown}");
            }
        }
        damaged(&mut random, &sheet);
    }
}
