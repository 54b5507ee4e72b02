//! Every refusal, with its place.

mod stack;

use liivokarp::{assemble, region_score, score_chain, Refusal, Region, Segment, MOST_CANDIDATES};
use stack::on_a_large_stack;

const SHEET_ONE: &str = include_str!("../../../sheets/sheet_one.txt");

/// The refusal of a sheet, by both functions that take one.
fn refusal_of(sheet: &[u8]) -> Refusal {
    let mut chain = [77; MOST_CANDIDATES];
    let refusal = assemble(sheet, &mut chain).expect_err("a refusal");
    assert!(chain.iter().all(|&entry| entry == 77));
    assert_eq!(score_chain(sheet, &[0, 1]), Err(refusal));
    refusal
}

fn changed(from: &str, to: &str) -> Vec<u8> {
    assert!(SHEET_ONE.contains(from));
    SHEET_ONE.replace(from, to).into_bytes()
}

#[test]
fn sheets() {
    on_a_large_stack(|| {
        assert_eq!(refusal_of(b""), Refusal::SheetSize);
        assert_eq!(refusal_of(&[b'\n'; 65_537]), Refusal::SheetSize);
        assert_eq!(refusal_of(&[b'\n'; 65_536]), Refusal::Trailer);
        assert_eq!(refusal_of(&changed("T 6", "T 7")), Refusal::Trailer);

        let malformed = refusal_of(&changed("P 1 0 1000", "P 1 00 100"));
        assert_eq!(malformed, Refusal::Malformed { offset: 6 });
        let out_of_range = refusal_of(&changed("P 1 20 0", "P 0 20 0"));
        assert_eq!(out_of_range, Refusal::OutOfRange { offset: 17 });
        let out_of_order = refusal_of(&changed("F 2 13 200", "F 2 10 200"));
        assert_eq!(out_of_order, Refusal::OutOfOrder { offset: 140 });
        let without_rule = refusal_of(&changed("Q 2 3 0", "Q 3 3 0"));
        assert_eq!(without_rule, Refusal::WithoutPartner { offset: 114 });
        let second_length = refusal_of(b"L 5\nL 5\nT 8 8 8 8 8\n");
        assert_eq!(second_length, Refusal::BeyondMost { offset: 4 });
    });
}

#[test]
fn no_structure() {
    on_a_large_stack(|| {
        let mut chain = [77; 6];
        let refused = assemble(b"L 5\nT 4 4 4 4 4\n", &mut chain);
        assert_eq!(refused, Err(Refusal::NoValidChain));
        let refused = assemble(SHEET_ONE.as_bytes(), &mut chain[..5]);
        assert_eq!(refused, Err(Refusal::ShortBuffer));
        assert_eq!(chain, [77; 6]);
        let refused = assemble(b"L 5\nT 4 4 4 4 4\n", &mut []);
        assert_eq!(refused, Err(Refusal::ShortBuffer));
    });
}

#[test]
fn chains() {
    on_a_large_stack(|| {
        let score = |chain: &[u32]| score_chain(SHEET_ONE.as_bytes(), chain);
        assert_eq!(score(&[0, 1, 3, 5]), Ok(4100));
        assert_eq!(score(&[0, 1, 4, 5]), Err(Refusal::BreaksModel { step: 2 }));
        for list in [&[][..], &[0], &[0, 3, 3, 5], &[0, 4]] {
            assert_eq!(score(list), Err(Refusal::NotAChain));
        }
    });
}

const SEGMENT: Segment = Segment {
    kind: 0,
    start: 10,
    end: 21,
    score: -2401,
};

const REGION: Region = Region {
    source: 10,
    target: 12,
    kind: 0,
    method: 1,
    phase: 3,
    matching: 0,
};

#[test]
fn regions() {
    on_a_large_stack(|| {
        assert_eq!(region_score(REGION, &[]), Ok(0));
        assert_eq!(region_score(REGION, &[SEGMENT]), Ok(-601));
        let far = Segment {
            start: 50,
            end: 60,
            score: 5,
            ..SEGMENT
        };
        assert_eq!(region_score(REGION, &[SEGMENT, far]), Ok(0));

        let refused = region_score(REGION, &[far, SEGMENT]);
        assert_eq!(refused, Err(Refusal::RecordOutOfOrder { record: 2 }));
        let refused = region_score(REGION, &[SEGMENT, Segment { kind: 16, ..far }]);
        assert_eq!(refused, Err(Refusal::RecordOutOfRange { record: 2 }));
        let refused = region_score(
            Region {
                source: 0,
                ..REGION
            },
            &[],
        );
        assert_eq!(refused, Err(Refusal::RegionOutOfRange));
        let record = |start| Segment {
            start,
            end: 5000,
            ..SEGMENT
        };
        let many: Vec<Segment> = (1..=1025).map(record).collect();
        let refused = region_score(REGION, &many);
        assert_eq!(refused, Err(Refusal::RecordBeyondMost { record: 1025 }));
    });
}

#[test]
fn numbers_and_places() {
    let refusal = Refusal::WithoutPartner { offset: 114 };
    assert_eq!((refusal.number(), refusal.place()), (6, 114));
    let line = refusal.line(SHEET_ONE.as_bytes());
    assert_eq!(line, Some((8, &b"Q 2 3 0 2 3 0"[..])));
    assert!(refusal.to_string().contains("byte 114"));
    let refusal = Refusal::RecordOutOfRange { record: 3 };
    assert_eq!((refusal.number(), refusal.place()), (4, 3));
    assert_eq!(refusal.line(SHEET_ONE.as_bytes()), None);
    let beyond_the_sheet = Refusal::Malformed { offset: 1 << 40 };
    assert_eq!(beyond_the_sheet.line(SHEET_ONE.as_bytes()), None);
}
