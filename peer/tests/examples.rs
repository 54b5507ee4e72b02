//! The figures that the README of `../examples` names.

use peer::chains::{score_of_lent_chain, Best};
use peer::reply::{Refusal, BREAKS_MODEL};
use peer::sheet::{self, Feature, Interruption, Rule, Segment, Sheet, BEGIN_KIND, END_KIND};
use peer::tuned;
use std::fs;
use std::path::Path;

/// A site on a chain: type and position.
type Site = (u32, u32);

fn example(name: &str) -> Sheet {
    let folder = Path::new(env!("CARGO_MANIFEST_DIR")).join("../examples");
    let text = fs::read(folder.join(name)).expect("an example");
    sheet::read(&text).expect("a sheet")
}

fn chain_through(sheet: &Sheet, sites: &[Site]) -> Vec<u32> {
    let number_of = |site: &Site| {
        let stands_there = |feature: &Feature| (feature.kind, feature.position) == *site;
        let index = sheet.features.iter().position(stands_there);
        index.expect("a site of the sheet") as u32 + 1
    };
    let mut chain = vec![0];
    chain.extend(sites.iter().map(number_of));
    chain.push(sheet.last_candidate() as u32);
    chain
}

fn score(sheet: &Sheet, parts: &[&[Site]]) -> Result<i64, Refusal> {
    score_of_lent_chain(sheet, &chain_through(sheet, &parts.concat()))
}

fn assert_best(sheet: &Sheet, parts: &[&[Site]], score: i64) {
    let chain = chain_through(sheet, &parts.concat());
    assert_eq!(tuned::best(sheet), Some(Best { score, chain }));
}

fn bad_step(step: usize) -> Result<i64, Refusal> {
    Err(Refusal::new(BREAKS_MODEL, step))
}

fn without_feature(sheet: &Sheet, site: Site) -> Sheet {
    let mut changed = sheet.clone();
    changed
        .features
        .retain(|feature| (feature.kind, feature.position) != site);
    changed
}

fn without_segments(sheet: &Sheet, unwanted: impl Fn(&Segment) -> bool) -> Sheet {
    let mut changed = sheet.clone();
    changed.segments.retain(|segment| !unwanted(segment));
    changed
}

/// The same site on the other strand, or the other end of the sequence.
fn twin(kind: u32) -> u32 {
    match kind {
        BEGIN_KIND => END_KIND,
        END_KIND => BEGIN_KIND,
        2..=16 => kind + 15,
        _ => kind - 15,
    }
}

fn mirrored(rule: &Rule) -> Rule {
    let interruption = match rule.interruption {
        Interruption::None => Interruption::None,
        Interruption::FromSource { kind, remainder } => Interruption::FromTarget {
            kind: twin(kind),
            remainder,
        },
        Interruption::FromTarget { kind, remainder } => Interruption::FromSource {
            kind: twin(kind),
            remainder,
        },
    };
    Rule {
        source: twin(rule.target),
        target: twin(rule.source),
        interruption,
        ..*rule
    }
}

#[test]
fn the_reverse_strand_is_the_mirror() {
    for name in ["standard.txt", "trans_splicing.txt", "est.txt"] {
        let sheet = example(name);
        for rule in &sheet.rules {
            assert!(sheet.rules.contains(&mirrored(rule)), "{name}: {rule:?}");
        }
    }
}

#[test]
fn standard() {
    let sheet = example("standard.txt");
    let inner = [(8, 611), (6, 761), (9, 894), (3, 1092)];
    let reverse = [(18, 1701), (24, 1851), (21, 1956), (17, 2131)];
    let best = [&[(2, 401), (5, 521)], &inner[..], &reverse];
    assert_best(&sheet, &best, 58_440);

    let closed_start = [&[(2, 350), (5, 521)], &inner[..], &reverse];
    assert_eq!(score(&sheet, &closed_start), bad_step(2));
    assert_best(&without_feature(&sheet, (3, 376)), &closed_start, 59_988);

    let short_intron = [&[(2, 401), (5, 521), (8, 551)], &inner[1..], &reverse];
    assert_eq!(score(&sheet, &short_intron), bad_step(3));
    let from_the_left = [&[(8, 551)], &inner[1..], &reverse];
    assert_eq!(score(&sheet, &from_the_left), Ok(58_440 - 9_577));

    let third_gene = [best[0], best[1], &[(2, 1200), (3, 1349)], &reverse];
    assert_eq!(score(&sheet, &third_gene), Ok(58_440 - 3_022));
}

#[test]
fn trans_splicing() {
    let sheet = example("trans_splicing.txt");
    let first = [(2, 301), (4, 420), (7, 481)];
    let inner = [(5, 1002), (8, 1070), (3, 1269)];
    let reverse = [(18, 2001), (22, 2180), (19, 2245)];
    let two_genes = [(3, 699), (10, 815), (2, 828)];
    let trans_spliced = [(17, 2394), (25, 2410)];
    let best = [&first[..], &two_genes, &inner, &reverse, &trans_spliced];
    assert_best(&sheet, &best, 64_968);

    let joined = [(6, 662), (9, 815)];
    let one_gene = [&first[..], &joined, &inner, &reverse, &trans_spliced];
    assert_eq!(score(&sheet, &one_gene), Ok(63_490));
    let cut_by_end = [&first[..], &two_genes, &inner, &reverse, &[(24, 2410)]];
    assert_eq!(score(&sheet, &cut_by_end), Ok(64_968 - 2_631));

    let standard = without_trans_splicing(&sheet);
    let answer = [&first[..], &joined, &inner, &reverse, &[(24, 2410)]];
    assert_best(&standard, &answer, 60_859);
    let apart = [(3, 699), (2, 828)];
    let two_genes = [&first[..], &apart, &inner, &reverse, &[(24, 2410)]];
    assert_eq!(score(&standard, &two_genes), Ok(58_990));
}

fn without_trans_splicing(sheet: &Sheet) -> Sheet {
    let mut changed = sheet.clone();
    let kept = |kind: u32| kind != 10 && kind != 25;
    changed
        .rules
        .retain(|rule| kept(rule.source) && kept(rule.target));
    changed.features.retain(|feature| kept(feature.kind));
    changed
}

#[test]
fn est() {
    let sheet = example("est.txt");
    let left = [(11, 451), (2, 501)];
    let weak_exon = [(6, 640), (9, 760), (4, 820), (7, 1180)];
    let between = [(3, 1479), (12, 1620), (27, 2301), (18, 2410)];
    let right = [(24, 2590), (21, 2700), (17, 2851), (26, 2931)];
    let best = [&left[..], &weak_exon, &between, &right];
    assert_best(&sheet, &best, 64_273);

    let split = [(3, 680), (10, 1180), (2, 1201)];
    let two_genes = [&left[..], &split, &between, &right];
    assert_eq!(score(&sheet, &two_genes), Ok(-4_222_435));
    let without_span = without_segments(&sheet, |segment| segment.kind == 8);
    assert_best(&without_span, &two_genes, 66_949);
    let mut spans_of_one_type = sheet.clone();
    for segment in &mut spans_of_one_type.segments {
        segment.kind = segment.kind.min(8);
    }
    assert_best(&spans_of_one_type, &two_genes, 66_949);

    let other_acceptor = [(24, 2584), (21, 2700), (17, 2851), (26, 2931)];
    let other = [&left[..], &weak_exon, &between, &other_acceptor];
    assert_eq!(score(&sheet, &other), Ok(64_273 - 3_832));
    let without_intron = without_segments(&sheet, |segment| segment.kind == 7);
    assert_best(&without_intron, &other, 64_273 - 3_832);
    assert_eq!(score(&without_intron, &best), Ok(64_273 - 3_832 - 1_068));
}
