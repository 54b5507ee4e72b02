//! Texts that a reader must refuse, each with its refusal where the damage alone decides it.

use super::draft::{trailer, with_trailer, Draft};
use super::random::Random;
use super::valid;
use crate::reply::{
    Refusal, BAD_SIZE, BAD_TRAILER, BEYOND_MOST, MALFORMED, NO_VALID_CHAIN, OUT_OF_ORDER,
    OUT_OF_RANGE, WITHOUT_PARTNER,
};
use crate::sheet::{Sheet, END_KIND, LETTERS, MOST_BYTES, MOST_LINES};

pub struct Damaged {
    pub text: Vec<u8>,
    pub refusal: Option<Refusal>,
}

impl Damaged {
    fn new(text: Vec<u8>, number: u64, place: usize) -> Damaged {
        Damaged {
            text,
            refusal: Some(Refusal::new(number, place)),
        }
    }
}

type Way = fn(&mut Random, &Sheet) -> Option<Damaged>;

/// Every way to damage a sheet; one gives nothing where the sheet has no place for it.
pub const WAYS: [Way; 15] = [
    wrong_size,
    bad_trailer_form,
    bad_trailer_offsets,
    shifted_groups,
    malformed_field,
    malformed_field,
    malformed_line,
    out_of_range,
    out_of_range,
    out_of_order,
    beyond_most,
    without_partner,
    without_chain,
    changed_bytes,
    damaged_twice,
];

pub fn damaged(random: &mut Random, sheet: &Sheet) -> Damaged {
    loop {
        let way = random.pick(&WAYS);
        if let Some(damaged) = way(random, sheet) {
            return damaged;
        }
    }
}

fn wrong_size(random: &mut Random, _: &Sheet) -> Option<Damaged> {
    let text = match random.below(20) {
        0 => valid::brimful(random, 1),
        1..=4 => vec![random.pick(b"\nLT"); MOST_BYTES + 1 + random.below(3)],
        _ => Vec::new(),
    };
    Some(Damaged::new(text, BAD_SIZE, 0))
}

fn bad_trailer_form(random: &mut Random, sheet: &Sheet) -> Option<Damaged> {
    let draft = Draft::of(sheet);
    let begins = draft.begins();
    let right = String::from_utf8(trailer(&begins)).ok()?;
    let text = match random.below(26) {
        0 => draft.body(),
        1 => [draft.body(), right.into_bytes()].concat(),
        2 => with_trailer(draft.text(), b""),
        3 => with_trailer(Vec::new(), &trailer(&[0; 5])),
        4 => b"\n".to_vec(),
        5 => b"T".to_vec(),
        6 => with_trailer(Vec::new(), right.as_bytes()),
        way => {
            let wrong = match way {
                7 => format!("{right}\r"),
                8 => format!("{right} "),
                9 => format!(" {right}"),
                10 => right.to_lowercase(),
                11 => right.replacen(' ', "  ", 1),
                12 => right.replacen(' ', "\t", 1),
                13 => right.replacen(' ', "", 1),
                14 => right.replacen(' ', " 0", 1),
                15 => right.replacen(' ', " +", 1),
                16 => right.replacen(' ', " -", 1),
                17 => format!("{right} {}", begins[4]),
                18 => format!("{right} 0"),
                19 => right[..right.rfind(' ')?].to_string(),
                20 => format!("{right}x"),
                21 => format!("{right}\0"),
                22 => "T".to_string(),
                23 => "T 1234567890 1234567890 1234567890 1234567890 1234567890".to_string(),
                24 => format!("T -0{}", &right[right[2..].find(' ')? + 2..]),
                _ => right.replacen('T', "S", 1),
            };
            with_trailer(draft.body(), wrong.as_bytes())
        }
    };
    Some(Damaged::new(text, BAD_TRAILER, 0))
}

fn bad_trailer_offsets(random: &mut Random, sheet: &Sheet) -> Option<Damaged> {
    let draft = Draft::of(sheet);
    let body = draft.body();
    let mut begins = draft.begins().map(|begin| begin as i64);
    let at = random.below(5);
    match random.below(7) {
        0 => begins[0] = 0,
        1 => begins[0] = -1 - random.between(0, 5),
        2 => begins[at..].fill(body.len() as i64 + random.between(1, 40)),
        3 => begins[at..].fill(999_999_999),
        4 => begins[at] -= random.between(1, 3),
        5 => begins[at] += 1,
        _ => {
            let fallen = (0..at).find(|&earlier| begins[earlier] != begins[at])?;
            begins.swap(fallen, at);
        }
    }
    let numbers: String = begins.iter().map(|begin| format!(" {begin}")).collect();
    let text = with_trailer(body, format!("T{numbers}").as_bytes());
    Some(Damaged::new(text, BAD_TRAILER, 0))
}

/// Offsets that are right in form, but put lines into a group of another letter.
fn shifted_groups(random: &mut Random, sheet: &Sheet) -> Option<Damaged> {
    let draft = Draft::of(sheet);
    let right = draft.begins();
    let mut starts = Vec::new();
    for group in 1..6 {
        for line in 0..draft.groups[group].len() {
            starts.push(draft.offset(group, line));
        }
    }
    starts.push(draft.body().len());
    let mut begins = right;
    begins[random.below(5)] = random.pick(&starts);
    begins.sort_unstable();
    let group_by =
        |begins: &[usize; 5], offset| begins.iter().filter(|&&begin| begin <= offset).count();
    let misplaced = starts[..starts.len() - 1]
        .iter()
        .find(|&&offset| group_by(&begins, offset) != group_by(&right, offset))?;
    let text = with_trailer(draft.body(), &trailer(&begins));
    Some(Damaged::new(text, MALFORMED, *misplaced))
}

/// A line of a group that has one.
fn some_line(random: &mut Random, draft: &Draft) -> (usize, usize) {
    loop {
        let group = random.below(6);
        let count = draft.groups[group].len();
        if count > 0 {
            return (group, random.below(count));
        }
    }
}

fn refused(draft: &Draft, number: u64, group: usize, line: usize) -> Option<Damaged> {
    let text = draft.text();
    (text.len() <= MOST_BYTES).then(|| Damaged::new(text, number, draft.offset(group, line)))
}

fn fields_of(line: &[u8]) -> Vec<Vec<u8>> {
    line.split(|&byte| byte == b' ')
        .map(<[u8]>::to_vec)
        .collect()
}

fn malformed_field(random: &mut Random, sheet: &Sheet) -> Option<Damaged> {
    let mut draft = Draft::of(sheet);
    let (group, line) = some_line(random, &draft);
    let mut fields = fields_of(&draft.groups[group][line]);
    let at = 1 + random.below(fields.len() - 1);
    let right = fields[at].clone();
    fields[at] = match random.below(20) {
        0 => b"".to_vec(),
        1 => b"-".to_vec(),
        2 => b"-0".to_vec(),
        3 => b"00".to_vec(),
        4 => b"--1".to_vec(),
        5 => b"1234567890".to_vec(),
        6 => b"-1234567890".to_vec(),
        7 => b"0000000001".to_vec(),
        8 => b"18446744073709551617".to_vec(),
        9 => b"1e3".to_vec(),
        10 => [b"0", &right[..]].concat(),
        11 => [b"+", &right[..]].concat(),
        12 => [&right[..], b"x"].concat(),
        13 => [&right[..], b".0"].concat(),
        14 => [&right[..], b"-"].concat(),
        15 => [&right[..], b"\0"].concat(),
        16 => [&right[..], b"\r"].concat(),
        17 => vec![random.between(128, 255) as u8],
        18 => vec![random.pick(b"/:;@`\x1f\x0b!")],
        _ => [b"-0", &right[..]].concat(),
    };
    draft.groups[group][line] = fields.join(&b' ');
    refused(&draft, MALFORMED, group, line)
}

fn malformed_line(random: &mut Random, sheet: &Sheet) -> Option<Damaged> {
    let mut draft = Draft::of(sheet);
    let (group, line) = some_line(random, &draft);
    let right = draft.groups[group][line].clone();
    let mut fields = fields_of(&right);
    let wrong_letter = random.pick(b"LPRQFSTD#MX");
    draft.groups[group][line] = match random.below(16) {
        0 => Vec::new(),
        1 => vec![LETTERS[group]],
        2 => vec![LETTERS[group], b' '],
        3 => [&right[..], b" "].concat(),
        4 => [&right[..], b"\r"].concat(),
        5 => [&right[..], b"\0"].concat(),
        6 => [&right[..], b" 0"].concat(),
        7 => [b" ", &right[..]].concat(),
        8 => right.to_ascii_lowercase(),
        9 => right[1..].to_vec(),
        10 => right[2..].to_vec(),
        11 => [&right[..1], &right[2..]].concat(),
        12 => {
            let at = random.below(fields.len() - 1) + 1;
            fields[at].insert(0, random.pick(b" \t"));
            fields.join(&b' ')
        }
        13 => {
            let tab_at = right.iter().rposition(|&byte| byte == b' ')?;
            [&right[..tab_at], b"\t", &right[tab_at + 1..]].concat()
        }
        14 => {
            fields.pop();
            fields.join(&b' ')
        }
        _ if wrong_letter != LETTERS[group] => [&[wrong_letter], &right[1..]].concat(),
        _ => return None,
    };
    refused(&draft, MALFORMED, group, line)
}

fn out_of_range(random: &mut Random, sheet: &Sheet) -> Option<Damaged> {
    let mut draft = Draft::of(sheet);
    let (group, line) = some_line(random, &draft);
    let mut fields = fields_of(&draft.groups[group][line]);
    let at = 1 + random.below(fields.len() - 1);
    let numbers: Vec<i64> = fields[1..]
        .iter()
        .map(|field| String::from_utf8_lossy(field).parse().unwrap_or(0))
        .collect();
    let wrong = wrong_numbers(sheet, group, at - 1, &numbers);
    fields[at] = random.pick(&wrong).to_string().into_bytes();
    draft.groups[group][line] = fields.join(&b' ');
    refused(&draft, OUT_OF_RANGE, group, line)
}

/// Numbers that this field of the line must not have.
fn wrong_numbers(sheet: &Sheet, group: usize, field: usize, numbers: &[i64]) -> Vec<i64> {
    let around = |low: i64, high: i64| vec![low - 1, high + 1, 999_999_999, -999_999_999];
    let length = i64::from(sheet.length);
    match (LETTERS[group], field) {
        (b'L', _) => around(1, 4_000_000),
        (b'P', 0) => around(1, 16),
        (b'P', 1) => around(0, 4_000_000),
        (b'R' | b'Q', 0) => vec![1, -1, 32, 999_999_999],
        (b'R' | b'Q', 1) => around(1, 31),
        (b'R', 2) => around(0, numbers[3]),
        (b'R', 3) => around(numbers[2], 4_000_000),
        (b'R', 4) => around(0, 3),
        (b'R', 5) if numbers[5] == 0 => vec![1, 2, 3, -1],
        (b'R', 5) => vec![0, 3, -1],
        (b'R', 6) if numbers[5] == 0 => vec![1, 2, 31, 32, -1],
        (b'R', 6) => vec![0, 1, 32, -2],
        (b'R', 7) if numbers[5] == 0 => vec![1, 2, -1],
        (b'R', 7) => around(0, 2),
        (b'R', _) => around(0, 17),
        (b'Q', 2) => around(0, 15),
        (b'Q', 3) => around(1, 2),
        (b'Q', _) => around(0, 3),
        (b'F', 0) => around(2, 31),
        (b'F', 1) => around(1, length),
        (b'S', 0) => around(0, 15),
        (b'S', 1) => around(1, numbers[2]),
        (b'S', 2) => around(numbers[1], length),
        _ => around(-10_000_000, 10_000_000),
    }
}

fn out_of_order(random: &mut Random, sheet: &Sheet) -> Option<Damaged> {
    let mut draft = Draft::of(sheet);
    let (group, line) = some_line(random, &draft);
    let count = draft.groups[group].len();
    let lines = &mut draft.groups[group];
    if random.chance(50) {
        if group == 0 || count == MOST_LINES[group] {
            return None;
        }
        let mut again = lines[line].clone();
        if random.chance(50) && matches!(LETTERS[group], b'P' | b'F' | b'S') {
            let mut fields = fields_of(&again);
            let last = fields.len() - 1;
            fields[last] = random.between(-9, 9).to_string().into_bytes();
            again = fields.join(&b' ');
        }
        lines.insert(line + 1, again);
        return refused(&draft, OUT_OF_ORDER, group, line + 1);
    }
    if line + 1 == count {
        return None;
    }
    let later = line + 1 + random.below(count - line - 1);
    let moved = lines.remove(line);
    lines.insert(later, moved);
    refused(&draft, OUT_OF_ORDER, group, later)
}

/// A group with lines beyond its most; the first of them may be wrong in other ways as well.
fn beyond_most(random: &mut Random, sheet: &Sheet) -> Option<Damaged> {
    let mut sheet = sheet.clone();
    sheet.length = sheet.length.max(4_000);
    let mut draft = Draft::of(&sheet);
    let group = random.below(6);
    let most = MOST_LINES[group];
    let count = most + 1 + random.below(3);
    if group > 0 {
        draft.groups[group].clear();
    }
    for number in draft.groups[group].len()..count {
        draft.groups[group].push(numbered_line(group, number).into_bytes());
    }
    let line = &mut draft.groups[group][most];
    let number = match random.below(4) {
        0 => {
            line.push(b' ');
            MALFORMED
        }
        1 => {
            *line = String::from_utf8_lossy(line)
                .replacen(' ', " -", 1)
                .into_bytes();
            BEYOND_MOST
        }
        _ => BEYOND_MOST,
    };
    refused(&draft, number, group, most)
}

/// A line of the group that stands after those of lower numbers.
fn numbered_line(group: usize, number: usize) -> String {
    match LETTERS[group] {
        b'L' => format!("L {}", number + 1),
        b'P' => format!("P {} {} 5", 1 + number / 40, number % 40),
        b'R' => format!("R {} {} 0 9 3 0 0 0 0", 2 + number / 20, 1 + number % 20),
        b'Q' => format!("Q {} {} 0 1 3 0", 2 + number / 20, 1 + number % 20),
        b'F' => format!("F {} {} 7", 2 + number % 3, 1 + number / 3),
        _ => format!("S {} {} 3999 7", number % 3, 1 + number / 3),
    }
}

/// A qualifier whose rule is gone, a rule whose points are gone, or both.
fn without_partner(random: &mut Random, sheet: &Sheet) -> Option<Damaged> {
    let mut sheet = sheet.clone();
    let lonely_rule = random.chance(60) && {
        let functions: Vec<u32> = sheet.points.iter().map(|point| point.function).collect();
        let used: Vec<u32> = sheet
            .rules
            .iter()
            .map(|rule| rule.function)
            .filter(|function| functions.contains(function))
            .collect();
        if !used.is_empty() {
            let gone = random.pick(&used);
            sheet.points.retain(|point| point.function != gone);
        }
        !used.is_empty()
    };
    let lonely_qualifier = !sheet.qualifiers.is_empty() && random.chance(60);
    if lonely_qualifier {
        let qualifier = random.pick(&sheet.qualifiers);
        sheet
            .rules
            .retain(|rule| rule.key() != (qualifier.source, qualifier.target));
    }
    let draft = Draft::of(&sheet);
    let has_rule = |source, target| {
        sheet
            .rules
            .iter()
            .any(|rule| rule.key() == (source, target))
    };
    let has_point = |function| {
        matches!(function, 0 | 17) || sheet.points.iter().any(|point| point.function == function)
    };
    if lonely_qualifier {
        let line = sheet
            .qualifiers
            .iter()
            .position(|qualifier| !has_rule(qualifier.source, qualifier.target))?;
        return refused(&draft, WITHOUT_PARTNER, 3, line);
    }
    if lonely_rule {
        let line = sheet
            .rules
            .iter()
            .position(|rule| !has_point(rule.function))?;
        return refused(&draft, WITHOUT_PARTNER, 2, line);
    }
    None
}

/// A sheet that is read, but has no rule into END.
fn without_chain(_: &mut Random, sheet: &Sheet) -> Option<Damaged> {
    let mut sheet = sheet.clone();
    sheet.rules.retain(|rule| rule.target != END_KIND);
    sheet
        .qualifiers
        .retain(|qualifier| qualifier.target != END_KIND);
    Some(Damaged::new(Draft::of(&sheet).text(), NO_VALID_CHAIN, 0))
}

/// A few bytes changed, wherever they are.
fn changed_bytes(random: &mut Random, sheet: &Sheet) -> Option<Damaged> {
    let mut text = Draft::of(sheet).text();
    for _ in 0..1 + random.below(3) {
        let at = random.below(text.len());
        let byte = random.pick(b"0123456789- \n\r\0LPRQFSTx\xff");
        match random.below(4) {
            0 => text[at] = byte,
            1 => text.insert(at, byte),
            2 if text.len() > 1 => {
                text.remove(at);
            }
            _ => {
                let other = random.below(text.len());
                text.swap(at, other);
            }
        }
    }
    Some(Damaged {
        text,
        refusal: None,
    })
}

/// Two lines with a fault each; the order of the checks decides between them.
fn damaged_twice(random: &mut Random, sheet: &Sheet) -> Option<Damaged> {
    let mut draft = Draft::of(sheet);
    for _ in 0..2 {
        let (group, line) = some_line(random, &draft);
        let mut fields = fields_of(&draft.groups[group][line]);
        let at = random.below(fields.len());
        match random.below(4) {
            0 => fields[at] = random.between(-1, 32).to_string().into_bytes(),
            1 => fields[at].push(b'0'),
            2 => fields.swap(at, random.below(2)),
            _ => {
                let again = draft.groups[group][line].clone();
                draft.groups[group].insert(line, again);
            }
        }
        draft.groups[group][line] = fields.join(&b' ');
    }
    Some(Damaged {
        text: draft.text(),
        refusal: None,
    })
}
