//! A sheet, read from its text or refused with 1 to 7.

use crate::reply::{
    Refusal, BAD_SIZE, BAD_TRAILER, BEYOND_MOST, MALFORMED, OUT_OF_ORDER, OUT_OF_RANGE,
    WITHOUT_PARTNER,
};
use std::ops::RangeInclusive;

pub const MOST_BYTES: usize = 65_536;
pub const LONGEST: i64 = 4_000_000;
pub const LARGEST_SCORE: i64 = 10_000_000;

/// The groups in the order in which they stand.
pub const LETTERS: [u8; 6] = *b"LPRQFS";
pub const MOST_LINES: [usize; 6] = [1, 512, 256, 256, 1_024, 1_024];
pub const MOST_CANDIDATES: usize = MOST_LINES[4] + 2;
pub const MOST_SEGMENTS: usize = MOST_LINES[5];

pub const BEGIN_KIND: u32 = 0;
pub const END_KIND: u32 = 1;
/// The shipped intron penalty, which needs no P line.
pub const INTRON_FUNCTION: u32 = 17;

#[derive(Clone, Copy, Debug, PartialEq, Eq)]
pub struct Point {
    pub function: u32,
    pub distance: u32,
    pub penalty: i64,
}

#[derive(Clone, Copy, Debug, PartialEq, Eq)]
pub enum Interruption {
    None,
    FromSource { kind: u32, remainder: u32 },
    FromTarget { kind: u32, remainder: u32 },
}

#[derive(Clone, Copy, Debug, PartialEq, Eq)]
pub struct Rule {
    pub source: u32,
    pub target: u32,
    pub min: u32,
    pub max: u32,
    pub phase: u32,
    pub interruption: Interruption,
    pub function: u32,
}

#[derive(Clone, Copy, Debug, PartialEq, Eq)]
pub struct Qualifier {
    pub source: u32,
    pub target: u32,
    pub kind: u32,
    pub method: u32,
    pub phase: u32,
    pub matching: u32,
}

#[derive(Clone, Copy, Debug, PartialEq, Eq)]
pub struct Feature {
    pub kind: u32,
    pub position: u32,
    pub score: i64,
}

#[repr(C)]
#[derive(Clone, Copy, Debug, PartialEq, Eq)]
pub struct Segment {
    pub kind: u32,
    pub start: u32,
    pub end: u32,
    pub score: i64,
}

#[derive(Clone, Debug, Default, PartialEq, Eq)]
pub struct Sheet {
    pub length: u32,
    pub points: Vec<Point>,
    pub rules: Vec<Rule>,
    pub qualifiers: Vec<Qualifier>,
    pub features: Vec<Feature>,
    pub segments: Vec<Segment>,
}

impl Point {
    pub fn key(&self) -> (u32, u32) {
        (self.function, self.distance)
    }
}

impl Rule {
    pub fn key(&self) -> (u32, u32) {
        (self.source, self.target)
    }
}

impl Qualifier {
    pub fn key(&self) -> (u32, u32, u32) {
        (self.source, self.target, self.kind)
    }
}

impl Feature {
    pub fn key(&self) -> (u32, u32) {
        (self.position, self.kind)
    }
}

impl Segment {
    pub fn key(&self) -> (u32, u32, u32) {
        (self.start, self.end, self.kind)
    }
}

impl Sheet {
    /// The number of END; BEGIN is 0 and the features stand between.
    pub fn last_candidate(&self) -> usize {
        self.features.len() + 1
    }

    pub fn candidate(&self, number: usize) -> Feature {
        if number == 0 {
            Feature {
                kind: BEGIN_KIND,
                position: 1,
                score: 0,
            }
        } else if number == self.last_candidate() {
            Feature {
                kind: END_KIND,
                position: self.length,
                score: 0,
            }
        } else {
            self.features[number - 1]
        }
    }
}

pub fn read(text: &[u8]) -> Result<Sheet, Refusal> {
    if text.is_empty() || text.len() > MOST_BYTES {
        return Err(Refusal::new(BAD_SIZE, 0));
    }
    let trailer = read_trailer(text).ok_or(Refusal::new(BAD_TRAILER, 0))?;
    let mut reader = Reader::default();
    let mut offset = 0;
    while offset < trailer.offset {
        let line = &text[offset..];
        let length = reader
            .read_line(trailer.group_at(offset), offset, line)
            .map_err(|number| Refusal::new(number, offset))?;
        offset += length;
    }
    reader.check_partners()?;
    Ok(reader.into_sheet())
}

struct Trailer {
    offset: usize,
    begins: [usize; 5],
}

impl Trailer {
    /// An empty group begins where the next does, so the last group that begins at or before the
    /// offset holds it.
    fn group_at(&self, offset: usize) -> usize {
        self.begins.iter().filter(|&&begin| begin <= offset).count()
    }
}

fn read_trailer(text: &[u8]) -> Option<Trailer> {
    let before_last_byte = text.strip_suffix(b"\n")?;
    let offset = before_last_byte
        .iter()
        .rposition(|&byte| byte == b'\n')
        .map_or(0, |line_feed| line_feed + 1);
    let (numbers, _) = read_fields::<5>(b'T', &text[offset..])?;
    let mut begins = [0; 5];
    let mut least = 1;
    for (begin, number) in begins.iter_mut().zip(numbers) {
        if number < least || number > offset as i64 {
            return None;
        }
        least = number;
        *begin = number as usize;
        if text[*begin - 1] != b'\n' {
            return None;
        }
    }
    Some(Trailer { offset, begins })
}

/// The numbers of a line with this letter, and the line's length with its line feed. The text goes
/// on behind the line and holds at least one line feed.
fn read_fields<const COUNT: usize>(letter: u8, text: &[u8]) -> Option<([i64; COUNT], usize)> {
    if text[0] != letter {
        return None;
    }
    let mut numbers = [0; COUNT];
    let mut at = 1;
    for number in &mut numbers {
        if text[at] != b' ' {
            return None;
        }
        let (value, length) = read_number(&text[at + 1..])?;
        *number = value;
        at += 1 + length;
    }
    (text[at] == b'\n').then_some((numbers, at + 1))
}

fn read_number(text: &[u8]) -> Option<(i64, usize)> {
    let negative = text[0] == b'-';
    let sign = usize::from(negative);
    let mut value: i64 = 0;
    let mut digits = 0;
    for byte in &text[sign..] {
        let digit = byte.wrapping_sub(b'0');
        if digit > 9 {
            break;
        }
        value = value.wrapping_mul(10).wrapping_add(i64::from(digit));
        digits += 1;
    }
    let leading_zero = text[sign] == b'0' && (digits > 1 || negative);
    if digits == 0 || digits > 9 || leading_zero {
        return None;
    }
    Some((if negative { -value } else { value }, sign + digits))
}

#[derive(Default)]
struct Reader {
    lengths: Vec<u32>,
    points: Vec<Point>,
    rules: Vec<Rule>,
    rule_offsets: Vec<usize>,
    qualifiers: Vec<Qualifier>,
    qualifier_offsets: Vec<usize>,
    features: Vec<Feature>,
    segments: Vec<Segment>,
}

impl Reader {
    /// The length of the line with its line feed, or the number of its refusal.
    fn read_line(&mut self, group: usize, offset: usize, line: &[u8]) -> Result<usize, u64> {
        match group {
            0 => take(group, line, &mut self.lengths, length_of, |&length| length),
            1 => take(group, line, &mut self.points, point_of, Point::key),
            2 => {
                let length = take(group, line, &mut self.rules, rule_of, Rule::key)?;
                self.rule_offsets.push(offset);
                Ok(length)
            }
            3 => {
                let list = &mut self.qualifiers;
                let length = take(group, line, list, qualifier_of, Qualifier::key)?;
                self.qualifier_offsets.push(offset);
                Ok(length)
            }
            4 => {
                let longest = i64::from(self.lengths[0]);
                let make = |fields| feature_of(longest, fields);
                take(group, line, &mut self.features, make, Feature::key)
            }
            _ => {
                let longest = i64::from(self.lengths[0]);
                let make = |fields| segment_of(longest, fields);
                take(group, line, &mut self.segments, make, Segment::key)
            }
        }
    }

    fn check_partners(&self) -> Result<(), Refusal> {
        for (qualifier, &offset) in self.qualifiers.iter().zip(&self.qualifier_offsets) {
            let pair = (qualifier.source, qualifier.target);
            if self.rules.binary_search_by_key(&pair, Rule::key).is_err() {
                return Err(Refusal::new(WITHOUT_PARTNER, offset));
            }
        }
        let mut has_point = [false; 18];
        has_point[0] = true;
        has_point[INTRON_FUNCTION as usize] = true;
        for point in &self.points {
            has_point[point.function as usize] = true;
        }
        for (rule, &offset) in self.rules.iter().zip(&self.rule_offsets) {
            if !has_point[rule.function as usize] {
                return Err(Refusal::new(WITHOUT_PARTNER, offset));
            }
        }
        Ok(())
    }

    fn into_sheet(self) -> Sheet {
        Sheet {
            length: self.lengths[0],
            points: self.points,
            rules: self.rules,
            qualifiers: self.qualifiers,
            features: self.features,
            segments: self.segments,
        }
    }
}

/// Checks one line in the order 3, 7, 4, 5 and appends what it says.
fn take<const COUNT: usize, Item, Key: PartialOrd>(
    group: usize,
    line: &[u8],
    list: &mut Vec<Item>,
    make: impl Fn([i64; COUNT]) -> Option<Item>,
    key: impl Fn(&Item) -> Key,
) -> Result<usize, u64> {
    let (fields, length) = read_fields(LETTERS[group], line).ok_or(MALFORMED)?;
    if list.len() == MOST_LINES[group] {
        return Err(BEYOND_MOST);
    }
    let item = make(fields).ok_or(OUT_OF_RANGE)?;
    if list.last().is_some_and(|before| key(before) >= key(&item)) {
        return Err(OUT_OF_ORDER);
    }
    list.push(item);
    Ok(length)
}

fn within(range: RangeInclusive<i64>, value: i64) -> Option<u32> {
    range.contains(&value).then_some(value as u32)
}

pub fn score_within(value: i64) -> Option<i64> {
    (-LARGEST_SCORE..=LARGEST_SCORE)
        .contains(&value)
        .then_some(value)
}

fn source_kind(value: i64) -> Option<u32> {
    within(0..=31, value).filter(|&kind| kind != END_KIND)
}

fn target_kind(value: i64) -> Option<u32> {
    within(1..=31, value)
}

fn length_of([length]: [i64; 1]) -> Option<u32> {
    within(1..=LONGEST, length)
}

fn point_of([function, distance, penalty]: [i64; 3]) -> Option<Point> {
    Some(Point {
        function: within(1..=16, function)?,
        distance: within(0..=LONGEST, distance)?,
        penalty: score_within(penalty)?,
    })
}

fn rule_of(fields: [i64; 9]) -> Option<Rule> {
    let [source, target, min, max, phase, interruption, kind, remainder, function] = fields;
    Some(Rule {
        source: source_kind(source)?,
        target: target_kind(target)?,
        min: within(0..=max, min)?,
        max: within(0..=LONGEST, max)?,
        phase: within(0..=3, phase)?,
        interruption: interruption_of(interruption, kind, remainder)?,
        function: within(0..=17, function)?,
    })
}

fn interruption_of(interruption: i64, kind: i64, remainder: i64) -> Option<Interruption> {
    if interruption == 0 {
        return (kind == 0 && remainder == 0).then_some(Interruption::None);
    }
    let kind = within(2..=31, kind)?;
    let remainder = within(0..=2, remainder)?;
    match interruption {
        1 => Some(Interruption::FromSource { kind, remainder }),
        2 => Some(Interruption::FromTarget { kind, remainder }),
        _ => None,
    }
}

fn qualifier_of([source, target, kind, method, phase, matching]: [i64; 6]) -> Option<Qualifier> {
    Some(Qualifier {
        source: source_kind(source)?,
        target: target_kind(target)?,
        kind: within(0..=15, kind)?,
        method: within(1..=2, method)?,
        phase: within(0..=3, phase)?,
        matching: within(0..=3, matching)?,
    })
}

fn feature_of(longest: i64, [kind, position, score]: [i64; 3]) -> Option<Feature> {
    Some(Feature {
        kind: within(2..=31, kind)?,
        position: within(1..=longest, position)?,
        score: score_within(score)?,
    })
}

pub fn segment_of(longest: i64, [kind, start, end, score]: [i64; 4]) -> Option<Segment> {
    Some(Segment {
        kind: within(0..=15, kind)?,
        start: within(1..=longest, start)?,
        end: within(start..=longest, end)?,
        score: score_within(score)?,
    })
}
