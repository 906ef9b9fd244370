//! A scuffed frame file: which records are kept, and of each that is dropped its place and the first rule that it broke, from the text
//! of change request 2026-12.

use crate::elementary::in_domain;
use crate::frames::{fetch, follows, FIELD_AT, LAST_PICTURE, RECORD, SIDE_AT, SPARE_AT, VALUES_AT};

/// What a record that is dropped breaks, in the order in which the rules are looked at.
#[derive(Clone, Copy, Debug, PartialEq, Eq, PartialOrd, Ord)]
pub enum Rule {
    /// The picture is not from 1 to 79,999.
    Picture = 1,
    /// The side is neither 1 nor 2.
    Side,
    /// The field is not 0, 1 or 2.
    Field,
    /// A spare byte is not zero.
    Spare,
    /// A feature or a start is not finite or above 2^20 in magnitude.
    Value,
    /// Good by itself, but it may not follow the last record kept.
    Order,
    /// Not a whole record.
    Tail,
}

/// All rules.
pub const RULES: [Rule; 7] = [
    Rule::Picture,
    Rule::Side,
    Rule::Field,
    Rule::Spare,
    Rule::Value,
    Rule::Order,
    Rule::Tail,
];

impl Rule {
    /// How the rule is told.
    pub fn number(self) -> u8 {
        self as u8
    }
}

/// The target is shorter than the whole records given, or there are fewer places or rules than records.
#[derive(Clone, Copy, Debug, PartialEq, Eq)]
pub struct Short;

/// How many records are kept and how many are told.
#[derive(Clone, Copy, Debug, PartialEq, Eq)]
pub struct Salvaged {
    pub kept: usize,
    pub told: usize,
}

/// The first rule that a record breaks, after the picture and field of the last one that was kept.
pub fn broken(record: &[u8], before: Option<(u32, u8)>) -> Option<Rule> {
    let frame = match fetch(record, 0) {
        Some(frame) => frame,
        None => return Some(Rule::Tail),
    };
    let values = frame.features.iter().chain(&frame.starts);
    let rules = [
        (frame.picture == 0 || frame.picture > LAST_PICTURE, Rule::Picture),
        (![1, 2].contains(&record[SIDE_AT]), Rule::Side),
        (record[FIELD_AT] > 2, Rule::Field),
        (record[SPARE_AT..VALUES_AT] != [0, 0], Rule::Spare),
        (values.into_iter().any(|&v| !in_domain(v)), Rule::Value),
        (
            before.map_or(false, |before| !follows(before, (frame.picture, frame.field))),
            Rule::Order,
        ),
    ];
    rules.into_iter().find(|rule| rule.0).map(|rule| rule.1)
}

/// The records that are kept, one after the other, and of each that is dropped its place and the first rule that it broke.
pub fn sorted_out(file: &[u8]) -> (Vec<u8>, Vec<(usize, Rule)>) {
    let (mut kept, mut told) = (Vec::new(), Vec::new());
    let mut before = None;
    for (place, record) in file.chunks(RECORD).enumerate() {
        match broken(record, before) {
            Some(rule) => told.push((place, rule)),
            None => {
                kept.extend(record);
                before = fetch(record, 0).map(|frame| (frame.picture, frame.field));
            }
        }
    }
    (kept, told)
}

/// Copies the records that are kept to the front of the target, and tells of each that is dropped its place and its rule.
pub fn salvage(file: &[u8], target: &mut [u8], places: &mut [u64], rules: &mut [u8]) -> Result<Salvaged, Short> {
    let (whole, records) = (file.len() / RECORD, file.chunks(RECORD).len());
    if target.len() < RECORD * whole || places.len() < records || rules.len() < records {
        return Err(Short);
    }
    let (kept, told) = sorted_out(file);
    target[..kept.len()].copy_from_slice(&kept);
    for (i, (place, rule)) in told.iter().enumerate() {
        places[i] = *place as u64;
        rules[i] = rule.number();
    }
    Ok(Salvaged {
        kept: kept.len() / RECORD,
        told: told.len(),
    })
}

#[cfg(test)]
mod tests {
    use super::*;
    use crate::frames::{check, record, Checked};

    const VALUES: [f64; 8] = [0.5, -1.0, 2.0, 1_048_576.0, -1_048_576.0, -0.0, 3.0, 4.0];

    fn file(pairs: &[(u32, u8)]) -> Vec<u8> {
        pairs
            .iter()
            .flat_map(|&(picture, field)| record(picture, 1, field, &VALUES))
            .collect()
    }

    /// What is told of a file, and the pictures and fields that are kept.
    fn told(file: &[u8]) -> (Vec<(u32, u8)>, Vec<(usize, Rule)>) {
        let (kept, told) = sorted_out(file);
        let count = kept.len() / RECORD;
        assert_eq!(check(&kept), Checked::Good(count));
        assert_eq!(count + told.len(), file.chunks(RECORD).len());
        let frames = (0..count).filter_map(|place| fetch(&kept, place));
        (frames.map(|frame| (frame.picture, frame.field)).collect(), told)
    }

    #[test]
    fn a_good_file_comes_through() {
        let good = file(&[(1, 0), (5, 1), (5, 2), (79_999, 0)]);
        assert_eq!(sorted_out(&good), (good.clone(), Vec::new()));
        assert_eq!(sorted_out(&[]), (Vec::new(), Vec::new()));
    }

    #[test]
    fn order_is_against_the_last_one_kept() {
        let pairs = [
            (5, 0),
            (9, 0),
            (6, 0),
            (7, 0),
            (9, 1),
            (10, 2),
            (10, 1),
            (10, 2),
            (11, 0),
        ];
        let dropped = [2, 3, 4, 6, 7].map(|place| (place, Rule::Order)).to_vec();
        assert_eq!(told(&file(&pairs)), (vec![(5, 0), (9, 0), (10, 2), (11, 0)], dropped));
        // A record that is dropped for another rule is no last one.
        let mut scuffed = file(&[(5, 0), (900, 0), (6, 0)]);
        scuffed[RECORD + SIDE_AT] = 3;
        assert_eq!(told(&scuffed), (vec![(5, 0), (6, 0)], vec![(1, Rule::Side)]));
        // Nor is there a last one before the first that is kept.
        scuffed[..4].copy_from_slice(&[0; 4]);
        assert_eq!(
            told(&scuffed),
            (vec![(6, 0)], vec![(0, Rule::Picture), (1, Rule::Side)])
        );
    }

    #[test]
    fn the_first_rule_is_told() {
        let mut scuffed = file(&[(7, 0), (7, 0)]);
        let changes: [(usize, &[u8], Rule); 6] = [
            (0, &[], Rule::Order),
            (VALUES_AT + 63, &[0x7f], Rule::Value),
            (SPARE_AT + 1, &[1], Rule::Spare),
            (FIELD_AT, &[3], Rule::Field),
            (SIDE_AT, &[0], Rule::Side),
            (0, &[0, 0, 0, 1], Rule::Picture),
        ];
        for (at, bytes, rule) in changes {
            let at = RECORD + at;
            scuffed[at..at + bytes.len()].copy_from_slice(bytes);
            assert_eq!(told(&scuffed), (vec![(7, 0)], vec![(1, rule)]));
        }
        for length in RECORD + 1..2 * RECORD {
            assert_eq!(told(&scuffed[..length]), (vec![(7, 0)], vec![(1, Rule::Tail)]));
        }
        assert_eq!(RULES.map(Rule::number), [1, 2, 3, 4, 5, 6, 7]);
    }

    #[test]
    fn areas() {
        let mut scuffed = file(&[(1, 0), (1, 0), (2, 0)]);
        scuffed.push(9);
        let told = |target: usize, places: usize, rules: usize| {
            let (mut bytes, mut told, mut broken) = (vec![9; target], vec![9; places], vec![9; rules]);
            let answer = salvage(&scuffed, &mut bytes, &mut told, &mut broken);
            if answer.is_err() {
                assert!(bytes == vec![9; target] && told == vec![9; places] && broken == vec![9; rules]);
            } else {
                assert_eq!(bytes[..RECORD], scuffed[..RECORD]);
                assert_eq!(bytes[RECORD..2 * RECORD], scuffed[2 * RECORD..3 * RECORD]);
                assert!(bytes[2 * RECORD..].iter().all(|&byte| byte == 9), "the tail is kept");
                assert_eq!((&told[..2], &broken[..2]), (&[1, 3][..], &[6, 7][..]));
                assert!(told[2..].iter().all(|&place| place == 9) && broken[2..].iter().all(|&rule| rule == 9));
            }
            answer
        };
        let salvaged = Ok(Salvaged { kept: 2, told: 2 });
        assert_eq!(told(3 * RECORD, 4, 4), salvaged);
        assert_eq!(told(3 * RECORD + 5, 7, 5), salvaged);
        assert_eq!(told(3 * RECORD - 1, 4, 4), Err(Short));
        assert_eq!(told(3 * RECORD, 3, 4), Err(Short));
        assert_eq!(told(3 * RECORD, 4, 3), Err(Short));
    }
}
