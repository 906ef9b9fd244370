//! A scuffed frame file: the records that are good, and what is wrong with each of the others.

use crate::library;
use crate::map::RECORD;
use crate::Refusal;
use std::fmt;

/// What a record that is dropped breaks: the first rule that it does, in this order.
#[derive(Clone, Copy, Debug, PartialEq, Eq)]
pub enum Rule {
    Picture = 1,
    Side,
    Field,
    Spare,
    Value,
    /// It is good by itself, but may not follow the last record kept.
    Order,
    /// It is not whole: the bytes after the last whole record.
    Tail,
}

impl Rule {
    /// The rule with this number, from 1 to 7.
    pub fn of(number: u8) -> Option<Rule> {
        let rules = [
            Rule::Picture,
            Rule::Side,
            Rule::Field,
            Rule::Spare,
            Rule::Value,
            Rule::Order,
            Rule::Tail,
        ];
        rules.into_iter().find(|&rule| rule as u8 == number)
    }
}

impl fmt::Display for Rule {
    fn fmt(&self, f: &mut fmt::Formatter<'_>) -> fmt::Result {
        f.write_str(match self {
            Rule::Picture => "its picture is not from 1 to 79999",
            Rule::Side => "its side is not 1 or 2",
            Rule::Field => "its field is not 0, 1 or 2",
            Rule::Spare => "its spare bytes are not zero",
            Rule::Value => "a value of it is not finite or above 2^20 in magnitude",
            Rule::Order => "it is out of order after the last record kept",
            Rule::Tail => "it is not whole",
        })
    }
}

/// Copies to the front of the target every record of a file that is good by itself and in order after the last one kept, and tells of
/// each other its place and the number of the first rule that it broke, at the fronts of places and rules. Bytes after the last whole
/// record count as one more. Answers how many are kept and how many are told. 12, with nothing written, where the target is shorter than
/// the whole records or there are fewer places or rules than records.
pub fn salvage(file: &[u8], target: &mut [u8], places: &mut [u64], rules: &mut [u8]) -> Result<[usize; 2], Refusal> {
    let mut answer = [0; 2];
    let number = unsafe {
        library::brothanchor_salvage(
            file.as_ptr(),
            file.len(),
            target.as_mut_ptr(),
            target.len(),
            places.as_mut_ptr(),
            places.len(),
            rules.as_mut_ptr(),
            rules.len(),
            answer.as_mut_ptr(),
            answer.len(),
        )
    };
    Refusal::unless_0(number).map(|()| answer.map(|count| count as usize))
}

/// A record that is dropped.
#[derive(Clone, Copy, Debug, PartialEq, Eq)]
pub struct Dropped {
    /// Its place in the file, counted from 0.
    pub place: usize,
    pub rule: Rule,
    /// Its picture, where that can be read and is in its range.
    pub picture: Option<u32>,
    /// The picture of the last record kept before it, if any.
    pub last_kept: Option<u32>,
}

/// What is salvaged of a frame file.
#[derive(Clone, Debug, PartialEq, Eq)]
pub struct Salvaged {
    /// The good file.
    pub file: Vec<u8>,
    /// The records that are dropped, by their places.
    pub dropped: Vec<Dropped>,
}

/// Records that are dropped for their order alone, with none kept between them.
#[derive(Clone, Copy, Debug, PartialEq, Eq)]
pub struct Stretch {
    /// How many they are.
    pub count: usize,
    /// The places of the first and of the last one.
    pub first: usize,
    pub last: usize,
    /// The place of the last record that was kept before them, and its picture.
    pub after: usize,
    pub picture: u32,
}

impl Salvaged {
    /// What is salvaged of a frame file.
    pub fn of(file: &[u8]) -> Result<Salvaged, Refusal> {
        let records = file.chunks(RECORD).len();
        let (mut target, mut places, mut rules) = (vec![0; file.len()], vec![0; records], vec![0; records]);
        let [kept, told] = salvage(file, &mut target, &mut places, &mut rules)?;
        target.truncate(RECORD * kept);
        // As many were kept before a record as were not dropped.
        let dropped = |(i, (&place, &rule)): (usize, (&u64, &u8))| Dropped {
            place: place as usize,
            rule: Rule::of(rule).expect("a rule that is told is from 1 to 7"),
            picture: picture(file, place as usize),
            last_kept: (place as usize - i)
                .checked_sub(1)
                .and_then(|last| picture(&target, last)),
        };
        let dropped = places.iter().zip(&rules).take(told).enumerate().map(dropped).collect();
        Ok(Salvaged { file: target, dropped })
    }

    /// How many records are kept.
    pub fn kept(&self) -> usize {
        self.file.len() / RECORD
    }

    /// The stretches of more than so many records that are dropped for their order. Of such a stretch the record before it may be the
    /// bad one: a picture that was scuffed upwards leaves no room for what comes after it.
    pub fn stretches(&self, few: usize) -> Vec<Stretch> {
        let mut stretches: Vec<Stretch> = Vec::new();
        // The place of the last record kept, and the place after the last one dropped.
        let (mut after, mut next) = (0, 0);
        for dropped in &self.dropped {
            let place = dropped.place;
            if place > next {
                after = place - 1;
            }
            next = place + 1;
            match stretches.last_mut() {
                _ if dropped.rule != Rule::Order => {}
                Some(stretch) if stretch.after == after => {
                    stretch.count += 1;
                    stretch.last = place;
                }
                _ => stretches.push(Stretch {
                    count: 1,
                    first: place,
                    last: place,
                    after,
                    picture: dropped
                        .last_kept
                        .expect("what is out of order comes after a record kept"),
                }),
            }
        }
        stretches.retain(|stretch| stretch.count > few);
        stretches
    }
}

/// The picture of a record, also of one that is not whole, where its number is there and in its range.
fn picture(file: &[u8], place: usize) -> Option<u32> {
    let begin = place.checked_mul(RECORD)?;
    let bytes = file.get(begin..begin.checked_add(4)?)?;
    let picture = u32::from_le_bytes(bytes.try_into().ok()?);
    Some(picture).filter(|picture| (1..=79_999).contains(picture))
}

#[cfg(test)]
mod tests {
    use super::*;

    /// A file with these pictures that is all zeros else.
    fn file(pictures: &[u32]) -> Vec<u8> {
        let record = |picture: &u32| [&picture.to_le_bytes()[..], &[0; RECORD - 4]].concat();
        pictures.iter().flat_map(record).collect()
    }

    #[test]
    fn stretches_out_of_order() {
        let dropped = |place: usize, rule: Rule, last_kept: u32| Dropped {
            place,
            rule,
            picture: None,
            last_kept: Some(last_kept),
        };
        // Kept are 0, 2, 8 and 10.
        let salvaged = Salvaged {
            file: file(&[5, 900, 1000, 1001]),
            dropped: vec![
                dropped(1, Rule::Side, 5),
                dropped(3, Rule::Order, 900),
                dropped(4, Rule::Order, 900),
                dropped(5, Rule::Picture, 900),
                dropped(6, Rule::Order, 900),
                dropped(7, Rule::Value, 900),
                dropped(9, Rule::Order, 1000),
                dropped(11, Rule::Tail, 1001),
            ],
        };
        let long = Stretch {
            count: 3,
            first: 3,
            last: 6,
            after: 2,
            picture: 900,
        };
        let short = Stretch {
            count: 1,
            first: 9,
            last: 9,
            after: 8,
            picture: 1000,
        };
        assert_eq!(salvaged.stretches(0), [long, short]);
        assert_eq!(salvaged.stretches(2), [long]);
        assert_eq!(salvaged.stretches(3), []);
    }

    #[test]
    fn pictures_that_can_be_read() {
        let mut bytes = file(&[1, 0, 79_999, 80_000]);
        bytes.truncate(3 * RECORD + 3);
        let read: Vec<Option<u32>> = (0..5).map(|place| picture(&bytes, place)).collect();
        assert_eq!(read, [Some(1), None, Some(79_999), None, None]);
        bytes.push(0);
        bytes[3 * RECORD..].copy_from_slice(&[7, 0, 0, 0]);
        assert_eq!(picture(&bytes, 3), Some(7));
        assert_eq!(picture(&bytes, usize::MAX), None);
    }

    #[test]
    fn rules_by_their_numbers() {
        for number in 0..=255 {
            let rule = Rule::of(number);
            assert_eq!(
                rule.map(|rule| rule as u8),
                Some(number).filter(|number| (1..=7).contains(number))
            );
        }
        assert_eq!(Rule::of(6), Some(Rule::Order));
    }
}
