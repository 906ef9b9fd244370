//! The map for the picture monitor against the independent implementation: which frames are written and as which bytes, which files are
//! read and as which values, and what is refused. After each call number, word 0 and every place of every area, tails included, have to
//! be the same on both sides, values by their bits. What was read is written as the same bytes.

use crate::met::{all_met, meet, Met};
use crate::random::Random;
use crate::{each_seed, setting};
use brothanchor::{read_monitor, write_monitor, Refusal, MONITOR_RECORD};
use oracle::lists::monitor::{narrow_cases, past, Placed, NONE};
use oracle::monitor::{self as rules, narrow, LARGEST};
use std::time::Instant;

/// What is told: 0 and the number of records, or the number of the refusal and its place.
type Told = (u64, u64);

fn ours(told: Result<usize, (Refusal, u64)>) -> Told {
    match told {
        Ok(records) => (0, records as u64),
        Err((refusal, place)) => (u64::from(refusal.0), place),
    }
}

fn theirs(told: Result<usize, rules::Refusal>) -> Told {
    match told {
        Ok(records) => (0, records as u64),
        Err(refusal) => (refusal.number(), refusal.place()),
    }
}

fn bits(values: &[f64]) -> Vec<u64> {
    values.iter().map(|v| v.to_bits()).collect()
}

/// Writes n frames on both sides, to a target of so many bytes; what is told, and the whole target.
fn write_both(n: usize, placed: &Placed, bytes: usize) -> (Told, Vec<u8>) {
    let Placed {
        pictures,
        sides,
        fields,
        positions,
    } = placed;
    let mut target: Vec<u8> = (0..bytes).map(|place| place as u8 ^ 0x5a).collect();
    let mut other = target.clone();
    let told = ours(write_monitor(n, pictures, sides, fields, positions, &mut target));
    let wanted = theirs(rules::write_monitor(n, pictures, sides, fields, positions, &mut other));
    assert_eq!(told, wanted);
    assert!(target == other, "the targets differ");
    (told, target)
}

/// How long the areas of a reading are: pictures, sides, fields, positions.
type Room = [usize; 4];

fn room(records: usize) -> Room {
    [records, records, records, 2 * records]
}

/// What a reading is lent: numbers that no frame has, and NaNs of several payloads.
fn lent(room: Room) -> Placed {
    Placed {
        pictures: (0..room[0] as u32).map(|i| 0xa5a5_0000 + i).collect(),
        sides: (0..room[1]).map(|i| i as u8 | 0x80).collect(),
        fields: (0..room[2]).map(|i| i as u8 | 0x40).collect(),
        positions: (0..room[3] as u64)
            .map(|i| f64::from_bits(0x7ff0_0000_0000_0001 + (i << 40)))
            .collect(),
    }
}

/// Reads a file on both sides; what is told, and all that there is then.
fn read_both(file: &[u8], room: Room) -> (Told, Placed) {
    let (mut found, mut other) = (lent(room), lent(room));
    let Placed {
        pictures,
        sides,
        fields,
        positions,
    } = &mut found;
    let told = ours(read_monitor(file, pictures, sides, fields, positions));
    let Placed {
        pictures,
        sides,
        fields,
        positions,
    } = &mut other;
    assert_eq!(
        told,
        theirs(rules::read_monitor(file, pictures, sides, fields, positions))
    );
    same(&found, &other);
    (told, found)
}

fn same(one: &Placed, other: &Placed) {
    assert!(one.pictures == other.pictures, "pictures");
    assert!(one.sides == other.sides, "sides");
    assert!(one.fields == other.fields, "fields");
    assert!(bits(&one.positions) == bits(&other.positions), "positions");
}

/// Reads a file into room for so many records more than it has. What is read is written as the same bytes, and what is refused leaves
/// everything as it was.
fn read(file: &[u8], more: usize) -> Told {
    let records = file.len() / MONITOR_RECORD;
    let (told, found) = read_both(file, room(records + more));
    if told.0 == 0 {
        assert_eq!(told.1, records as u64);
        let (again, bytes) = write_both(records, &found, file.len());
        assert_eq!((again, &bytes[..]), (told, file), "what was read is written otherwise");
    } else {
        same(&found, &lent(room(records + more)));
    }
    told
}

/// Writes all frames to a target so many bytes longer than asked for. What is written is read, written again as the same bytes, and
/// read again as the same values: what was narrowed once changes no further.
fn write(placed: &Placed, more: usize) -> Told {
    let n = placed.pictures.len();
    let long = MONITOR_RECORD * n;
    let (told, target) = write_both(n, placed, long + more);
    if told.0 == 0 {
        assert_eq!(told.1, n as u64);
        let (_, once) = read_both(&target[..long], room(n));
        assert!(once.pictures == placed.pictures && once.sides == placed.sides && once.fields == placed.fields);
        let (_, twice) = write_both(n, &once, long);
        assert!(twice == target[..long], "what was narrowed once is written otherwise");
    } else {
        let marks: Vec<u8> = (0..target.len()).map(|place| place as u8 ^ 0x5a).collect();
        assert!(target == marks, "what was refused has been written to");
    }
    told
}

/// A place of a frame is altered; what it is called.
fn alter(random: &mut Random, placed: &mut Placed) -> &'static str {
    let place = random.below(placed.pictures.len());
    match random.below(5) {
        0 => {
            let near = placed.pictures[random.below(place + 1)];
            placed.pictures[place] =
                random.one_of(&[0, 1, 79_999, 80_000, near, near + 1, near.wrapping_sub(1), u32::MAX]);
            "a picture"
        }
        1 => {
            placed.sides[place] = random.one_of(&[0, 1, 2, 3, 255]);
            "a side"
        }
        2 => {
            placed.fields[place] = random.one_of(&[0, 1, 2, 3, 255]);
            "a field"
        }
        3 => {
            let other = random.below(placed.pictures.len());
            placed.pictures.swap(place, other);
            placed.fields.swap(place, other);
            "an order"
        }
        _ => {
            let any = f64::from_bits(random.word());
            let odd = random.odd_value();
            let edge = f64::from_bits(past().to_bits() - 1);
            let choices = [any, odd, past(), -past(), edge, -edge, f64::INFINITY, f64::NAN];
            placed.positions[2 * place + random.below(2)] = random.one_of(&choices);
            "a coordinate"
        }
    }
}

/// Frames with one area too short, or longer by what is barred among the frames.
fn other_lengths(random: &mut Random, placed: &Placed, met: &mut Met) {
    let n = placed.pictures.len();
    let mut other = placed.clone();
    let mut bytes = MONITOR_RECORD * n;
    let area = random.below(5);
    let is_short = random.once_in(2);
    match (area, is_short) {
        (0, true) => other.pictures.truncate(n - 1),
        (1, true) => other.sides.truncate(n - 1),
        (2, true) => other.fields.truncate(n - 1),
        (3, true) => other.positions.truncate(2 * n - 1),
        (_, true) => bytes -= 1,
        (0, _) => other.pictures.extend([0, u32::MAX]),
        (1, _) => other.sides.extend([9, 9, 9]),
        (2, _) => other.fields.push(255),
        (3, _) => other.positions.extend([f64::NAN, f64::INFINITY, 1e300]),
        (_, _) => bytes += random.within(1, 40),
    }
    let (told, _) = write_both(n, &other, bytes);
    assert_eq!(told.0 == 12, is_short, "{told:?}");
    let name = ["pictures", "sides", "fields", "positions", "target"][area];
    meet(met, format!("{name} {}", if is_short { "short" } else { "longer" }));
    // More frames than there are.
    let many = random.one_of(&[n + 1, 1 << 31, 1 << 32, 1 << 60, 1 << 63, usize::MAX]);
    assert_eq!(write_both(many, placed, MONITOR_RECORD * n).0, (12, 0));
}

/// A file read into areas one of which is too short, and longer ones.
fn other_rooms(random: &mut Random, file: &[u8], met: &mut Met) {
    let records = file.len() / MONITOR_RECORD;
    let area = random.below(4);
    let mut short = room(records);
    short[area] -= 1;
    let (told, _) = read_both(file, short);
    assert_eq!(told, (12, 0));
    meet(
        met,
        format!("reading, {} short", ["pictures", "sides", "fields", "positions"][area]),
    );
    let longer = room(records).map(|length| length + random.below(4));
    assert_eq!(read_both(file, longer).0, (0, records as u64));
    // A bad record is told first.
    let mut bad = file.to_vec();
    bad.push(0);
    assert_eq!(read_both(&bad, short).0, (16, records as u64));
}

#[test]
fn frames_at_random() {
    let met = each_seed("monitor", setting("BROTHANCHOR_RUNS", 300), |random, met: &mut Met| {
        for _ in 0..20 {
            let frames = random.within(1, 40);
            let good = Placed::good(random.source(), frames);
            assert_eq!(write(&good, random.below(40)), (0, frames as u64));
            other_lengths(random, &good, met);
            other_rooms(random, &good.file(), met);
            let mut bad = good.clone();
            let mut what = alter(random, &mut bad);
            if random.once_in(3) {
                alter(random, &mut bad);
                what = "two places";
            }
            let (number, _) = write(&bad, random.below(40));
            meet(met, format!("{what}: {number}"));
        }
    });
    let numbers = |what: &str, numbers: &[u64]| numbers.iter().map(|n| format!("{what}: {n}")).collect::<Vec<_>>();
    let mut wanted = numbers("two places", &[0, 16, 26]);
    for what in ["a picture", "a side", "a field", "an order"] {
        wanted.extend(numbers(what, &[0, 16]));
    }
    wanted.extend(numbers("a coordinate", &[0, 26]));
    for area in ["pictures", "sides", "fields", "positions", "target"] {
        wanted.extend([format!("{area} short"), format!("{area} longer")]);
    }
    wanted.extend(["pictures", "sides", "fields", "positions"].map(|area| format!("reading, {area} short")));
    all_met(&met, wanted);
}

#[test]
fn every_byte_of_small_files() {
    let mut random = Random::new(setting("BROTHANCHOR_SEED", 1));
    let mut told = [0; 2];
    for frames in 1..=3 {
        let file = Placed::good(random.source(), frames).file();
        for at in 0..file.len() {
            for byte in 0..=255 {
                let mut damaged = file.clone();
                damaged[at] = byte;
                let (number, _) = read(&damaged, random.below(2));
                told[usize::from(number == 16)] += 1;
            }
        }
    }
    assert!(told.iter().all(|&count| count > 5000), "{told:?}");
}

#[test]
fn every_length_of_small_files() {
    let mut random = Random::new(setting("BROTHANCHOR_SEED", 1));
    let file = Placed::good(random.source(), 4).file();
    for length in 0..=file.len() {
        let whole = length / MONITOR_RECORD;
        let number = if length % MONITOR_RECORD == 0 { 0 } else { 16 };
        assert_eq!(read(&file[..length], 1), (number, whole as u64));
    }
    for more in 1..=80 {
        let longer = [&file[..], &vec![0; more]].concat();
        assert_eq!(read(&longer, 0), (16, 4));
    }
}

/// Damage in any number of bytes, lengths and orders; what is read is written as the same bytes.
#[test]
fn damaged_files() {
    let met = each_seed("damaged", setting("BROTHANCHOR_RUNS", 300), |random, met: &mut Met| {
        for _ in 0..40 {
            let frames = random.within(1, 20);
            let mut file = Placed::good(random.source(), frames).file();
            for _ in 0..random.within(0, 3) {
                let (at, any) = (random.below(file.len()), random.word() as u8);
                file[at] = random.one_of(&[0, 1, 2, 127, 128, 255, any]);
            }
            if random.once_in(4) {
                let (one, other) = (random.below(frames), random.below(frames));
                for at in 0..MONITOR_RECORD {
                    file.swap(MONITOR_RECORD * one + at, MONITOR_RECORD * other + at);
                }
            }
            if random.once_in(5) {
                file.truncate(random.below(file.len() + 1));
            }
            meet(met, read(&file, random.below(3)).0.to_string());
        }
    });
    assert!(met["0"] > 1000 && met["16"] > 1000, "{met:?}");
}

/// All orders of two frames of pictures 1 to 3, with any field, also one that there is not, and of three of the last two pictures.
#[test]
fn orders_of_frames() {
    let mut random = Random::new(1);
    let pairs = |pictures: std::ops::RangeInclusive<u32>| -> Vec<(u32, u8)> {
        pictures
            .flat_map(|picture| (0..4).map(move |field| (picture, field)))
            .collect()
    };
    let mut good = 0;
    let mut compare = |pairs: &[(u32, u8)]| {
        let placed = Placed::of(random.source(), pairs);
        let (number, place) = write(&placed, 0);
        good += usize::from(number == 0);
        // The same as a file, which no writer made.
        let mut file = Vec::new();
        for &(picture, field) in pairs {
            file.extend(picture.to_le_bytes());
            file.extend([1, field, 0, 0]);
            file.extend([0; 8]);
        }
        assert_eq!(read(&file, 0), (number, place));
    };
    for first in pairs(1..=3) {
        pairs(1..=3).into_iter().for_each(|second| compare(&[first, second]));
    }
    for first in pairs(79_998..=79_999) {
        for second in pairs(79_998..=79_999) {
            pairs(79_998..=80_000)
                .into_iter()
                .for_each(|third| compare(&[first, second, third]));
        }
    }
    // Two: three choices of two pictures with three fields each, and three stills. Three: a still of one picture and any of the other.
    assert_eq!(good, 3 * 9 + 3 + 2 * 3);
}

/// Each as the first and as the second coordinate of a frame of its own; the bits that are written, or 26.
fn narrowed(values: &[f64]) -> Vec<Option<u32>> {
    let written = |position: [f64; 2], at: usize| {
        let mut target = [0; MONITOR_RECORD];
        match ours(write_monitor(1, &[7], &[1], &[0], &position, &mut target)) {
            (0, 1) => Some(u32::from_le_bytes(target[at..at + 4].try_into().expect("four bytes"))),
            told => {
                assert_eq!(told, (26, 0), "{position:?}");
                None
            }
        }
    };
    let both = |&value: &f64| {
        let first = written([value, 0.5], 8);
        assert_eq!(first, written([0.5, value], 12), "{value:e}");
        first
    };
    values.iter().map(both).collect()
}

/// The values of the list: those around every kind of boundary of f32.
#[test]
fn every_boundary_of_narrowing() {
    let cases = narrow_cases();
    let values: Vec<f64> = cases.iter().map(|case| f64::from_bits(case[0])).collect();
    for (case, found) in cases.iter().zip(narrowed(&values)) {
        assert_eq!(found.map_or(NONE, u64::from), case[1], "{:016x}", case[0]);
    }
}

/// Values in and around the range of f32, against the rules and against the machine.
#[test]
fn values_narrowed_at_random() {
    let mut random = Random::new(setting("BROTHANCHOR_SEED", 1));
    let count = 400 * setting("BROTHANCHOR_RUNS", 300);
    let mut none = 0;
    for _ in 0..count {
        let word = random.word();
        let value = match random.below(3) {
            0 => f64::from_bits(word),
            // About the middle between two neighbours.
            1 => {
                let bits = word as u32 % LARGEST;
                let middle = (f64::from(f32::from_bits(bits)) + f64::from(f32::from_bits(bits + 1))) / 2.0;
                f64::from_bits((middle.to_bits() + random.below(3) as u64).saturating_sub(1) | (word & 1 << 63))
            }
            _ => f64::from_bits((word & !(0x7ff << 52)) | ((1023 - 152 + random.below(282) as u64) << 52)),
        };
        let found = narrowed(&[value])[0];
        assert_eq!(found, narrow(value), "{value:e}");
        assert_eq!(
            found,
            Some(value as f32).filter(|v| v.is_finite()).map(f32::to_bits),
            "{value:e}"
        );
        none += usize::from(found.is_none());
    }
    assert!(none > 1000, "{none}");
}

/// Whole frames, as many as there are pictures: two coordinates each, with these bits, as a file.
fn file_of(singles: &[u32]) -> Vec<u8> {
    let record = |(i, pair): (usize, &[u32])| {
        let mut bytes = (i as u32 + 1).to_le_bytes().to_vec();
        bytes.extend([1 + (i % 2) as u8, 0, 0, 0]);
        bytes.extend(pair[0].to_le_bytes());
        bytes.extend(pair.get(1).unwrap_or(&0).to_le_bytes());
        bytes
    };
    singles.chunks(2).enumerate().flat_map(record).collect()
}

/// Single-precision numbers by their bits, read and written again: each is widened without loss and narrowed back.
fn there_and_back(singles: &mut Vec<u32>) {
    let file = file_of(singles);
    let n = file.len() / MONITOR_RECORD;
    let Placed {
        mut pictures,
        mut sides,
        mut fields,
        mut positions,
    } = lent(room(n));
    let read = read_monitor(&file, &mut pictures, &mut sides, &mut fields, &mut positions);
    assert_eq!(read, Ok(n));
    for (bits, value) in singles.iter().zip(&positions) {
        assert_eq!(
            value.to_bits(),
            f64::from(f32::from_bits(*bits)).to_bits(),
            "{bits:08x}"
        );
    }
    let mut target = vec![0x5a; file.len()];
    assert_eq!(
        write_monitor(n, &pictures, &sides, &fields, &positions, &mut target),
        Ok(n)
    );
    assert!(target == file, "from {:08x} on", singles[0]);
    singles.clear();
}

/// Every so-many-th single-precision number, of those that are finite; how many there are.
fn every(step: usize) -> u64 {
    let mut singles = Vec::new();
    let mut count = 0;
    for bits in (0..=u32::MAX)
        .step_by(step)
        .filter(|bits| bits & 0x7fff_ffff <= LARGEST)
    {
        singles.push(bits);
        count += 1;
        if singles.len() == 2 * 79_999 {
            there_and_back(&mut singles);
        }
    }
    if !singles.is_empty() {
        there_and_back(&mut singles);
    }
    count
}

#[test]
fn singles_there_and_back() {
    assert!(every(4099) > 1_000_000);
}

#[test]
#[ignore = "takes minutes: every single-precision number"]
fn all_singles_there_and_back() {
    assert_eq!(every(1), 2 * (u64::from(LARGEST) + 1));
}

#[test]
#[ignore = "tells times; by hand"]
fn times_of_a_full_side_for_the_monitor() {
    let mut random = Random::new(setting("BROTHANCHOR_SEED", 1));
    let placed = Placed::good(random.source(), 4096);
    let map = Placed {
        positions: (0..2 * 4096).map(|_| 60.0 * (random.unit() - 0.5)).collect(),
        ..placed.clone()
    };
    for (name, placed) in [("as on a map", map), ("at every kind of edge", placed)] {
        let (mut target, mut found) = (vec![0; MONITOR_RECORD * 4096], lent(room(4096)));
        let rounds = 21;
        let (mut writes, mut reads) = (Vec::new(), Vec::new());
        for _ in 0..rounds {
            let begin = Instant::now();
            let written = write_monitor(
                4096,
                &placed.pictures,
                &placed.sides,
                &placed.fields,
                &placed.positions,
                &mut target,
            );
            writes.push(begin.elapsed());
            assert_eq!(written, Ok(4096));
            let begin = Instant::now();
            let Placed {
                pictures,
                sides,
                fields,
                positions,
            } = &mut found;
            let read = read_monitor(&target, pictures, sides, fields, positions);
            reads.push(begin.elapsed());
            assert_eq!(read, Ok(4096));
        }
        writes.sort_unstable();
        reads.sort_unstable();
        println!(
            "4096 frames {name}: written in {:?}, read in {:?} (the middle of {rounds})",
            writes[rounds / 2],
            reads[rounds / 2]
        );
    }
}
