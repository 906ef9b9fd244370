//! Strips against the independent implementation: which settings are prepared for, which runs are handed out, in which order and with
//! which gaps. After each call number, word 0, every place of order and gaps, those behind the frames too, have to be the same on both
//! sides, gaps by their bits, and no part of the run may have changed.

use crate::both::{number, other_side, told_of, Both};
use crate::case::{marked_nodes, numbers, shorten, values, Case};
use crate::met::{all_met, meet, told_name, Met};
use crate::random::Random;
use crate::{damage, damage_record, each_seed, setting};
use brothanchor::{
    hand_out, parked, prepare_strip_words, sizes, take_out, wake, Areas, Kind, Method, Record, Refusal, Settings,
};
use oracle::lists::strip::{barred, LARGEST, WIDER};
use oracle::record::record_of;
use oracle::strip as rules;
use std::time::Instant;

/// What is told: 0 and the number of frames, or the number of the refusal and what comes with it.
type Told = (u64, u64);

/// The most frames along a strip.
const MOST: usize = 1024;

/// Hands out on both sides, to an order and gaps of these lengths; what is told, the order, and the gaps by their bits.
fn hand_both(both: &Both, order: usize, gaps: usize) -> (Told, Vec<u32>, Vec<u64>) {
    let before = both.clone();
    let (mut ours, mut our_gaps) = (numbers(order), values(gaps));
    let told = match hand_out(&both.record, &both.areas, &mut ours, &mut our_gaps) {
        Ok(frames) => (0, frames as u64),
        Err((refusal, place)) => (u64::from(refusal.0), place),
    };
    let (mut theirs, mut their_gaps) = (numbers(order), values(gaps));
    let words = &both.record.words;
    let wanted = match record_of(words) {
        Err(fault) => told_of(fault),
        Ok(record) => {
            let areas = other_side(&both.areas);
            rules::hand_out(&record, &areas, &mut theirs, &mut their_gaps).map_or_else(
                |refusal| (refusal.number(), refusal.place()),
                |frames| (0, frames as u64),
            )
        }
    };
    let bits = |gaps: &[f64]| gaps.iter().map(|gap| gap.to_bits()).collect::<Vec<u64>>();
    assert_eq!(told, wanted);
    assert!(ours == theirs, "the orders differ");
    let our_gaps = bits(&our_gaps);
    assert!(our_gaps == bits(&their_gaps), "the gaps differ");
    assert_eq!(both.difference(&before, None), None, "handing out changed a part");
    (told, ours, our_gaps)
}

/// Settings of n frames within the profile. Few frames may stop before their iterations are done.
fn settings(random: &mut Random, n: usize) -> Settings {
    Settings {
        n,
        f: random.within(1, 6),
        c: 1,
        method: Method::BarnesHut,
        perplexity: random.between(0.1, 20.0).min(n as f64 * 0.999),
        rate: random.between(0.1, 500.0),
        iterations: if n < 8 { 253 } else { random.within(1, 4) },
        angle: random.one_of(&[0.0, -0.0, 0.3, 0.5]),
        minimum: random.one_of(&[0.0, f64::NAN, 1e-7, 1e9]),
    }
}

/// How frames can stand along a line, by name.
const KINDS: [&str; 8] = [
    "all in one place",
    "many ties",
    "zeros of both signs",
    "at 2^100",
    "subnormal",
    "rising",
    "falling",
    "anywhere",
];

fn place(random: &mut Random, kind: &str, i: usize) -> f64 {
    let wide = random.unit() - 0.5;
    match kind {
        "all in one place" => 3.25,
        "many ties" => (wide * 6.0).round(),
        "zeros of both signs" => random.one_of(&[0.0, -0.0]),
        "at 2^100" => random.one_of(&[LARGEST, -LARGEST, wide * LARGEST, 0.0, -0.0]),
        "subnormal" => f64::from_bits(random.below(9) as u64) * random.one_of(&[1.0, -1.0]),
        "rising" => i as f64 * 0.125,
        "falling" => -(i as f64),
        _ => wide * random.one_of(&[1e-300, 1e-4, 1.0, 1e20]),
    }
}

/// An ended run, as it is and with its frames standing in each way, into orders and gaps that are longer by turns.
fn handed(random: &mut Random, both: &Both, met: &mut Met) {
    let n = both.record.words[0] as usize;
    let mut other = both.clone();
    for kind in KINDS {
        for i in 0..n {
            other.areas.positions[i] = place(random, kind, i);
        }
        let (told, _, gaps) = hand_both(&other, n + random.below(3), n + random.below(3));
        assert_eq!(told, (0, n as u64), "{kind}");
        meet(met, kind);
        if gaps[..n].contains(&(1 << 63)) {
            meet(met, "a gap of -0.0");
        }
    }
    for barred in barred() {
        let mut other = both.clone();
        other.areas.positions[random.below(n)] = barred;
        assert_eq!(hand_both(&other, n, n).0, (15, 0));
        assert_eq!(hand_both(&other, 0, 0).0, (15, 0), "15 comes before 12");
        other.areas.positions[..n].fill(0.0);
        other.areas.positions.push(barred);
        assert_eq!(hand_both(&other, n, n).0, (0, n as u64), "a value behind the frames");
    }
    meet(met, "barred");
}

/// The same run with something short, or outside the profile, or damaged.
fn not_handed(random: &mut Random, both: &Both, met: &mut Met) {
    let n = both.record.words[0] as usize;
    for (order, gaps) in [(n - 1, n), (n, n - 1), (0, n + 1), (n + 1, 0)] {
        assert_eq!(hand_both(both, order, gaps).0, (12, 0));
    }
    meet(met, "order and gaps short");
    outside(both, met);
    for _ in 0..12 {
        let mut other = both.clone();
        match random.below(5) {
            0 => damage_record(random, &mut other),
            1 => shorten(&mut other.areas, random.below(8)),
            _ => damage(random, &mut other),
        }
        let (told, ..) = hand_both(&other, n - usize::from(random.once_in(6)), n);
        meet(met, format!("damaged: {}", told_name(told)));
    }
}

/// A run again as it was before its last iteration.
fn running(both: &mut Both) {
    let words = &mut both.record.words;
    let [n, _, _, method, ..] = *words;
    words[9] = 0;
    words[10] = words[6] - 1;
    words[12] = words[10] * (2 * n + 1 + method);
}

/// The same run with other settings, which lie outside the profile, and areas that are long enough for them: an angle that is just too
/// wide, more components, every pair of frames. What is tested later is told only where the settings are a strip's.
fn outside(both: &Both, met: &mut Met) {
    let n = both.record.words[0] as usize;
    for (what, word, other) in [
        ("a wide angle", 7, WIDER.to_bits()),
        ("two components", 2, 2),
        ("three components", 2, 3),
        ("the exact method", 3, 0),
        ("a running run", 7, 0),
    ] {
        let mut both = both.clone();
        both.record.words[word] = other;
        let c = both.record.words[2] as usize;
        let Areas {
            positions,
            increments,
            gains,
            affinities,
            forces,
            ..
        } = &mut both.areas;
        for area in [positions, increments, gains] {
            area.resize(n * c + 1, 0.5);
        }
        forces.resize(n * (2 * c + 1), 0.5);
        let held = affinities.len().max(n * n);
        affinities.resize(held, 0.5);
        if other == 0 && word == 3 {
            both.record.words[12] = both.record.words[10] * (2 * n as u64 + 1);
        }
        let (ended, told) = if what == "a running run" { (0, 17) } else { (20, 20) };
        assert_eq!(hand_both(&both, n, n).0 .0, ended, "{what}");
        both.areas.positions[0] = f64::NAN;
        running(&mut both);
        assert_eq!(hand_both(&both, 0, 0).0, (told, 0), "{what}");
        meet(met, what);
    }
}

/// Each area one short, and then just as long as is asked for.
fn areas_short(both: &Both, met: &mut Met) {
    let n = both.record.words[0] as usize;
    let asked = sizes(&settings_of(&both.record)).expect("good settings");
    let mut just = both.clone();
    let Areas {
        positions,
        increments,
        gains,
        affinities,
        indices,
        offsets,
        forces,
        nodes,
    } = &mut just.areas;
    for area in [positions, increments, gains] {
        area.truncate(asked.cells);
    }
    affinities.truncate(asked.affinities);
    indices.truncate(asked.indices);
    offsets.truncate(asked.offsets);
    forces.truncate(asked.forces);
    nodes.truncate(1);
    assert_eq!(hand_both(&just, n, n).0, (0, n as u64), "just long enough");
    for which in 0..8 {
        let mut short = just.clone();
        shorten(&mut short.areas, which);
        assert_eq!(hand_both(&short, n, n).0, (12, 0), "area {which}");
        short.record.words[7] = WIDER.to_bits();
        short.areas.positions[0] = f64::NAN;
        assert_eq!(hand_both(&short, n, n).0, (12, 0), "12 comes before 20");
        meet(met, format!("area {which} short"));
    }
}

fn settings_of(record: &Record) -> Settings {
    let words = &record.words;
    Settings {
        n: words[0] as usize,
        f: words[1] as usize,
        c: words[2] as usize,
        method: Method::BarnesHut,
        perplexity: f64::from_bits(words[4]),
        rate: f64::from_bits(words[5]),
        iterations: words[6] as usize,
        angle: f64::from_bits(words[7]),
        minimum: f64::from_bits(words[8]),
    }
}

/// An ended run that was parked and read back has the same strip, and so has what is left of it one of its own.
fn parked_and_thinned(random: &mut Random, both: &Both, met: &mut Met) {
    let n = both.record.words[0] as usize;
    let wanted = hand_both(both, n, n);
    let file = parked(&both.record, &both.areas).expect("an ended run");
    let (record, areas) = wake(&file).expect("what was parked");
    let mut night = Both { areas, record };
    assert_eq!(hand_both(&night, n, n), wanted, "a run that was parked");
    meet(met, "parked and read back");

    let gone: Vec<u32> = (0..n as u32).filter(|_| random.once_in(4)).collect();
    let mut table = vec![0.5; n * night.record.words[1] as usize];
    let mut old = vec![0; n];
    let Both { record, areas } = &mut night;
    if let Ok(left) = take_out(record, areas, &mut table, &gone, &mut old) {
        let (told, ..) = hand_both(&night, left, n);
        assert_eq!(told, (0, left as u64));
        assert_eq!(hand_both(&night, left - 1, n).0, (12, 0));
        meet(met, if left < n { "thinned" } else { "none taken out" });
    }
}

/// A run of a strip, prepared as one or as any run.
fn begun(random: &mut Random, met: &mut Met) -> Both {
    let n = random.within(2, 40);
    let settings = settings(random, n);
    let nodes = random.within(1, 60 + 20 * n);
    let case = Case::good(random, settings, nodes);
    let begun = if random.once_in(3) {
        meet(met, "prepared as any run");
        Both::prepare(&case)
    } else {
        meet(met, "prepared as a strip");
        Both::prepare_strip(&case)
    };
    begun.expect("a good run")
}

/// Works a run to its end on both sides; before that it is refused by 17. Whether it came to its end.
fn ends(random: &mut Random, both: &mut Both, met: &mut Met) -> bool {
    let n = both.record.words[0] as usize;
    loop {
        assert_eq!(hand_both(both, n, n).0, (17, 0));
        let inside = both.record.words[11] > 0;
        meet(met, if inside { "17 inside" } else { "17 between" });
        let few = random.within(1, 3 * n);
        let worked = both.work(random.one_of(&[few as u32, 2 * n as u32 + 2, 1 << 20]));
        match number(&worked) {
            14 => both.areas.nodes.extend(marked_nodes(400)),
            15 => return false,
            _ => {}
        }
        if matches!(worked.kind, Kind::Stopped | Kind::Finished) {
            meet(met, format!("{:?}", worked.kind));
            return true;
        }
    }
}

/// A run that is worked to its end and handed out.
fn worked(random: &mut Random, met: &mut Met) {
    let mut both = begun(random, met);
    if !ends(random, &mut both, met) {
        return;
    }
    let n = both.record.words[0];
    assert_eq!(hand_both(&both, n as usize, n as usize).0, (0, n));
    handed(random, &both, met);
    not_handed(random, &both, met);
    areas_short(&both, met);
    parked_and_thinned(random, &both, met);
}

#[test]
fn strips_of_runs() {
    let met = each_seed("strips of runs", setting("BROTHANCHOR_RUNS", 300), worked);
    let named = [
        "17 inside",
        "17 between",
        "Stopped",
        "Finished",
        "prepared as a strip",
        "prepared as any run",
        "a gap of -0.0",
        "barred",
        "order and gaps short",
        "a wide angle",
        "two components",
        "three components",
        "the exact method",
        "a running run",
        "parked and read back",
        "thinned",
        "none taken out",
    ];
    let damaged =
        ["0", "12", "15", "21", "22", "23 with a place", "24 with a place"].map(|number| format!("damaged: {number}"));
    let short = (0..8).map(|which| format!("area {which} short"));
    let wanted = named.iter().chain(&KINDS).map(ToString::to_string);
    all_met(&met, wanted.chain(damaged).chain(short));
}

/// An ended run of n frames that was never worked, with lists of no links.
fn ended(n: usize) -> Both {
    let settings = Settings {
        n,
        f: 6,
        c: 1,
        method: Method::BarnesHut,
        perplexity: 0.5,
        rate: 50.0,
        iterations: 1000,
        angle: 0.5,
        minimum: 1e-7,
    };
    let mut words = [0; 14];
    words[..9].copy_from_slice(&settings.words());
    words[9..].copy_from_slice(&[2, 1000, 0, 1000 * settings.iteration() as u64, 0]);
    Both {
        areas: Areas::new(&sizes(&settings).expect("good settings"), 1),
        record: Record { words },
    }
}

#[test]
fn two_to_1024_frames() {
    let mut random = Random::new(setting("BROTHANCHOR_SEED", 1));
    let mut met = Met::new();
    for n in (2..70).chain([100, 127, 128, 129, 255, 256, 500, 511, 512, 513, 1000, 1023, MOST]) {
        handed(&mut random, &ended(n), &mut met);
    }
    all_met(&met, KINDS.iter().chain(&["a gap of -0.0"]).map(ToString::to_string));
    for n in [MOST + 1, 2000, 4096] {
        let mut more = ended(n);
        more.areas.positions[0] = f64::NAN;
        assert_eq!(hand_both(&more, 0, 0).0, (20, 0), "{n} frames");
        more.record.words[9] = 0;
        more.record.words[10] = 0;
        more.record.words[12] = 0;
        assert_eq!(hand_both(&more, 0, 0).0, (20, 0), "20 comes before 17: {n} frames");
    }
}

#[test]
fn a_run_of_1024_frames() {
    let mut random = Random::new(setting("BROTHANCHOR_SEED", 1));
    let settings = Settings {
        perplexity: 2.0,
        rate: 100.0,
        iterations: 1,
        ..settings(&mut random, MOST)
    };
    let nodes = sizes(&settings).expect("good settings").nodes;
    let mut both = Both::prepare_strip(&Case::good(&mut random, settings, nodes)).expect("a good run");
    assert_eq!(both.work(u32::MAX).kind, Kind::Finished);
    assert_eq!(hand_both(&both, MOST, MOST).0, (0, MOST as u64));

    let more = Settings {
        n: MOST + 1,
        ..settings
    };
    let mut case = Case::good(&mut random, more, 1);
    assert_eq!(Both::prepare_strip(&case).err(), Some(20));
    case.areas.gains.clear();
    assert_eq!(Both::prepare_strip(&case).err(), Some(20), "20 comes before 12");
    case.start.pop();
    assert_eq!(Both::prepare_strip(&case).err(), Some(11), "11 comes before 20");
}

/// One thing that the preparation of a strip may refuse, or nearly so.
fn spoil(random: &mut Random, case: &mut Case) {
    let settings = &mut case.settings;
    match random.below(14) {
        0 => settings.c = random.one_of(&[0, 2, 3, 4, 9]),
        1 => settings.perplexity = random.odd_value(),
        2 => settings.rate = random.odd_value(),
        3 => settings.iterations = random.one_of(&[0, 65_535, 65_536]),
        4 => settings.angle = random.odd_value(),
        5 => settings.angle = random.one_of(&[0.5, WIDER, 0.99, 1.0]),
        6 => settings.n = random.one_of(&[0, 1, 4097]),
        7 => settings.f = random.one_of(&[0, 257]),
        8 => settings.perplexity = settings.n as f64,
        9 => settings.method = Method::Exact,
        10 => odd(random, &mut case.table),
        11 => odd(random, &mut case.start),
        12 => drop(case.rows.indices.pop()),
        _ => shorten(&mut case.areas, random.below(8)),
    }
    if case.settings.n == 1 {
        case.table.truncate(case.settings.f);
    }
    if matches!(case.settings.c, 2 | 3) {
        case.start.resize(case.settings.n.min(40) * case.settings.c, 0.5);
    }
}

fn odd(random: &mut Random, values: &mut [f64]) {
    if !values.is_empty() {
        values[random.below(values.len())] = random.odd_value();
    }
}

/// A preparation that goes well leaves what any preparation does; then one thing is spoiled, and another.
fn prepared(random: &mut Random, met: &mut Met) {
    let n = random.within(2, 40);
    let settings = settings(random, n);
    let mut case = Case::good(random, settings, 1);
    let strip = Both::prepare_strip(&case).expect("a good run");
    let any = Both::prepare(&case).expect("a good run");
    assert_eq!(strip.difference(&any, None), None, "another run than any preparation's");
    for _ in 0..2 {
        spoil(random, &mut case);
        let told = Both::prepare_strip(&case).err().unwrap_or(0);
        meet(met, format!("prepared: {told}"));
        match (told, Both::prepare(&case).err().unwrap_or(0)) {
            (20, otherwise) => assert!(otherwise == 0 || otherwise == 12, "{otherwise} comes before 20"),
            (told, otherwise) => assert_eq!(told, otherwise),
        }
        words_short(&case, told);
    }
}

/// Fewer words for the record are 12, after all else; fewer words of settings are 21, before all else.
fn words_short(case: &Case, told: u64) {
    let words = case.settings.words();
    let prepare = |settings: &[u64], record: &mut [u64]| {
        let mut both = Both {
            areas: case.areas.clone(),
            record: Record { words: [0; 14] },
        };
        let before = both.clone();
        let mut rows = case.rows.clone();
        let told = prepare_strip_words(settings, &case.table, &case.start, &mut both.areas, &mut rows, record);
        assert_eq!(both.difference(&before, None).is_none(), told.is_err());
        assert_eq!(rows == case.rows, told.is_err(), "the rows");
        told
    };
    for room in [0, 13] {
        let mut record = vec![77; room];
        let number = if told == 0 { 12 } else { told as u32 };
        assert_eq!(prepare(&words, &mut record), Err(Refusal(number)), "{room} words");
        assert!(record.iter().all(|&word| word == 77), "a short record is written");
    }
    let mut record = [77; 16];
    assert_eq!(prepare(&words[..8], &mut record), Err(Refusal(21)));
    assert_eq!(record, [77; 16]);
    let wanted = if told == 0 { Ok(()) } else { Err(Refusal(told as u32)) };
    assert_eq!(prepare(&words, &mut record), wanted);
    assert_eq!(record[14..], [77; 2], "the record's tail");
}

#[test]
fn preparations_of_strips() {
    let met = each_seed("preparations of strips", setting("BROTHANCHOR_RUNS", 300), prepared);
    let numbers = (0..=12).chain([20]);
    all_met(&met, numbers.map(|number| format!("prepared: {number}")));
}

/// Asked is a hundredth of a second, on x86-64. `desk/host` names a runner where it is an emulator that runs this; there no time is
/// asked, and twenty times as much only tells that it does not hang.
#[test]
#[ignore = "times: 1,024 frames handed out"]
fn times_of_1024_frames() {
    let is_emulated = std::env::var_os("CARGO_TARGET_X86_64_UNKNOWN_LINUX_GNU_RUNNER").is_some();
    let most = if is_emulated { 0.2 } else { 0.01 };
    let mut random = Random::new(1);
    for kind in KINDS {
        let mut both = ended(MOST);
        for i in 0..MOST {
            both.areas.positions[i] = place(&mut random, kind, i);
        }
        let (mut order, mut gaps) = (numbers(MOST), values(MOST));
        let begun = Instant::now();
        assert_eq!(hand_out(&both.record, &both.areas, &mut order, &mut gaps), Ok(MOST));
        let seconds = begun.elapsed().as_secs_f64();
        println!("{kind}: {:.3} ms", 1000.0 * seconds);
        assert!(seconds < most, "{kind}: {seconds} s");
    }
}
