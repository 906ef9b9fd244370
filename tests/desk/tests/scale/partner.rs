//! Partners' lists against the independent implementation: which are loaded, which are refused and at which record, what is
//! loaded, what comes of a run that starts from it, and what is written of a run's lists. After each call number, word 0, every
//! byte and every place of every area have to be the same on both sides, NaNs by their bits.

use crate::both::{number, other_side, told_of, Both};
use crate::case::{marked_nodes, shorten, Case};
use crate::met::{all_met, meet, told_name, Met};
use crate::parked::{lent, our_areas, settings};
use crate::random::Random;
use crate::{damage, damage_record, each_seed, setting};
use brothanchor::{
    import_words, lists, lists_bytes, sizes, write_lists, Areas, Kind, Method, Record, Settings, LINK_RECORD,
};
use oracle::descent;
use oracle::lists::park::words_of;
use oracle::lists::partner::{self as made, break_at, file_of, WAYS};
use oracle::partner::{self as rules, first_bad, Link, Refusal, Rule, RULES};
use oracle::record::{record_of, settings_of};
use std::time::Instant;

/// What is told: 0 and the number of links or records, or the number of the refusal and what comes with it.
type Told = (u64, u64);

/// What the rules tell of a refusal.
fn refused(refusal: Refusal) -> Told {
    let place = match refusal {
        Refusal::Entry(fault) => fault.place(),
        Refusal::Record(place) => place as u64,
        _ => 0,
    };
    (refusal.number(), place)
}

/// The settings that nine words say to an import, which does not look at the word of the method.
fn settings_as_tree(words: &[u64]) -> descent::Settings {
    let mut words = words.to_vec();
    words[3] = Method::BarnesHut as u64;
    settings_of(&words).expect("nine words")
}

/// Loads on both sides into what is lent; what is told, and what there is then.
fn import_both(words: &[u64], start: &[f64], file: &[u8], lent: &Both) -> (Told, Both) {
    let mut ours = lent.clone();
    let told = match import_words(words, start, file, &mut ours.record.words, &mut ours.areas) {
        Ok(links) => (0, links as u64),
        Err((refusal, place)) => (u64::from(refusal.0), place),
    };
    let mut areas = other_side(&lent.areas);
    let (wanted, record) = if words.len() < 9 {
        ((21, 0), lent.record.words)
    } else {
        match rules::import(settings_as_tree(words), start, file, &mut areas) {
            Ok(record) => ((0, (file.len() / LINK_RECORD) as u64), words_of(&record)),
            Err(refusal) => (refused(refusal), lent.record.words),
        }
    };
    assert_eq!(told, wanted);
    let theirs = Both {
        areas: our_areas(&areas),
        record: Record { words: record },
    };
    assert_eq!(ours.difference(&theirs, None), None, "a part differs");
    (told, ours)
}

/// Writes on both sides, to a target of so many bytes; what is told, and the whole target. The run has not changed.
fn write_both(both: &Both, bytes: usize) -> (Told, Vec<u8>) {
    let before = both.clone();
    let marks: Vec<u8> = (0..bytes).map(|place| place as u8 ^ 0x5a).collect();
    let mut ours = marks.clone();
    let told = match write_lists(&both.record, &both.areas, &mut ours) {
        Ok(records) => (0, records as u64),
        Err((refusal, place)) => (u64::from(refusal.0), place),
    };
    let mut theirs = marks;
    let words = &both.record.words;
    let wanted = match record_of(words) {
        Err(fault) => told_of(fault),
        Ok(record) => {
            let wanted = rules::write_lists(&record, &other_side(&both.areas), &mut theirs);
            wanted.map_or_else(refused, |records| (0, records as u64))
        }
    };
    assert_eq!(told, wanted);
    assert!(ours == theirs, "the targets differ");
    assert_eq!(both.difference(&before, None), None, "writing changed a part");
    (told, ours)
}

/// What a list is loaded by: settings, a start, and areas of NaNs, each so many elements longer than asked for.
struct Loading {
    settings: Settings,
    start: Vec<f64>,
    room: Both,
}

impl Loading {
    fn new(random: &mut Random, settings: Settings, more: usize) -> Loading {
        let asked = sizes(&settings).expect("good settings");
        let wide = random.one_of(&[1e-4, 1.0, 1e6]);
        Loading {
            settings,
            start: (0..asked.cells).map(|_| (random.unit() - 0.5) * wide).collect(),
            room: lent(&Areas::new(&asked, 1), more),
        }
    }

    /// Of n frames with about so many neighbours each.
    fn small(random: &mut Random, n: usize, more: usize) -> Loading {
        let c = random.within(1, 3);
        let settings = Settings {
            method: random.one_of(&[Method::Exact, Method::BarnesHut]),
            perplexity: random.between(0.1, 20.0).min(n as f64 * 0.999),
            angle: random.one_of(&[0.0, 0.5, 0.99]),
            minimum: random.one_of(&[0.0, f64::NAN, 1e-7]),
            ..of_frames(n, c)
        };
        Loading::new(random, settings_by_tree(settings), more)
    }

    /// 2·n·k.
    fn most(&self) -> usize {
        settings_as_tree(&self.settings.words()).links()
    }

    /// A good list of any length.
    fn good(&self, random: &mut Random) -> Vec<Link> {
        let n = self.settings.n;
        let most = self.most().min(n * (n - 1)) / 2;
        let pairs = random.below(most + 1);
        let pairs = random.one_of(&[0, 1, most, pairs, pairs, pairs]);
        made::good(random.source(), n, pairs)
    }

    /// Loads it, with any word for the method; of a list that is loaded writing gives the same bytes.
    fn load(&self, random: &mut Random, file: &[u8], met: &mut Met) -> Told {
        let mut words = self.settings.words();
        words[3] = random.one_of(&[0, 1, 1, 2, u64::MAX]);
        let (told, found) = import_both(&words, &self.start, file, &self.room);
        match told {
            (0, _) => {
                let again = lists(&found.record, &found.areas).expect("what was loaded");
                assert!(again == file, "what was loaded is written otherwise");
                meet(met, "loaded");
            }
            (19, place) => {
                let (first, rules) = first_bad(file, self.settings.n, self.most()).expect("a rule fails");
                assert_eq!(place, first as u64);
                meet(met, broken(&rules));
            }
            (number, _) => meet(met, number.to_string()),
        }
        told
    }
}

/// Which rules fail at a record.
fn broken(rules: &[Rule]) -> String {
    match rules {
        [rule] => format!("{rule:?} alone"),
        _ => "several".to_string(),
    }
}

fn of_frames(n: usize, c: usize) -> Settings {
    Settings {
        n,
        f: 6,
        c,
        method: Method::BarnesHut,
        perplexity: 0.5,
        rate: 100.0,
        iterations: 300,
        angle: 0.5,
        minimum: 0.0,
    }
}

/// The same settings as those of the run that comes of them.
fn settings_by_tree(settings: Settings) -> Settings {
    Settings {
        method: Method::BarnesHut,
        ..settings
    }
}

/// A list with each rule broken at each of its places, and one with several broken.
fn rules_at_places(random: &mut Random, met: &mut Met) {
    let n = random.within(2, 9);
    let loading = Loading::small(random, n, 0);
    let good = loading.good(random);
    assert_eq!(loading.load(random, &file_of(&good), met).0, 0);
    // As many links as may be and more of them, where so many frames have so many.
    let pairs = loading.most() / 2 + random.below(4);
    let over = made::good(random.source(), n, pairs);
    loading.load(random, &file_of(&over), met);
    for place in 0..good.len() {
        for way in 0..WAYS {
            let mut links = good.clone();
            break_at(random.source(), &mut links, place, n, way);
            loading.load(random, &file_of(&links), met);
        }
        let mut links = good.clone();
        for _ in 0..random.within(2, 5) {
            let (place, way) = (random.below(100), random.below(WAYS));
            break_at(random.source(), &mut links, place, n, way);
        }
        loading.load(random, &file_of(&links), met);
    }
}

#[test]
fn each_rule_at_each_place() {
    let count = setting("BROTHANCHOR_RUNS", 300).div_euclid(5).max(1);
    let met = each_seed("rules at places", count, rules_at_places);
    let wanted = RULES.iter().filter(|&&rule| rule != Rule::Whole);
    let wanted = wanted.map(|rule| format!("{rule:?} alone"));
    all_met(&met, wanted.chain(["loaded", "several"].map(String::from)));
}

/// Lists of more frames, good ones and with something wrong, into areas that are long enough, longer or one short.
fn any_list(random: &mut Random, met: &mut Met) {
    let n = random.within(2, 40);
    let more = random.below(3);
    let loading = Loading::small(random, n, more);
    let good = loading.good(random);
    let file = file_of(&good);
    assert_eq!(loading.load(random, &file, met), (0, good.len() as u64));
    for _ in 0..8 {
        let mut bytes = file.clone();
        match random.below(6) {
            0 if !bytes.is_empty() => {
                let place = random.below(bytes.len());
                bytes[place] ^= 1 << random.below(8);
            }
            1 => bytes.truncate(random.below(bytes.len() + 1)),
            2 => bytes.extend((0..random.within(1, 33)).map(|place| place as u8)),
            3 => {
                // An upper triangle, then a lower one.
                let mut links = good.clone();
                links.sort_by_key(|link| (link.from > link.to, link.from, link.to));
                bytes = file_of(&links);
            }
            _ => {
                let mut links = good.clone();
                for _ in 0..random.within(1, 3) {
                    let (place, way) = (random.below(1000), random.below(WAYS));
                    break_at(random.source(), &mut links, place, n, way);
                }
                bytes = file_of(&links);
            }
        }
        loading.load(random, &bytes, met);
        unloaded(random, &loading, &bytes, met);
    }
}

/// The same file with something else that is refused before it, or just not.
fn unloaded(random: &mut Random, loading: &Loading, file: &[u8], met: &mut Met) {
    let mut room = loading.room.clone();
    let mut start = loading.start.clone();
    let mut words = loading.settings.words();
    match random.below(4) {
        0 => shorten(&mut room.areas, random.below(8)),
        1 => {
            let place = random.below(start.len());
            start[place] = random.odd_value();
        }
        2 => start.push(0.0),
        _ => {
            let place = random.below(8);
            words[place] = match place {
                4 | 5 | 7 => random.odd_value().to_bits(),
                _ => random.odd_number(words[place]),
            };
        }
    }
    if random.once_in(4) {
        start.pop();
    }
    let (told, _) = import_both(&words, &start, file, &room);
    meet(met, format!("otherwise {}", told.0));
}

#[test]
fn any_lists() {
    let met = each_seed("any lists", setting("BROTHANCHOR_RUNS", 300), any_list);
    let numbers = (0..=7)
        .chain(9..=12)
        .chain([19])
        .map(|number| format!("otherwise {number}"));
    let named = ["loaded", "several", "Whole alone", "Order alone", "Mirror alone"].map(String::from);
    all_met(&met, numbers.chain(named));
}

#[test]
fn every_byte_of_small_lists() {
    let mut met = Met::new();
    let values = setting("BROTHANCHOR_RUNS", 300) / 75;
    for n in 2..6 {
        let mut random = Random::new(setting("BROTHANCHOR_SEED", 1) + n as u64);
        let random = &mut random;
        let loading = Loading::small(random, n, 1);
        let mut file = file_of(&made::good(random.source(), n, 1 + n / 2));
        for place in 0..file.len() {
            let byte = file[place];
            let others: Vec<u8> = (0..values).map(|_| random.word() as u8).collect();
            for other in [byte ^ 1, byte ^ 0x80, 0, 0xff].into_iter().chain(others) {
                file[place] = other;
                let told = loading.load(random, &file, &mut met);
                assert!(other == byte || told.0 == 19, "byte {place}: {told:?}");
            }
            file[place] = byte;
        }
        assert_eq!(loading.load(random, &file, &mut met).0, 0);
    }
    println!("every byte: {met:?}");
}

#[test]
fn every_length_of_small_lists() {
    let mut met = Met::new();
    for n in 2..6 {
        let mut random = Random::new(setting("BROTHANCHOR_SEED", 1) + 100 + n as u64);
        let random = &mut random;
        let loading = Loading::small(random, n, 0);
        let good = file_of(&made::good(random.source(), n, n));
        for length in 0..good.len() {
            // Cut where every link so far has its mirror, it is a good list; the rules say which.
            let (number, place) = loading.load(random, &good[..length], &mut met);
            assert!(number == 0 || place <= (length / LINK_RECORD) as u64, "{length} bytes");
            assert!(number == 19 || length % LINK_RECORD == 0, "{length} bytes");
        }
        let mut longer = good.clone();
        for _ in 1..LINK_RECORD {
            longer.push(random.one_of(&[0, 1, 0xff]));
            let records = (good.len() / LINK_RECORD) as u64;
            assert_eq!(loading.load(random, &longer, &mut met), (19, records));
        }
    }
    assert!(
        met.contains_key("Whole alone") && met.contains_key("Mirror alone"),
        "{met:?}"
    );
}

#[test]
fn areas_and_words_short_and_long() {
    let mut met = Met::new();
    for n in 2..8 {
        let mut random = Random::new(setting("BROTHANCHOR_SEED", 1) + 200 + n as u64);
        let random = &mut random;
        let loading = Loading::small(random, n, 0);
        let good = made::good(random.source(), n, 2);
        let (file, links) = (file_of(&good), good.len() as u64);
        let words = loading.settings.words();
        for more in 0..4 {
            let room = lent(&loading.room.areas, more);
            assert_eq!(import_both(&words, &loading.start, &file, &room).0, (0, links));
        }
        for which in 0..8 {
            let mut short = loading.room.clone();
            shorten(&mut short.areas, which);
            assert_eq!(
                import_both(&words, &loading.start, &file, &short).0,
                (12, 0),
                "area {which}"
            );
            let tail = import_both(&words, &loading.start, &file[..7], &short);
            assert_eq!(tail.0, (12, 0), "12 comes before 19");
            assert_eq!(import_both(&words, &[], &file, &short).0, (11, 0), "11 comes before 12");
        }
        for fewer in 0..9 {
            let told = import_both(&words[..fewer], &[], &file[..1], &loading.room).0;
            assert_eq!(told, (21, 0), "{fewer} words");
        }
        let longer = [&words[..], &[u64::MAX; 3]].concat();
        assert_eq!(import_both(&longer, &loading.start, &file, &loading.room).0, (0, links));

        for (room, wanted) in [(0, Err((12, 0))), (13, Err((12, 0))), (14, Ok(links)), (17, Ok(links))] {
            let mut record = vec![77; room];
            let mut areas = loading.room.areas.clone();
            let told = import_words(&words, &loading.start, &file, &mut record, &mut areas);
            assert_eq!(
                told.map(|links| links as u64)
                    .map_err(|(refusal, word)| (refusal.0, word)),
                wanted
            );
            if wanted.is_err() {
                let (ours, theirs) = (Both { areas, ..loading.room }, &loading.room);
                assert_eq!(
                    ours.difference(theirs, None),
                    None,
                    "a short record, and a part changed"
                );
            }
            let kept = if wanted.is_ok() { 14 } else { 0 };
            assert!(record[kept..].iter().all(|&word| word == 77), "the record's tail");
        }
        let tail = import_words(
            &words,
            &loading.start,
            &file[..9],
            &mut [77; 13],
            &mut loading.room.areas.clone(),
        );
        assert_eq!(tail.map_err(|(refusal, word)| (refusal.0, word)), Err((12, 0)));
        loading.load(random, &file, &mut met);
    }
}

/// A run that starts from a list, worked in calls of any budget on both sides; its lists are written on the way.
fn worked(random: &mut Random, met: &mut Met) {
    let n = random.within(2, 24);
    let loading = Loading::small(random, n, n % 3);
    let mut links = loading.good(random);
    if random.once_in(2) {
        // Weights as a partner's program makes them.
        for link in &mut links {
            link.weight = (1.0 / (1.0 + f64::from(link.from + link.to)) / n as f64).to_bits();
        }
    }
    let file = file_of(&links);
    let mut settings = loading.settings;
    settings.iterations = if n < 6 { 254 } else { random.within(1, 4) };
    let (told, mut both) = import_both(&settings.words(), &loading.start, &file, &loading.room);
    assert_eq!(told, (0, links.len() as u64));
    both.areas.nodes = marked_nodes(random.within(1, 60 + 20 * n));
    for _ in 0..14 {
        let (told, written) = write_both(&both, file.len() + random.below(40));
        assert_eq!(told, (0, links.len() as u64));
        assert!(written[..file.len()] == file[..], "the lists are written otherwise");
        meet(
            met,
            if both.record.words[11] > 0 {
                "written inside"
            } else {
                "written between"
            },
        );
        let few = random.within(1, 60);
        let budget = random.one_of(&[1, few, settings.iteration(), 1 << 20]);
        let worked = both.work(budget as u32);
        match number(&worked) {
            14 => both.areas.nodes.extend(marked_nodes(400)),
            15 => return meet(met, "refused by 15"),
            _ => {}
        }
        if worked.kind == Kind::Stopped || worked.kind == Kind::Finished {
            assert!(lists(&both.record, &both.areas) == Ok(file), "an ended run's lists");
            return meet(met, format!("{:?}", worked.kind));
        }
    }
}

#[test]
fn runs_from_lists() {
    let met = each_seed("runs from lists", setting("BROTHANCHOR_RUNS", 300), worked);
    let wanted = ["written inside", "written between", "Finished", "refused by 15"];
    all_met(&met, wanted.map(String::from));
}

/// A prepared run's lists, written and loaded again: they are the same, and what starts from them goes the same way.
fn returned(random: &mut Random, met: &mut Met) {
    let n = random.within(2, 60);
    let iterations = if n < 8 { 252 } else { 3 };
    let settings = settings_by_tree(Settings {
        c: random.within(1, 3),
        ..settings(random, n, iterations)
    });
    let nodes = sizes(&settings).expect("good settings").nodes;
    let case = Case::good(random, settings, nodes);
    let mut prepared = Both::prepare(&case).expect("a good run");
    let (told, file) = write_both(&prepared, lists_bytes(&prepared.record, &prepared.areas));
    assert_eq!(told, (0, u64::from(prepared.areas.offsets[n])));
    let links = told.1 as usize;
    let zero = prepared.areas.affinities[..links]
        .iter()
        .position(|&weight| weight == 0.0);
    let (told, mut found) = import_both(&settings.words(), &case.start, &file, &lent(&prepared.areas, 0));
    if let Some(place) = zero {
        assert_eq!(told, (19, place as u64), "a weight of zero is not taken");
        return meet(met, "a weight of zero");
    }
    assert_eq!(told, (0, links as u64));
    assert_eq!(found.record, prepared.record);
    assert_eq!(found.areas.offsets[..=n], prepared.areas.offsets[..=n]);
    assert_eq!(found.areas.indices[..links], prepared.areas.indices[..links]);
    meet(met, "returned");
    // The same memory behind what is used, so that all of it can be compared.
    found.areas.affinities.clone_from(&prepared.areas.affinities);
    found.areas.indices.clone_from(&prepared.areas.indices);
    found.areas.nodes.clone_from(&prepared.areas.nodes);
    let cells = case.settings.n * case.settings.c;
    for _ in 0..8 {
        let budget = random.within(1, 3 * settings.iteration()) as u32;
        let ours = brothanchor::work(&mut found.record, &mut found.areas, budget);
        let theirs = brothanchor::work(&mut prepared.record, &mut prepared.areas, budget);
        assert_eq!((ours, found.record), (theirs, prepared.record));
        let bits = |area: &[f64]| area[..cells].iter().map(|v| v.to_bits()).collect::<Vec<u64>>();
        assert!(
            bits(&found.areas.positions) == bits(&prepared.areas.positions),
            "positions"
        );
        assert!(
            bits(&found.areas.increments) == bits(&prepared.areas.increments),
            "increments"
        );
        assert!(bits(&found.areas.gains) == bits(&prepared.areas.gains), "gains");
    }
}

#[test]
fn lists_that_come_back() {
    let met = each_seed("lists that come back", setting("BROTHANCHOR_RUNS", 300), returned);
    all_met(&met, ["returned", "a weight of zero"].map(String::from));
}

/// Runs of both methods as they go: their lists are written, as they are and damaged.
fn written(random: &mut Random, met: &mut Met) {
    let n = random.within(2, 24);
    let settings = settings(random, n, iterations_of(n));
    let case = Case::good(random, settings, 40 + 10 * n);
    let mut both = Both::prepare(&case).expect("a good run");
    let exact = settings.method == Method::Exact;
    for _ in 0..10 {
        let bytes = lists_bytes(&both.record, &both.areas);
        let (told, _) = write_both(&both, bytes);
        assert_eq!(told.0, if exact { 17 } else { 0 });
        if !exact && bytes > 0 {
            assert_eq!(write_both(&both, bytes - 1).0, (12, 0));
            let zeros = both.areas.affinities[..bytes / LINK_RECORD]
                .iter()
                .filter(|&&weight| weight == 0.0);
            meet(met, if zeros.count() > 0 { "zeros" } else { "no zeros" });
        }
        meet(met, format!("{:?}, {}", settings.method, told.0));
        if !exact && bytes > 0 {
            odd_weights(random, &both, bytes, met);
        }
        for _ in 0..4 {
            let mut other = both.clone();
            match random.below(5) {
                0 => damage_record(random, &mut other),
                1 => shorten(&mut other.areas, random.below(8)),
                _ => damage(random, &mut other),
            }
            let (told, _) = write_both(&other, bytes.saturating_sub(random.one_of(&[0, 0, 0, 1, 16])));
            meet(met, format!("damaged: {}", told_name(told)));
        }
        let few = random.within(1, 60);
        let budget = random.one_of(&[1, few, settings.iteration(), 1 << 20]);
        let worked = both.work(budget as u32);
        match number(&worked) {
            14 => both.areas.nodes.extend(marked_nodes(400)),
            15 => return,
            _ => {}
        }
    }
}

/// Weights that no good list has: NaNs of several payloads, quiet and signalling, with both signs, infinities, zeros.
const ODD: [u64; 8] = [
    0x7ff8_0000_0000_0000,
    0x7ff0_0000_0000_0001,
    0xfff8_dead_beef_0123,
    u64::MAX,
    0x7ff0_0000_0000_0000,
    0xfff0_0000_0000_0000,
    0,
    1 << 63,
];

/// Lists with such a weight are written with its bits; no rule takes them back.
fn odd_weights(random: &mut Random, both: &Both, bytes: usize, met: &mut Met) {
    for odd in ODD {
        let mut other = both.clone();
        let place = random.below(bytes / LINK_RECORD);
        other.areas.affinities[place] = f64::from_bits(odd);
        let (told, file) = write_both(&other, bytes);
        assert_eq!(told, (0, (bytes / LINK_RECORD) as u64));
        let at = LINK_RECORD * place + 8;
        assert_eq!(file[at..at + 8], odd.to_le_bytes(), "a weight is written otherwise");
        let n = other.record.words[0] as usize;
        assert!(first_bad(&file, n, usize::MAX).is_some(), "an odd weight is taken back");
        meet(met, format!("written {odd:x}"));
    }
}

fn iterations_of(n: usize) -> usize {
    if n < 8 {
        252
    } else {
        3
    }
}

#[test]
fn lists_of_runs_as_they_go() {
    let met = each_seed("lists as they go", setting("BROTHANCHOR_RUNS", 300), written);
    let numbers = ["0", "12", "17", "21", "22"].map(|number| format!("damaged: {number}"));
    let placed = [23, 24, 25].map(|number| format!("damaged: {number} with a place"));
    let named = ["Exact, 17", "BarnesHut, 0", "no zeros"].map(String::from);
    let odd = ODD.map(|odd| format!("written {odd:x}"));
    all_met(&met, numbers.into_iter().chain(placed).chain(named).chain(odd));
}

/// A full side: n 4096, k 91, every list as long as may be, in rings of neighbours.
fn full_side() -> (Settings, Vec<Link>) {
    let (n, k) = (4096_u32, 91);
    let settings = Settings {
        perplexity: 30.0,
        ..of_frames(n as usize, 2)
    };
    let mut links = Vec::new();
    for from in 0..n {
        for apart in 1..=k {
            let to = (from + apart) % n;
            let weight = (1.0 / f64::from(apart * n)).to_bits();
            let link = Link { from, to, weight };
            links.extend([link, link.mirror()]);
        }
    }
    links.sort_by_key(|link| (link.from, link.to));
    (settings, links)
}

#[test]
#[ignore = "times: 745,472 links of 4096 frames, loaded and refused"]
fn times_of_a_full_side() {
    let (settings, links) = full_side();
    let mut random = Random::new(1);
    let loading = Loading::new(&mut random, settings, 0);
    assert_eq!(links.len(), loading.most());
    let time = |what: &str, file: &[u8], wanted: Told| {
        let mut room = loading.room.clone();
        let begun = Instant::now();
        let told = import_words(
            &settings.words(),
            &loading.start,
            file,
            &mut room.record.words,
            &mut room.areas,
        );
        let seconds = begun.elapsed().as_secs_f64();
        println!("{what}: {seconds:.3} s");
        let told = told.map_or_else(
            |(refusal, place)| (u64::from(refusal.0), place),
            |links| (0, links as u64),
        );
        assert_eq!(told, wanted, "{what}");
        assert!(seconds < 20.0, "{what}: {seconds} s");
        room
    };
    let file = file_of(&links);
    let room = time("a good list", &file, (0, links.len() as u64));
    let mut target = vec![0; file.len()];
    let begun = Instant::now();
    assert_eq!(write_lists(&room.record, &room.areas, &mut target), Ok(links.len()));
    println!("written: {:.3} s", begun.elapsed().as_secs_f64());
    assert!(target == file, "what was loaded is written otherwise");

    let mut halves = links.clone();
    halves.sort_by_key(|link| (link.from > link.to, link.from, link.to));
    time("two halves", &file_of(&halves), (19, links.len() as u64 / 2));
    let mut falling = links.clone();
    falling.reverse();
    time("all falling", &file_of(&falling), (19, 1));
    let mut lonely = links.clone();
    let last = lonely.len() - 1;
    lonely[last].weight ^= 1;
    let mirror = links[last].mirror();
    let place = links.iter().position(|&link| link == mirror).expect("a mirror");
    time("a lonely link", &file_of(&lonely), (19, place as u64));
    let mut tailed = file;
    tailed.push(0);
    time("a stray tail", &tailed, (19, links.len() as u64));
}
