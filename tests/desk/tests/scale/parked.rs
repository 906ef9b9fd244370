//! Parked runs against the independent implementation: what is written, what is read, what is refused and at which record, and
//! a run that was parked against one that was not. After each call number, word 0, every byte and every place of every area
//! have to be the same on both sides, NaNs by their bits.

use crate::both::{node_bits, number, other_side, told_of, Both};
use crate::case::{marked_nodes, shorten, Case};
use crate::met::{all_met, meet, told_name, Met};
use crate::random::Random;
use crate::{damage, damage_record, each_seed, setting};
use brothanchor::{
    park, parked, parked_bytes, unpark_words, Areas, Kind, Method, Node, Record, Settings, PARKED_RECORD,
};
use oracle::descent::{self, Standing};
use oracle::lists::park as made;
use oracle::park::{self as rules, Refusal};
use oracle::record::record_of;
use oracle::tree;

/// What is told: 0 and the number of records, or the number of the refusal and what comes with it.
type Told = (u64, u64);

/// The three states, and both methods with the components of small runs.
pub const STATES: [&str; 3] = ["running", "stopped", "finished"];
const METHODS: [descent::Method; 2] = [descent::Method::Exact, descent::Method::BarnesHut];

/// A run of the other side as the library is lent it.
fn our_side(record: &descent::Record, areas: &descent::Areas) -> Both {
    Both {
        areas: our_areas(areas),
        record: Record {
            words: made::words_of(record),
        },
    }
}

pub fn our_areas(areas: &descent::Areas) -> Areas {
    Areas {
        positions: areas.positions.clone(),
        increments: areas.increments.clone(),
        gains: areas.gains.clone(),
        affinities: areas.affinities.clone(),
        indices: areas.indices.clone(),
        offsets: areas.offsets.clone(),
        forces: areas.forces.clone(),
        nodes: areas.nodes.iter().map(our_node).collect(),
    }
}

fn our_node(node: &tree::Node) -> Node {
    Node {
        centre: node.centre,
        half: node.half,
        mass: node.mass,
        count: node.count,
        first: node.first,
        leaf: node.leaf,
    }
}

/// What the rules tell of a refusal.
fn refused(refusal: Refusal) -> Told {
    let place = match refusal {
        Refusal::Entry(fault) => fault.place(),
        Refusal::Record(place) => place as u64,
        _ => 0,
    };
    (refusal.number(), place)
}

/// Parks on both sides, to a target of so many bytes; what is told, and the whole target. The run has not changed.
fn park_both(both: &Both, bytes: usize) -> (Told, Vec<u8>) {
    let before = both.clone();
    let marks: Vec<u8> = (0..bytes).map(|place| place as u8 ^ 0x5a).collect();
    let mut ours = marks.clone();
    let told = match park(&both.record, &both.areas, &mut ours) {
        Ok(records) => (0, records as u64),
        Err((refusal, place)) => (u64::from(refusal.0), place),
    };
    let mut theirs = marks;
    let words = &both.record.words;
    let wanted = match record_of(words) {
        Err(fault) => told_of(fault),
        Ok(record) => {
            let wanted = rules::park(&record, &other_side(&both.areas), &mut theirs);
            wanted.map_or_else(refused, |records| (0, records as u64))
        }
    };
    assert_eq!(told, wanted);
    assert!(ours == theirs, "the targets differ");
    assert_eq!(both.difference(&before, None), None, "parking changed a part");
    (told, ours)
}

/// Reads on both sides into what is lent; what is told, and what there is then.
fn unpark_both(file: &[u8], lent: &Both) -> (Told, Both) {
    let mut ours = lent.clone();
    let told = match unpark_words(file, &mut ours.record.words, &mut ours.areas) {
        Ok(records) => (0, records as u64),
        Err((refusal, place)) => (u64::from(refusal.0), place),
    };
    let mut areas = other_side(&lent.areas);
    let (wanted, record) = match rules::unpark(file, &mut areas) {
        Ok(record) => ((0, (file.len() / PARKED_RECORD) as u64), made::words_of(&record)),
        Err(refusal) => (refused(refusal), lent.record.words),
    };
    assert_eq!(told, wanted);
    let theirs = Both {
        areas: our_areas(&areas),
        record: Record { words: record },
    };
    assert_eq!(ours.difference(&theirs, None), None, "a part differs");
    (told, ours)
}

/// The run as it was and as it has to be when it is read back: no node in use, an exact run's angle +0.0.
fn expected(record: &Record) -> [u64; 14] {
    let mut words = record.words;
    words[13] = 0;
    if words[3] == 0 {
        words[7] = 0;
    }
    words
}

/// A small run that can be parked, with the file that is written of it.
fn small(random: &mut Random, method: descent::Method, c: usize, standing: Standing) -> (Both, Vec<u8>) {
    let n = random.within(2, 5);
    let (record, areas) = made::run(random.source(), method, n, c, standing);
    let both = our_side(&record, &areas);
    let (told, file) = park_both(&both, parked_bytes(&both.record, &both.areas));
    assert_eq!(told, (0, (file.len() / PARKED_RECORD) as u64));
    (both, file)
}

/// Other contents in the record and all areas, each so many elements longer.
pub fn lent(like: &Areas, more: usize) -> Both {
    let values = |area: &[f64]| vec![f64::from_bits(0x7ff0_0000_0000_0abc); area.len() + more];
    let numbers = |area: &[u32]| vec![0x4000_0000; area.len() + more];
    Both {
        areas: Areas {
            positions: values(&like.positions),
            increments: values(&like.increments),
            gains: values(&like.gains),
            affinities: values(&like.affinities),
            indices: numbers(&like.indices),
            offsets: numbers(&like.offsets),
            forces: values(&like.forces),
            nodes: marked_nodes(like.nodes.len() + more),
        },
        record: Record { words: [77; 14] },
    }
}

/// Of a file that is read, writing gives the same bytes.
fn read(file: &[u8], lent: &Both, met: &mut Met) -> Told {
    let (told, found) = unpark_both(file, lent);
    match told {
        (0, _) => {
            let again = parked(&found.record, &found.areas).expect("what was read");
            assert!(again == file, "what was read is written otherwise");
            meet(met, "read");
        }
        (16, place) => meet(met, format!("16 at {}", part(place))),
        (number, _) => meet(met, number.to_string()),
    }
    told
}

/// Where a record lies.
fn part(place: u64) -> String {
    match place {
        0..=2 => format!("record {place}"),
        _ => "an area".to_string(),
    }
}

/// Every small run: both methods, c 1 to 3, running, stopped and finished.
fn each_small(seed: u64, mut one: impl FnMut(&mut Random, Both, Vec<u8>)) {
    for method in METHODS {
        for c in 1..=3 {
            for standing in made::STANDINGS {
                let mut random = Random::new(seed + 9 * c as u64 + standing as u64);
                let (both, file) = small(&mut random, method, c, standing);
                one(&mut random, both, file);
            }
        }
    }
}

#[test]
fn every_byte_of_small_files() {
    let mut met = Met::new();
    let values = setting("BROTHANCHOR_RUNS", 300) / 75;
    each_small(setting("BROTHANCHOR_SEED", 1), |random, both, mut file| {
        let (lent, tree) = (lent(&both.areas, 1), both.record.words[3]);
        for place in 0..file.len() {
            let byte = file[place];
            let others: Vec<u8> = (0..values).map(|_| random.word() as u8).collect();
            for other in [byte ^ 1, byte ^ 0x80, 0, 0xff].into_iter().chain(others) {
                file[place] = other;
                let told = read(&file, &lent, &mut met);
                if told.0 == 16 {
                    let record = (place / PARKED_RECORD) as u64;
                    // What stands in the first three says what comes later, and an offset that has grown is good where
                    // it stands: the next one falls, in this record or in the one after it.
                    let later = if record < 3 { u64::MAX } else { record + tree };
                    assert!((record..=later).contains(&told.1), "byte {place}: {told:?}");
                }
            }
            file[place] = byte;
        }
        assert_eq!(read(&file, &lent, &mut met).0, 0);
    });
    println!("every byte: {met:?}");
    for what in [
        "read",
        "16 at record 0",
        "16 at record 1",
        "16 at record 2",
        "16 at an area",
    ] {
        assert!(met.contains_key(what), "never met: {what}");
    }
}

#[test]
fn every_length_of_small_files() {
    let mut met = Met::new();
    each_small(setting("BROTHANCHOR_SEED", 1) + 100, |random, both, file| {
        let lent = lent(&both.areas, 0);
        let records = (file.len() / PARKED_RECORD) as u64;
        for length in 0..file.len() {
            let told = read(&file[..length], &lent, &mut met);
            assert_eq!(told, (16, (length / PARKED_RECORD) as u64));
        }
        let mut longer = file;
        for _ in 0..80 {
            longer.push(random.one_of(&[0, 1, 0xff]));
            assert_eq!(read(&longer, &lent, &mut met), (16, records));
        }
    });
}

#[test]
fn areas_short_and_long() {
    each_small(setting("BROTHANCHOR_SEED", 1) + 200, |random, both, file| {
        let tree = both.record.words[3] == 1;
        let records = (file.len() / PARKED_RECORD) as u64;
        for more in 0..4 {
            let (told, found) = unpark_both(&file, &lent(&both.areas, more));
            assert_eq!(told, (0, records));
            assert_eq!(found.record.words, expected(&both.record));
        }
        for which in 0..8 {
            let mut short = lent(&both.areas, 0);
            shorten(&mut short.areas, which);
            let asked = tree || !matches!(which, 4 | 5 | 7);
            // Lists of an exact run are not looked at.
            let (told, _) = unpark_both(&file, &short);
            assert_eq!(told, if asked { (12, 0) } else { (0, records) }, "area {which}");
            let mut bad = file.clone();
            bad.pop();
            assert_eq!(unpark_both(&bad, &short).0, (16, records - 1), "16 comes before 12");
        }
        let mut short = lent(&both.areas, 0);
        let told = unpark_words(&file, &mut short.record.words[..13], &mut short.areas);
        assert_eq!(told.map_err(|(refusal, word)| (refusal.0, word)), Err((12, 0)));
        assert_eq!(
            short.difference(&lent(&both.areas, 0), None),
            None,
            "a short record, and a part changed"
        );
        let mut words = [77; 17];
        let mut room = lent(&both.areas, 0);
        let told = unpark_words(&file, &mut words, &mut room.areas);
        assert_eq!(told.map_err(|(refusal, word)| (refusal.0, word)), Ok(records as usize));
        assert_eq!(
            (words[..14].to_vec(), &words[14..]),
            (expected(&both.record).to_vec(), &[77; 3][..])
        );

        for length in [0, 32, file.len() - PARKED_RECORD, file.len() - 1] {
            assert_eq!(park_both(&both, length).0, (12, 0), "a target of {length} bytes");
        }
        let (told, target) = park_both(&both, file.len() + random.within(1, 70));
        assert_eq!(told, (0, records));
        assert!(target[..file.len()] == file[..], "a longer target has another file");
    });
}

/// Files with something wrong, or other, and areas that are long enough, longer or one short.
fn damaged_file(random: &mut Random, met: &mut Met) {
    let method = random.one_of(&METHODS);
    let n = random.within(2, 12);
    let c = random.within(1, if method == descent::Method::Exact { 8 } else { 3 });
    let standing = random.one_of(&made::STANDINGS);
    let (record, areas) = made::run(random.source(), method, n, c, standing);
    let both = our_side(&record, &areas);
    let mut file = park_both(&both, parked_bytes(&both.record, &both.areas)).1;
    nans(&both, met);
    let mut room = lent(&both.areas, random.below(3));
    for _ in 0..8 {
        let good = file.clone();
        made::damage(random.source(), &mut file);
        if random.once_in(4) {
            shorten(&mut room.areas, random.below(8));
        }
        let (number, _) = read(&file, &room, met);
        meet(met, format!("{method:?}, {number}"));
        file = good;
    }
}

/// Which NaNs a run has that are not the usual one.
fn nans(both: &Both, met: &mut Met) {
    let odd = |word: u64| f64::from_bits(word).is_nan() && word != 0x7ff8_0000_0000_0000;
    if odd(both.record.words[8]) {
        meet(met, "a NaN minimum");
    }
    if both.areas.affinities.iter().any(|v| odd(v.to_bits())) {
        let what = ["a NaN affinity", "a NaN weight"][both.record.words[3] as usize];
        meet(met, what);
    }
    meet(met, STATES[both.record.words[9] as usize]);
}

#[test]
fn damaged_files() {
    let met = each_seed("damaged files", setting("BROTHANCHOR_RUNS", 300), damaged_file);
    let both = ["0", "12", "16"].map(|number| METHODS.map(|method| format!("{method:?}, {number}")));
    let wanted = [
        "a NaN minimum",
        "a NaN affinity",
        "a NaN weight",
        "running",
        "stopped",
        "finished",
        "read",
        "12",
        "16 at record 0",
        "16 at record 1",
        "16 at record 2",
        "16 at an area",
    ];
    let wanted = wanted.map(String::from).into_iter().chain(both.into_iter().flatten());
    all_met(&met, wanted);
}

/// Settings of a run that is worked.
pub fn settings(random: &mut Random, n: usize, iterations: usize) -> Settings {
    let method = random.one_of(&[Method::Exact, Method::BarnesHut]);
    Settings {
        n,
        f: random.within(1, 6),
        c: random.within(1, if method == Method::Exact { 8 } else { 3 }),
        method,
        perplexity: random.between(0.3, 60.0).min(n as f64 * 0.999),
        rate: random.between(0.1, 300.0),
        iterations,
        angle: random.one_of(&[0.0, -0.0, 0.3, 0.5, 0.99]),
        minimum: random.one_of(&[0.0, f64::NAN, 1e-7, 1e-3, 1e9]),
    }
}

/// A run is worked in calls of any budget; before each it is parked, as it is and damaged.
fn worked(random: &mut Random, met: &mut Met) {
    let n = random.within(2, 24);
    let iterations = if n < 8 {
        random.within(251, 254)
    } else {
        random.within(1, 4)
    };
    let settings = settings(random, n, iterations);
    let case = Case::good(random, settings, 40 + 10 * n);
    let mut both = Both::prepare(&case).expect("a good run");
    for _ in 0..12 {
        let (told, _) = park_both(&both, parked_bytes(&both.record, &both.areas));
        let inside = both.record.words[11] > 0;
        assert_eq!(told.0, if inside { 17 } else { 0 });
        meet(met, format!("{:?}, {}", case.settings.method, told.0));
        for _ in 0..4 {
            let mut other = both.clone();
            match random.below(5) {
                0 => damage_record(random, &mut other),
                1 => shorten(&mut other.areas, random.below(8)),
                _ => damage(random, &mut other),
            }
            let bytes = parked_bytes(&both.record, &both.areas) - random.one_of(&[0, 0, 0, 1, 32]);
            let (told, _) = park_both(&other, bytes);
            meet(met, format!("damaged: {}", told_name(told)));
        }
        let few = random.within(1, 60);
        let budget = random.one_of(&[1, few, case.settings.iteration(), 1 << 20]);
        let worked = both.work(budget as u32);
        match number(&worked) {
            14 => both.areas.nodes.extend(marked_nodes(400)),
            15 => return meet(met, "refused by 15"),
            _ => {}
        }
        if worked.kind == Kind::Stopped || worked.kind == Kind::Finished {
            let (told, file) = park_both(&both, parked_bytes(&both.record, &both.areas));
            assert_eq!(told.0, 0);
            let (_, found) = unpark_both(&file, &lent(&both.areas, 0));
            assert_eq!(found.record.words, expected(&both.record));
            return meet(met, format!("{:?}, {:?}", case.settings.method, worked.kind));
        }
    }
}

#[test]
fn runs_that_are_parked_as_they_go() {
    let met = each_seed("parked as they go", setting("BROTHANCHOR_RUNS", 300), worked);
    let methods =
        ["0", "17", "Stopped", "Finished"].map(|what| [format!("Exact, {what}"), format!("BarnesHut, {what}")]);
    let numbers = ["0", "12", "15", "17", "21", "22"].map(|number| format!("damaged: {number}"));
    let placed = [23, 24, 25].map(|number| format!("damaged: {number} with a place"));
    let wanted = methods.into_iter().flatten().chain(numbers).chain(placed);
    all_met(&met, wanted);
}

/// So many units by the library alone; nothing where it is refused.
fn go_on(both: &mut Both, budget: u32) -> Option<brothanchor::Worked> {
    let worked = brothanchor::work(&mut both.record, &mut both.areas, budget);
    (number(&worked) == 0).then_some(worked)
}

/// A run that is parked and read back at borders at random, and the same run that is not, in calls of the same budgets. All is
/// the same but for forces, nodes and nodes in use, and these too from the next finish on.
fn overnight(random: &mut Random, case: &Case, iterations: usize, met: &mut Met) {
    let through = Both::prepare(case).expect("a good run");
    let (mut through, mut nights) = (through.clone(), through);
    let iteration = case.settings.iteration();
    let (mut since, mut parkings) = (0, 0);
    while through.record.words[9] == 0 && (through.record.words[10] as usize) < iterations {
        let left = iteration - through.record.words[11] as usize;
        let any = random.within(1, 2 * iteration);
        let budget = random.one_of(&[1, any, left, left, left, left + iteration]);
        let told = go_on(&mut through, budget as u32);
        assert_eq!(told, go_on(&mut nights, budget as u32));
        if told.is_none() {
            return meet(met, "refused by 14 or 15");
        }
        same(&through, &nights, since != through.record.words[10]);
        if through.record.words[11] == 0 && random.once_in(2) {
            let file = parked(&nights.record, &nights.areas).expect("between two iterations");
            let again = parked(&through.record, &through.areas).expect("between two iterations");
            assert!(file == again, "the parked run is parked otherwise");
            let mut room = lent(&nights.areas, 0);
            // An arena as long as before.
            assert!(unpark_words(&file, &mut room.record.words, &mut room.areas).is_ok());
            nights = room;
            since = through.record.words[10];
            parkings += 1;
        }
    }
    meet(
        met,
        format!(
            "{:?}, parked {}",
            case.settings.method,
            if parkings > 1 { "often" } else { "once or never" }
        ),
    );
}

/// What a parking keeps, and, once a finish was done since, the forces, the nodes in use and their number.
fn same(through: &Both, nights: &Both, finished: bool) {
    let bits = |area: &[f64]| area.iter().map(|v| v.to_bits()).collect::<Vec<u64>>();
    let (a, b) = (&through.areas, &nights.areas);
    let Settings { n, c, .. } = sizes_of(&through.record);
    for (ours, theirs) in [
        (&a.positions, &b.positions),
        (&a.increments, &b.increments),
        (&a.gains, &b.gains),
    ] {
        assert!(bits(&ours[..n * c]) == bits(&theirs[..n * c]));
    }
    assert_eq!(through.record.words[..13], nights.record.words[..13]);
    if finished {
        assert_eq!(through.record, nights.record);
        let forces = if through.record.words[3] == 0 {
            n * c + 1
        } else {
            n * (2 * c + 1)
        };
        assert!(bits(&a.forces[..forces]) == bits(&b.forces[..forces]), "forces");
        let used = through.record.words[13] as usize;
        assert!(
            a.nodes[..used]
                .iter()
                .map(node_bits)
                .eq(b.nodes[..used].iter().map(node_bits)),
            "nodes in use"
        );
    }
}

fn sizes_of(record: &Record) -> Settings {
    let [n, f, c, method, ..] = record.words;
    Settings {
        n: n as usize,
        f: f as usize,
        c: c as usize,
        method: if method == 0 { Method::Exact } else { Method::BarnesHut },
        perplexity: 0.0,
        rate: 0.0,
        iterations: 0,
        angle: 0.0,
        minimum: 0.0,
    }
}

/// A run of few frames, parked at borders at random.
fn night(random: &mut Random, met: &mut Met) {
    let most = random.one_of(&[12, 40]);
    let n = random.within(2, most);
    let iterations = if n < 12 { 270 } else { 12 };
    let mut settings = settings(random, n, iterations);
    // An exact run's angle is read back as +0.0, which is another record.
    settings.angle = if settings.method == Method::Exact {
        0.0
    } else {
        settings.angle
    };
    settings.minimum = random.one_of(&[0.0, 1e-3, 1e9]);
    let nodes = brothanchor::sizes(&settings).expect("good settings").nodes;
    let case = Case::good(random, settings, nodes);
    overnight(random, &case, iterations, met);
}

#[test]
fn nights() {
    let count = setting("BROTHANCHOR_RUNS", 300).div_euclid(5).max(1);
    let met = each_seed("nights", count, night);
    for what in ["Exact, parked often", "BarnesHut, parked often"] {
        assert!(met.contains_key(what), "never met: {what}");
    }
}

/// A run of many frames, perplexity 30, parked at borders at random within so many iterations.
fn full_nights(n: usize, iterations: usize) {
    let random = &mut Random::new(setting("BROTHANCHOR_SEED", 1));
    let settings = Settings {
        n,
        f: 6,
        c: 2,
        method: Method::BarnesHut,
        perplexity: 30.0,
        rate: 100.0,
        iterations: 1000,
        angle: 0.5,
        minimum: 0.0,
    };
    let mut met = Met::new();
    let nodes = brothanchor::sizes(&settings).expect("good settings").nodes;
    let case = Case::good(random, settings, nodes);
    overnight(random, &case, iterations, &mut met);
    println!("{n} frames, {iterations} iterations: {met:?}");
    assert!(met.contains_key("BarnesHut, parked often"), "{met:?}");
}

#[test]
fn nights_of_400_frames() {
    full_nights(400, 30);
}

#[test]
#[ignore = "takes minutes under an emulator: 4096 frames, 300 iterations twice"]
fn nights_of_4096_frames() {
    full_nights(4096, 300);
}
