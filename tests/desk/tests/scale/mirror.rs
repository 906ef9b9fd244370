//! Mirrored maps, by the exact method: pairs of runs of the library that differ in their starts alone. The second's have the sign of
//! one component turned in every position, or of any set of components. After the preparation and after every call the answers, the
//! records, gains, affinities, the total and all that lies behind the frames' places have to have the same bits; positions,
//! increments and gradients are the negative in a turned component, where two zeros may have any signs, and have the same bits in
//! any other.

use crate::both::{number, Both};
use crate::case::Case;
use crate::met::{all_met, meet, Met};
use crate::random::Random;
use crate::{budget, each_seed, setting};
use brothanchor::{prepare, sizes, work, Areas, Kind, Method, Record, Rows, Settings, Worked};
use oracle::elementary::DOMAIN;

/// The sign of an f64 among its bits.
const SIGN: u64 = 1 << 63;

/// Which components are turned: component d by bit d.
#[derive(Clone, Copy)]
struct Turns {
    c: usize,
    set: u64,
}

impl Turns {
    /// Whether a place lies in a turned component.
    fn holds(self, place: usize) -> bool {
        self.set >> (place % self.c) & 1 == 1
    }

    /// A place's value as the mirrored run has it.
    fn value(self, place: usize, value: f64) -> f64 {
        f64::from_bits(value.to_bits() ^ if self.holds(place) { SIGN } else { 0 })
    }

    fn values(self, values: &[f64]) -> Vec<f64> {
        values
            .iter()
            .enumerate()
            .map(|(place, &v)| self.value(place, v))
            .collect()
    }

    /// Whether the second area is the first one mirrored in so many places, zeros of turned components with any signs, and the same
    /// by its bits behind them.
    fn mirrors(self, cells: usize, a: &[f64], b: &[f64]) -> bool {
        let agree = |place: usize| {
            let (a, b) = (a[place], b[place]);
            match place < cells {
                true => self.value(place, a).to_bits() == b.to_bits() || (self.holds(place) && a == 0.0 && b == 0.0),
                false => a.to_bits() == b.to_bits(),
            }
        };
        a.len() == b.len() && (0..a.len()).all(agree)
    }
}

fn bits(values: &[f64]) -> Vec<u64> {
    values.iter().map(|v| v.to_bits()).collect()
}

/// A run, and the one from the turned start.
#[derive(Clone)]
struct Pair {
    turns: Turns,
    run: Both,
    mirrored: Both,
}

/// The parts of a run that are mirrored.
const TURNED: [&str; 3] = ["positions", "increments", "gradients"];

impl Pair {
    /// Both runs, or the number by which both are refused; then nothing has changed.
    fn prepare(case: &Case, turns: Turns) -> Result<Pair, u64> {
        let one = |start: &[f64]| {
            let (mut areas, mut rows) = (case.areas.clone(), case.rows.clone());
            let told = prepare(&case.settings.words(), &case.table, start, &mut areas, &mut rows);
            if told.is_err() {
                assert!(areas == case.areas && rows == case.rows, "a refusal changed an area");
            }
            let rows = (bits(&rows.values), rows.indices);
            let record = told.map_err(|refusal| u64::from(refusal.0));
            (record, rows, areas)
        };
        let (record, rows, areas) = one(&case.start);
        let (other, other_rows, other_areas) = one(&turns.values(&case.start));
        assert_eq!((record, rows), (other, other_rows));
        let with = |record: Record, areas: Areas| Both { areas, record };
        let pair = Pair {
            turns,
            run: with(record?, areas),
            mirrored: with(other?, other_areas),
        };
        assert_eq!(pair.difference(), None);
        Ok(pair)
    }

    /// A work call on both runs.
    fn work(&mut self, budget: u32) -> Worked {
        let worked = work(&mut self.run.record, &mut self.run.areas, budget);
        let other = work(&mut self.mirrored.record, &mut self.mirrored.areas, budget);
        assert_eq!(worked, other);
        assert_eq!(self.difference(), None);
        worked
    }

    /// Places of the positions.
    fn cells(&self) -> usize {
        self.run.record.words[0] as usize * self.turns.c
    }

    /// The areas that are mirrored in their first places, in the order of their names.
    fn turned(&self) -> [(&[f64], &[f64]); 3] {
        let (a, b) = (&self.run.areas, &self.mirrored.areas);
        [
            (&a.positions, &b.positions),
            (&a.increments, &b.increments),
            (&a.forces, &b.forces),
        ]
    }

    /// The first part in which the second run is not the mirror image of the first.
    fn difference(&self) -> Option<&'static str> {
        let (a, b) = (&self.run.areas, &self.mirrored.areas);
        let same = |a: &[f64], b: &[f64]| bits(a) == bits(b);
        let total = self.cells();
        let [positions, increments, forces] = self.turned().map(|(a, b)| self.turns.mirrors(total, a, b));
        let parts = [
            ("record", self.run.record == self.mirrored.record),
            ("positions", positions),
            ("increments", increments),
            ("total", a.forces[total].to_bits() == b.forces[total].to_bits()),
            ("gradients", forces),
            ("gains", same(&a.gains, &b.gains)),
            ("affinities", same(&a.affinities, &b.affinities)),
            (
                "lists",
                a.indices == b.indices && a.offsets == b.offsets && a.nodes == b.nodes,
            ),
        ];
        parts.iter().find(|part| !part.1).map(|part| part.0)
    }

    /// Counts what is compared in turned components: the values of each part, its zeros, and those that have another sign than the
    /// turn alone would give them. It is done after each call once a step is done, so a zero that stays counts each time.
    fn zeros(&self, met: &mut Met) {
        if self.run.record.iterations() == 0 {
            return;
        }
        for (name, (a, b)) in TURNED.iter().zip(self.turned()) {
            for place in (0..self.cells()).filter(|&place| self.turns.holds(place)) {
                meet(met, format!("turned {name}"));
                if a[place] == 0.0 {
                    meet(met, format!("turned {name}: zeros"));
                }
                if self.turns.value(place, a[place]).to_bits() != b[place].to_bits() {
                    meet(met, format!("turned {name}: zeros of another sign"));
                }
            }
        }
    }
}

/// Settings of an exact run. Few frames may stop before their iterations are done; rates past 2^80 lead to 15.
fn settings(random: &mut Random) -> Settings {
    let n = random.within(2, 24);
    let long = n <= 8 && random.once_in(3);
    Settings {
        n,
        f: random.within(1, 6),
        c: random.within(1, 8),
        method: Method::Exact,
        perplexity: random.between(0.3, 30.0).min(n as f64 * 0.999),
        rate: match random.below(20) {
            0 => f64::MAX,
            1..=3 => random.between(1e24, 1e40),
            _ => random.between(0.1, 2000.0),
        },
        iterations: if long {
            random.within(250, 256)
        } else {
            random.within(1, 6)
        },
        angle: random.one_of(&[0.0, f64::NAN]),
        minimum: random.one_of(&[0.0, f64::NAN, 1e-7, 1e-3, 1e9]),
    }
}

/// How frames can start, by name.
const STARTS: [&str; 8] = [
    "close together",
    "wide apart",
    "on a grid",
    "all in one place",
    "in three places",
    "zeros of both signs",
    "at 2^20",
    "subnormal",
];

/// Starts of a kind; of one in three every fourth value or so is a zero of either sign.
fn start(random: &mut Random, n: usize, c: usize, kind: &str) -> Vec<f64> {
    let places: Vec<f64> = (0..3 * c).map(|_| (random.unit() * 6.0 - 3.0).round() * 0.3).collect();
    let zeros = random.once_in(3);
    let mut one = |i: usize, d: usize| {
        let (wide, zero) = (random.unit() - 0.5, random.one_of(&[0.0, -0.0]));
        if zeros && random.once_in(4) {
            return zero;
        }
        match kind {
            "close together" => wide * 1e-4,
            "wide apart" => wide * 100.0,
            "on a grid" => (wide * 8.0).round(),
            "all in one place" => places[d],
            "in three places" if places[i % 3 * c + d] == 0.0 => zero,
            "in three places" => places[i % 3 * c + d],
            "zeros of both signs" => zero,
            "at 2^20" => random.one_of(&[DOMAIN, -DOMAIN, wide * DOMAIN, zero]),
            _ => f64::from_bits(random.below(9) as u64) * random.one_of(&[1.0, -1.0]),
        }
    };
    (0..n * c).map(|place| one(place / c, place % c)).collect()
}

/// Spoils one case in four: a start outside the domain, too short or too long, a short area, or anything that preparation refuses.
fn spoil(random: &mut Random, case: &mut Case) {
    let cells = case.start.len();
    match random.below(24) {
        0 => case.start[random.below(cells)] = random.one_of(&[f64::NAN, f64::INFINITY, DOMAIN + 0.5, -DOMAIN - 0.5]),
        1 => case.start.truncate(cells - 1),
        2 => case.start.push(0.5),
        3 => case.areas.gains.truncate(cells - 1),
        4 | 5 => case.spoil(random),
        _ => {}
    }
}

/// A case and the components that are turned: one, then any set of them; once in fifty that is none.
fn case(random: &mut Random, met: &mut Met) -> (Case, [Turns; 2]) {
    let settings = settings(random);
    let Settings { n, c, .. } = settings;
    let mut case = Case::good(random, settings, 0);
    let kind = random.one_of(&STARTS);
    case.start = start(random, n, c, kind);
    spoil(random, &mut case);
    meet(met, kind);
    meet(met, format!("c {c}"));
    let all = (1 << c) - 1;
    let any = match random.once_in(50) {
        true => 0,
        false => 1 + random.word() % all,
    };
    for (what, met_it) in [
        ("none turned", any == 0),
        ("several turned", any.count_ones() > 1),
        ("all of several turned", any == all && c > 1),
    ] {
        if met_it {
            meet(met, what);
        }
    }
    let turns = |set: u64| Turns { c, set };
    (case, [turns(1 << random.below(c)), turns(any)])
}

/// Turning twice gives the start back, and two turns in either order are the same as both at once, bit for bit.
fn turn_twice(start: &[f64], one: Turns, other: Turns) {
    assert_eq!(bits(&one.values(&one.values(start))), bits(start));
    let there = one.values(&other.values(start));
    let back = other.values(&one.values(start));
    let at_once = Turns {
        set: one.set ^ other.set,
        ..one
    };
    assert_eq!(bits(&there), bits(&back));
    assert_eq!(bits(&there), bits(&at_once.values(start)));
}

/// A run and its mirror image, to their end or through so many calls.
fn pair(random: &mut Random, case: &Case, turns: Turns, met: &mut Met) {
    meet(met, "pairs");
    let mut pair = match Pair::prepare(case, turns) {
        Ok(pair) => pair,
        Err(number) => return meet(met, format!("refused by {number}")),
    };
    for _ in 0..60 {
        let worked = pair.work(budget(random, case));
        meet(met, "calls");
        *met.entry("units".into()).or_default() += worked.units as usize;
        pair.zeros(met);
        if number(&worked) == 15 {
            let step = match pair.run.record.iterations() {
                0 => "15 in the first step",
                _ => "15 in a later step",
            };
            meet(met, step);
            assert_eq!(pair.work(u32::MAX).words[..3], [3, 15, 0]);
            return;
        }
        assert_eq!(number(&worked), 0);
        if worked.kind != Kind::Running {
            return meet(met, format!("{:?}", worked.kind));
        }
    }
}

#[test]
fn mirrored_runs() {
    let met = each_seed("mirror", setting("BROTHANCHOR_RUNS", 1000), |random, met: &mut Met| {
        let (case, turns) = case(random, met);
        let [one, any] = turns;
        turn_twice(&case.start, one, any);
        for turns in turns {
            pair(random, &case, turns, met);
        }
    });
    let wanted = ["none turned", "several turned", "all of several turned"];
    let ends = ["Stopped", "Finished", "15 in the first step", "15 in a later step"];
    let refused = [3, 7, 8, 10, 11, 12].map(|number| format!("refused by {number}"));
    let zeros = TURNED.map(|name| format!("turned {name}: zeros of another sign"));
    let names = wanted.iter().chain(&ends).chain(&STARTS).map(|name| name.to_string());
    all_met(&met, names.chain((1..=8).map(|c| format!("c {c}"))));
    all_met(&met, refused.into_iter().chain(zeros));
}

/// A run inside its third iteration and its image, one component turned; no value is a zero.
fn plain_pair(random: &mut Random) -> Pair {
    let mut settings = settings(random);
    (settings.rate, settings.iterations) = (10.0, 4);
    let Settings { n, c, .. } = settings;
    let mut case = Case::good(random, settings, 0);
    case.start = (0..n * c).map(|_| random.unit() * 100.0 - 50.0).collect();
    let set = 1 << random.below(c);
    let mut pair = Pair::prepare(&case, Turns { c, set }).expect("a good run");
    pair.work((2 * settings.iteration() + n) as u32);
    pair
}

/// Any value of a part of the image.
type Part = fn(&mut Areas) -> &mut [f64];

/// Of two zeros in any place of a part unequal signs are told, but not in a turned component.
fn zeros_told(pair: &Pair, name: &str, part: Part) {
    for place in 0..pair.cells() {
        let mut other = pair.clone();
        for (zero, image) in [(0.0, 0.0), (0.0, -0.0), (-0.0, 0.0), (-0.0, -0.0_f64)] {
            part(&mut other.run.areas)[place] = zero;
            part(&mut other.mirrored.areas)[place] = image;
            let right = pair.turns.holds(place) || zero.to_bits() == image.to_bits();
            let told = if right { None } else { Some(name) };
            assert_eq!(other.difference(), told, "place {place}");
        }
    }
}

/// An image is told that differs by the last bit or the sign of one value, or in which other components are turned, or
/// in which zeros have unequal signs in a component that is not.
#[test]
fn what_is_no_mirror_image_is_told() {
    each_seed("no image", 40, |random, _: &mut ()| {
        let mut pair = plain_pair(random);
        let (n, cells) = (pair.run.record.words[0] as usize, pair.cells());
        let parts: [(&str, Part, usize); 6] = [
            ("positions", |areas| &mut areas.positions, random.below(cells)),
            ("increments", |areas| &mut areas.increments, random.below(cells)),
            ("gradients", |areas| &mut areas.forces, random.below(cells)),
            ("total", |areas| &mut areas.forces, cells),
            ("gains", |areas| &mut areas.gains, random.below(cells)),
            ("affinities", |areas| &mut areas.affinities, random.below(n * n)),
        ];
        for (name, part, place) in parts {
            for bit in [1, SIGN] {
                let mut other = pair.clone();
                let value = &mut part(&mut other.mirrored.areas)[place];
                *value = f64::from_bits(value.to_bits() ^ bit);
                assert_eq!(other.difference(), Some(name), "place {place}");
            }
        }
        let right = pair.turns.set;
        for set in (0..1 << pair.turns.c).filter(|&set| set != right) {
            pair.turns.set = set;
            assert_eq!(pair.difference(), Some("positions"), "{set} for {right}");
        }
        pair.turns.set = right;
        for (name, part, _) in &parts[..3] {
            zeros_told(&pair, name, *part);
        }
    });
}

/// Three frames along a line, the middle one at the centre of the box: it goes low in both runs. So the last frame sees the two
/// others as one body, and in the other run each by itself, since there it lies in the low cell with the middle one.
/// After one iteration the middle frame is in the same place in both runs, and not at 0.
#[test]
fn the_tree_has_no_mirror_image() {
    let iterated = |method: Method, start: [f64; 3]| {
        let settings = Settings {
            n: 3,
            f: 1,
            c: 1,
            method,
            perplexity: 1.0,
            rate: 1.0,
            iterations: 1,
            angle: 0.9,
            minimum: 0.0,
        };
        let sizes = sizes(&settings).expect("good settings");
        let (mut areas, mut rows) = (Areas::new(&sizes, sizes.nodes), Rows::new(&sizes));
        let mut record =
            prepare(&settings.words(), &[0.0, 1.0, 2.0], &start, &mut areas, &mut rows).expect("a good run");
        assert_eq!(work(&mut record, &mut areas, u32::MAX).kind, Kind::Finished);
        areas.positions
    };
    let starts = [[-1.0, 0.0, 1.0], [1.0, -0.0, -1.0]];
    let turns = Turns { c: 1, set: 1 };
    let exact = starts.map(|start| iterated(Method::Exact, start));
    assert!(turns.mirrors(3, &exact[0], &exact[1]), "{exact:?}");
    let tree = starts.map(|start| iterated(Method::BarnesHut, start));
    assert!(!turns.mirrors(3, &tree[0], &tree[1]), "{tree:?}");
    println!("the tree: {tree:?}");
    let middle = tree.each_ref().map(|positions| positions[1]);
    assert_eq!(middle[0].to_bits(), middle[1].to_bits());
    assert_eq!(format!("{:+.5}", middle[0]), "+0.03177");
    let apart = (tree[0][2] + tree[1][2]).abs();
    assert!(apart > 1e-3, "no more than a rounding: {apart}");
}
