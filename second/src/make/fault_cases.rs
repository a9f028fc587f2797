//! Faults of banks with their kinds and places: two kinds at once, several of one kind, and each record that can be at fault.

use super::admission::{bank_of, base, changed, Named};
use super::bank_builder::*;
use super::script::Script;

pub fn write(s: &mut Script) {
    let groups = [
        too_long(),
        kinds_at_once(),
        chunks(),
        records(),
        index_places(),
        indexes_at_once(),
        numbers(),
        rates(),
        windows(),
    ];
    for (name, bank) in groups.concat() {
        s.title(&format!("fault: {name}"));
        s.bank(&bank);
        s.admission();
        s.opening();
        s.defect();
    }
}

/// Left-over bytes up to the longest bank there is, and past it; and a bank that is too long with all other faults in it.
fn too_long() -> Vec<Named> {
    let left_over = |length: usize| [bank_of(65_534), vec![0; length - 65_534]].concat();
    vec![
        ("left over, 65536 bytes".to_string(), left_over(65_536)),
        ("left over, 65537 bytes".to_string(), left_over(65_537)),
        changed("too long before all others", |raw| {
            KINDS.iter().for_each(|(_, early, _)| early(raw));
            raw.behind = vec![0; 65_537 - raw.bytes().len()];
        }),
    ]
}

/// A change that brings a fault in.
type Break = fn(&mut RawBank);

/// Each kind of fault but that of a bank too long: its name, one early in the file, and one late in it.
const KINDS: [(&str, Break, Break); 6] = [
    ("chunk", |raw| raw.chunks[PHDR].name[0] = b'P', |raw| raw.chunks[SHDR].name[0] = b'S'),
    ("records", |raw| raw.chunks[PHDR].body.push(0), |raw| raw.chunks[SHDR].body.push(0)),
    ("index", |raw| raw.set(PHDR, 0, 24, 9_999), |raw| raw.set(IBAG, 4, 2, 9_999)),
    ("number", |raw| raw.set(PGEN, 2, 2, 2), |raw| raw.set(IGEN, 11, 2, 2)),
    ("rate", |raw| raw.set_wide(SHDR, 0, 36, 399), |raw| raw.set_wide(SHDR, 1, 36, 50_001)),
    ("window", |raw| raw.set_wide(SHDR, 0, 24, 0), |raw| raw.set_wide(SHDR, 1, 24, 4)),
];

/// Each two kinds: the kind that is tested first stands late in the file, the other early; then all kinds from one on.
fn kinds_at_once() -> Vec<Named> {
    let mut list = Vec::new();
    for (i, (first, early, late)) in KINDS.iter().enumerate() {
        list.push(changed(&format!("{first}, early"), early));
        list.push(changed(&format!("{first}, late"), late));
        for (second, other, _) in &KINDS[i + 1..] {
            list.push(changed(&format!("{first} before {second}"), |raw| {
                other(raw);
                late(raw);
            }));
        }
        let title = format!("{first} and all behind it");
        list.push(changed(&title, |raw| KINDS[i..].iter().for_each(|(_, early, _)| early(raw))));
    }
    list
}

/// From each chunk on all names are wrong, and each chunk has no bytes behind its name, or its name alone.
fn chunks() -> Vec<Named> {
    let mut list = Vec::new();
    for k in 0..9 {
        list.push(changed(&format!("names from chunk {k} on"), |raw| {
            raw.chunks[k..].iter_mut().for_each(|c| c.name[1] ^= 0x20)
        }));
        let raw = base().raw();
        let begin: usize = raw.chunks[..k].iter().map(|c| c.body.len() + 8).sum();
        for have in [0, 4, 7, 8] {
            list.push((format!("cut {have} bytes into chunk {k}"), raw.bytes()[..begin + have].to_vec()));
        }
    }
    list
}

/// From each chunk on all bodies are a byte too long.
fn records() -> Vec<Named> {
    let from = |k: usize| {
        changed(&format!("records from chunk {k} on"), |raw| raw.chunks[k..].iter_mut().for_each(|c| c.body.push(0)))
    };
    (0..9).map(from).collect()
}

/// The lists of indexes: the chunk, the field's offset, its name.
const INDEXES: [(usize, usize, &str); 6] = [
    (PHDR, 24, "phdr bag"),
    (PBAG, 0, "pbag generator"),
    (PBAG, 2, "pbag modulator"),
    (INST, 20, "inst bag"),
    (IBAG, 0, "ibag generator"),
    (IBAG, 2, "ibag modulator"),
];

/// An index that falls at each record of each list.
fn index_places() -> Vec<Named> {
    let mut list = Vec::new();
    for (chunk, at, name) in INDEXES {
        for record in 1..base().raw().count(chunk) {
            let title = format!("{name} index falls at record {record}");
            list.push(changed(&title, |raw| raw.set(chunk, record - 1, at, 9_999)));
        }
    }
    list
}

/// Two faulty indexes: each list with each, the first one late in its chunk and the second early; and within one list.
fn indexes_at_once() -> Vec<Named> {
    let mut list = Vec::new();
    for (chunk, at, name) in INDEXES {
        for (other, offset, second) in INDEXES {
            list.push(changed(&format!("{name} and {second} indexes"), |raw| {
                raw.set(chunk, raw.count(chunk) - 1, at, 9_999);
                raw.set(other, 0, offset, 9_999);
            }));
        }
        list.push(changed(&format!("{name} index falls twice"), |raw| {
            raw.set(chunk, 0, at, 2);
            raw.set(chunk, 1, at, 1);
            raw.set(chunk, 2, at, 0);
        }));
    }
    list
}

/// Numbers that are too high in one zone or in several, of one side or both.
fn numbers() -> Vec<Named> {
    let mut two = base();
    two.presets[1].zones.push(zone_to(&[(48, 1)], 41, 7));
    two.presets[1].zones.push(zone_to(&[], 41, 8));
    vec![
        changed("41 of both presets", |raw| {
            raw.set(PGEN, 2, 2, 9);
            raw.set(PGEN, 5, 2, 9);
        }),
        changed("41 of the second preset", |raw| raw.set(PGEN, 5, 2, 2)),
        changed("53 of both instruments", |raw| {
            raw.set(IGEN, 5, 2, 9);
            raw.set(IGEN, 11, 2, 9);
        }),
        changed("53 of the second instrument", |raw| raw.set(IGEN, 11, 2, 2)),
        changed("41 of the second preset and 53 of the first instrument", |raw| {
            raw.set(IGEN, 5, 2, 9);
            raw.set(PGEN, 5, 2, 9);
        }),
        ("41 of the second and third zone".to_string(), two.bytes()),
    ]
}

/// The lowest header at fault that a sounding zone names, whatever the order of the zones.
fn rates() -> Vec<Named> {
    let with_zones = |name: &str, first: i32, second: i32, rates: [u32; 3]| {
        let mut plan = base();
        plan.samples.insert(0, sample(0, 16));
        plan.instruments[0][1] = zone_to(&[], 53, first);
        plan.instruments[1][1] = zone_to(&[], 53, second);
        for (sample, rate) in plan.samples.iter_mut().zip(rates) {
            sample.rate = rate;
        }
        (format!("rates, {name}"), plan.bytes())
    };
    vec![
        with_zones("zones name headers in order", 0, 1, [399, 399, 400]),
        with_zones("zones name headers in turned order", 2, 1, [400, 50_001, 50_001]),
        with_zones("a lower header that no zone names", 2, 1, [399, 400, 50_001]),
        with_zones("both zones name one header", 1, 1, [400, 399, 399]),
        with_zones("only the second zone's", 2, 0, [50_001, 400, 50_000]),
        with_zones("none that a zone names", 0, 2, [400, 399, 50_000]),
    ]
}

/// The first zone in the file whose window is bad: its 53, not its header and not what stands behind it.
fn windows() -> Vec<Named> {
    let with_zones = |name: &str, instruments: [Vec<ZonePlan>; 2]| {
        let mut plan = base();
        plan.instruments = instruments.to_vec();
        (format!("windows, {name}"), plan.bytes())
    };
    let good = || zone_to(&[], 53, 0);
    let bad = |sample: i32| zone_to(&[(17, 1), (1, -32_768)], 53, sample);
    let behind = |mut plan: ZonePlan| {
        plan.gens.extend([(48, 1), (53, 0), (53, 1)]);
        plan
    };
    vec![
        with_zones("both instruments", [vec![bad(1)], vec![bad(0)]]),
        with_zones("the second instrument", [vec![good()], vec![good(), bad(0)]]),
        with_zones("the second and third of three zones", [vec![good(), bad(1), bad(0)], vec![good()]]),
        with_zones("generators behind 53", [vec![behind(good()), behind(bad(1))], vec![good()]]),
        with_zones("by the global zone", [vec![good()], vec![zone(&[(0, -9)]), good(), good()]]),
    ]
}
