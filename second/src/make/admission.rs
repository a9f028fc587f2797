//! Cases of "Bank admission": each rule broken alone, at its edge, beside the bank that just keeps it.

use super::bank_builder::*;
use super::script::{noise, Script};

/// A bank under a name.
pub type Named = (String, Vec<u8>);

pub fn write(s: &mut Script) {
    let groups = [chunks(), records(), indexes(), numbers(), rates(), windows(), zones()];
    for (name, bank) in groups.concat().into_iter().chain(long_banks()) {
        let title = format!("admission: {name}");
        s.begin(&title, &bank, &noise(24, 20), &noise(8, 21));
        s.admission();
        s.list(0);
        s.on(0, 60, 100);
        s.go(2);
    }
}

/// Two presets, two instruments, two samples, with global zones and modulators on both sides.
pub fn base() -> BankPlan {
    let with_mods = |plan: ZonePlan, mods| ZonePlan { mods, ..plan };
    let preset = |program| PresetPlan {
        program,
        bank: 0,
        zones: vec![with_mods(zone(&[(48, 10)]), 1), with_mods(zone_to(&[(52, 3)], 41, program as i32), 2)],
    };
    let instrument = |number| vec![with_mods(zone(&quick(&[])), 1), with_mods(zone_to(&[(17, 100)], 53, number), 1)];
    BankPlan {
        presets: vec![preset(0), preset(1)],
        instruments: vec![instrument(0), instrument(1)],
        samples: vec![sample(0, 16), sample(4, 20)],
    }
}

/// The base with a change of its chunks.
pub fn changed(name: &str, change: impl Fn(&mut RawBank)) -> Named {
    let mut raw = base().raw();
    change(&mut raw);
    (name.to_string(), raw.bytes())
}

const NAMES: [&str; 9] = ["phdr", "pbag", "pmod", "pgen", "inst", "ibag", "imod", "igen", "shdr"];

/// Nine sub-chunks in this order, with nothing missing or left over.
fn chunks() -> Vec<Named> {
    let whole = base().bytes();
    let mut list = vec![
        ("as it should be".to_string(), whole.clone()),
        ("no bytes".to_string(), Vec::new()),
        ("seven bytes".to_string(), whole[..7].to_vec()),
        ("eight bytes".to_string(), whole[..8].to_vec()),
        ("last byte gone".to_string(), whole[..whole.len() - 1].to_vec()),
        changed("a byte left over", |raw| raw.behind = vec![0]),
        changed("a chunk left over", |raw| raw.behind = b"xtra\0\0\0\0".to_vec()),
        changed("size of 2^32 - 1", |raw| {
            raw.chunks[SHDR].size_error = 0xffff_ffff - raw.chunks[SHDR].body.len() as i64
        }),
        changed("first size of 2^32 - 8", |raw| {
            raw.chunks[PHDR].size_error = 0xffff_fff8 - raw.chunks[PHDR].body.len() as i64
        }),
    ];
    for (k, name) in NAMES.iter().enumerate() {
        let letter = k % 4;
        list.push(changed(&format!("{name} has another name"), |raw| raw.chunks[k].name[letter] ^= 0x20));
        list.push(changed(&format!("{name} is missing"), |raw| {
            raw.chunks.remove(k);
        }));
        list.push(changed(&format!("{name} comes twice"), |raw| raw.chunks.insert(k, raw.chunks[k].clone())));
        for error in [-1, 1] {
            let title = format!("{name} size told wrong by {error}");
            list.push(changed(&title, |raw| raw.chunks[k].size_error = error));
        }
        if k < 8 {
            let title = format!("{name} behind its neighbour");
            list.push(changed(&title, |raw| raw.chunks.swap(k, k + 1)));
        }
    }
    list
}

/// Whole multiples, and two records or more, or one.
fn records() -> Vec<Named> {
    let mut list = Vec::new();
    for (k, name) in NAMES.iter().enumerate() {
        for extra in [1, 2] {
            let title = format!("{name}, bytes too many: {extra}");
            list.push(changed(&title, |raw| raw.chunks[k].body.extend(vec![0; extra])));
        }
        list.push(changed(&format!("{name} lacks a byte"), |raw| {
            raw.chunks[k].body.pop();
        }));
        list.push(changed(&format!("{name} is empty"), |raw| raw.chunks[k].body.clear()));
        if let PHDR | INST | SHDR = k {
            list.push((format!("{name} has one record"), one_record(k)));
        }
    }
    list.push(("least bank that sounds".to_string(), one_zone(&[], sample(0, 16)).bytes()));
    list.push(("least bank of all".to_string(), least_bank().bytes()));
    list
}

/// Two records where there must be two, one elsewhere: a preset and an instrument without zones.
fn least_bank() -> RawBank {
    let plan = BankPlan {
        presets: vec![PresetPlan { program: 0, bank: 0, zones: vec![] }],
        instruments: vec![vec![]],
        samples: vec![sample(9, 3)],
    };
    plan.raw()
}

/// A bank in which nothing is wrong but that one chunk has its terminal record alone.
fn one_record(chunk: usize) -> Vec<u8> {
    let mut raw = least_bank();
    let size = raw.chunks[chunk].record;
    raw.chunks[chunk].body.drain(..size);
    raw.bytes()
}

/// Bag, generator and modulator indexes: they never fall, and the terminal one names the last record.
fn indexes() -> Vec<Named> {
    let lists = [
        ("phdr bag index", PHDR, 24),
        ("pbag generator index", PBAG, 0),
        ("pbag modulator index", PBAG, 2),
        ("inst bag index", INST, 20),
        ("ibag generator index", IBAG, 0),
        ("ibag modulator index", IBAG, 2),
    ];
    let mut list = Vec::new();
    for (name, chunk, at) in lists {
        let raw = base().raw();
        let terminal = raw.count(chunk) - 1;
        let last = raw.get(chunk, terminal, at);
        let second = raw.get(chunk, 1, at);
        let set = |what: &str, record: usize, value: u16| {
            changed(&format!("{name}: {what}"), |raw| raw.set(chunk, record, at, value))
        };
        list.push(set("terminal one below the last", terminal, last - 1));
        list.push(set("terminal one above the last", terminal, last + 1));
        list.push(set("terminal far above", terminal, 65_535));
        list.push(set("terminal 0", terminal, 0));
        list.push(set("first as high as the second", 0, second));
        list.push(set("first one above the second", 0, second + 1));
        list.push(set("first 1", 0, 1));
        list.push(set("second 0 like the first", 1, 0));
        list.push(set("second as high as the terminal", 1, last));
        list.push(set("last but terminal as high as the terminal", terminal - 1, last));
        list.push(set("last but terminal one above", terminal - 1, last + 1));
    }
    list
}

/// 41 below the inst terminal's number, 53 below the shdr terminal's; only the first of a zone, and only of zones.
fn numbers() -> Vec<Named> {
    let mut list = Vec::new();
    for number in [0, 1, 2, 3, 32_768, 65_535] {
        let mut plan = base();
        plan.presets[1].zones[1] = zone_to(&[], 41, number);
        list.push((format!("41 is {number}"), plan.bytes()));
        let mut plan = base();
        plan.instruments[1][1] = zone_to(&[], 53, number);
        list.push((format!("53 is {number}"), plan.bytes()));
        let mut plan = base();
        plan.presets[0].zones[1].gens.push((41, number));
        plan.instruments[0][1].gens.push((53, number));
        list.push((format!("second 41 and 53 of {number}"), plan.bytes()));
        let mut plan = base();
        plan.presets[0].zones[1].gens.insert(0, (53, number));
        plan.instruments[0][1].gens.insert(0, (41, number));
        list.push((format!("53 in a preset, 41 in an instrument, of {number}"), plan.bytes()));
    }
    list.push(in_front_of_zones());
    list
}

/// Bags in front of the first head's index, with numbers that are too high: they belong to no zone.
fn in_front_of_zones() -> Named {
    let mut plan = base();
    plan.presets.insert(0, PresetPlan { program: 9, bank: 0, zones: vec![zone_to(&[], 41, 99), zone_to(&[], 41, 98)] });
    plan.instruments.push(vec![zone_to(&[], 53, 99)]);
    plan.instruments.rotate_right(1);
    let mut raw = plan.raw();
    raw.chunks[PHDR].body.drain(..38);
    raw.chunks[INST].body.drain(..22);
    ("bags in front of the first head".to_string(), raw.bytes())
}

/// Sample rate 400..50,000, of samples that a sounding zone names.
fn rates() -> Vec<Named> {
    let mut list = Vec::new();
    for rate in [0, 399, 400, 401, 49_999, 50_000, 50_001, 65_936, u32::MAX] {
        let mut plan = base();
        plan.samples[1].rate = rate;
        list.push((format!("rate {rate}"), plan.bytes()));
        plan.instruments[1][1] = zone_to(&[], 53, 0);
        list.push((format!("rate {rate} of a sample that no zone names"), plan.bytes()));
    }
    let mut plan = base();
    plan.presets[1].zones[1] = zone_to(&[], 41, 0);
    plan.samples[1].rate = 399;
    list.push(("rate 399 in an instrument that no preset reaches".to_string(), plan.bytes()));
    list.push(changed("terminal sample with a rate of 1", |raw| raw.set_wide(SHDR, 2, 36, 1)));
    list
}

/// A bank of one zone with these generators, its sample with these places.
fn windowed(name: &str, places: [u32; 4], gens: &[Gen]) -> Named {
    let plan = SamplePlan { loop_start: places[2], loop_end: places[3], ..sample(places[0], places[1]) };
    let bank = one_zone(&quick(gens), plan);
    (format!("window: {name}"), bank.bytes())
}

/// 0 <= start < end < 2^32, and for modes 1 and 3 start <= loop start < loop end <= end.
fn windows() -> Vec<Named> {
    const TOP: u32 = u32::MAX;
    let mut list = vec![
        windowed("one sample", [7, 8, 0, 0], &[]),
        windowed("no sample", [7, 7, 0, 0], &[]),
        windowed("end before start", [8, 7, 0, 0], &[]),
        windowed("start 0 by offset", [5, 9, 0, 0], &[(0, -5)]),
        windowed("start -1 by offset", [5, 9, 0, 0], &[(0, -6)]),
        windowed("start 0 by coarse offset", [32_768, 9, 0, 0], &[(4, -1)]),
        windowed("start -1 by coarse offset", [32_767, 9, 0, 0], &[(4, -1)]),
        windowed("start -1 by both offsets", [32_766, 9, 0, 0], &[(4, -1), (0, 1)]),
        windowed("start 0 by both offsets", [32_767, 9, 0, 0], &[(4, -1), (0, 1)]),
        windowed("start by offset at end - 1", [5, 9, 0, 0], &[(0, 3)]),
        windowed("start by offset at end", [5, 9, 0, 0], &[(0, 4)]),
        windowed("end by offset at start + 1", [5, 9, 0, 0], &[(1, -3)]),
        windowed("end by offset at start", [5, 9, 0, 0], &[(1, -4)]),
        windowed("end 2^32 - 1", [5, TOP, 0, 0], &[]),
        windowed("end 2^32", [5, TOP, 0, 0], &[(1, 1)]),
        windowed("end 2^32 - 1 by coarse offset", [5, TOP - 32_768, 0, 0], &[(12, 1)]),
        windowed("end 2^32 by coarse offset", [5, TOP - 32_767, 0, 0], &[(12, 1)]),
        windowed("end back from 2^32 + 1", [5, TOP, 0, 0], &[(12, 1), (1, -32_768)]),
        windowed("all places at the top", [TOP - 1, TOP, TOP - 1, TOP], &[(54, 1)]),
        windowed("coarse offsets at their ends", [5, 0x4000_0000, 0, 0], &[(12, 32_767), (4, 32_767)]),
        windowed("coarse offset -32,768", [0x4000_0000, 20, 0, 0], &[(4, -32_768)]),
        windowed("coarse offset -32,768, one less", [0x3fff_ffff, 20, 0, 0], &[(4, -32_768)]),
    ];
    for mode in [0, 1, 2, 3, 4, 5, -1, -2] {
        list.extend(loops(mode));
    }
    list
}

/// Loops at both sides of each edge, in one mode.
fn loops(mode: i32) -> Vec<Named> {
    let edges: [(&str, u32, u32); 6] = [
        ("whole window", 5, 9),
        ("from before the start", 4, 9),
        ("past the end", 5, 10),
        ("one sample", 8, 9),
        ("empty", 7, 7),
        ("turned round", 8, 7),
    ];
    let mut list = Vec::new();
    for (name, from, to) in edges {
        let title = format!("mode {mode}, loop {name}");
        list.push(windowed(&title, [5, 9, from, to], &[(54, mode)]));
    }
    if mode == 1 || mode == 3 {
        list.extend(loops_by_offset(mode));
    }
    list
}

/// Loops that offsets move into their window or out of it, and windows that offsets move over their loop.
fn loops_by_offset(mode: i32) -> Vec<Named> {
    const FAR: u32 = 32_768;
    let back = [5, 9, 8, 7];
    let from_far = [5, 9, 8 + FAR, 7 + FAR];
    let plain = [5, 9, 6, 8];
    let below_the_top = [5, 9, 5u32.wrapping_sub(FAR), 9u32.wrapping_sub(FAR)];
    let moved: [(&str, [u32; 4], &[Gen]); 10] = [
        ("back into it", back, &[(2, -3), (3, 2)]),
        ("back, start one short", back, &[(2, -4), (3, 2)]),
        ("back, end one far", back, &[(2, -3), (3, 3)]),
        ("back by coarse offsets", from_far, &[(2, -3), (3, 2), (45, -1), (50, -1)]),
        ("back by one coarse offset alone", from_far, &[(2, -3), (3, 2), (45, -1)]),
        ("past 2^32 does not come round", below_the_top, &[(45, 1), (50, 1)]),
        ("and start together", plain, &[(0, 1)]),
        ("before the moved start", plain, &[(0, 2)]),
        ("and end together", plain, &[(1, -1)]),
        ("past the moved end", plain, &[(1, -2)]),
    ];
    let named = moved.map(|(name, places, gens)| {
        let gens = [gens, &[(54, mode)]].concat();
        windowed(&format!("mode {mode}, loop {name}"), places, &gens)
    });
    named.to_vec()
}

fn changed_plan(name: &str, change: impl Fn(&mut BankPlan)) -> Named {
    let mut plan = base();
    change(&mut plan);
    (name.to_string(), plan.bytes())
}

/// Which zones are tested: sounding ones, and not ignored ones, nor by preset offsets.
fn zones() -> Vec<Named> {
    let mut list = vec![
        changed_plan("ignored zone with a bad offset", |p| p.instruments[1].push(zone(&[(0, -999)]))),
        changed_plan("only zone without 53, bad offset", |p| p.instruments[1] = vec![zone(&[(0, -999)])]),
        changed_plan("preset offsets have no effect", |p| {
            p.presets[0].zones[1].gens.insert(0, (0, -999));
            p.presets[1].zones[0].gens.insert(0, (54, 3));
        }),
        changed_plan("first zone sounding, its offset is its own", |p| {
            p.instruments[1][0] = zone_to(&[(0, -4)], 53, 1)
        }),
        changed_plan("first of two zones sounding and bad", |p| p.instruments[1][0] = zone_to(&[(0, -5)], 53, 1)),
        changed_plan("third of three zones is bad", |p| p.instruments[1].push(zone_to(&[(1, -16)], 53, 1))),
        changed_plan("no zones at all", |p| {
            p.presets[0].zones.clear();
            p.instruments[0].clear();
        }),
    ];
    list.extend(values_of_zones());
    list
}

/// The second instrument with these generators in its global zone, and these in front of and behind its 53.
fn with_generators(name: &str, global: &[Gen], local: &[Gen], behind: &[Gen]) -> Named {
    changed_plan(name, |p| {
        p.samples[1].loop_end = 21;
        p.instruments[1] = vec![zone(global), zone_to(local, 53, 1)];
        p.instruments[1][1].gens.extend(behind);
    })
}

/// Windows and modes are those of the value rule: local, else global, the later of several, none behind 53.
fn values_of_zones() -> Vec<Named> {
    vec![
        with_generators("global offset breaks a window", &[(0, -5)], &[], &[]),
        with_generators("local offset mends it", &[(0, -5)], &[(0, 0)], &[]),
        with_generators("global mode makes a loop count", &[(54, 3)], &[], &[]),
        with_generators("local mode 0 lets it go", &[(54, 3)], &[(54, 0)], &[]),
        with_generators("offset behind 53", &[], &[], &[(0, -5)]),
        with_generators("later offset counts and is bad", &[], &[(0, 0), (0, -5)], &[]),
        with_generators("later offset counts and is good", &[], &[(0, -5), (0, 0)], &[]),
    ]
}

/// 65,536 bytes and no more.
fn long_banks() -> Vec<Named> {
    [65_536, 65_538].map(|length| (format!("{length} bytes"), bank_of(length))).to_vec()
}

/// The base, made to be of just so many bytes: four at a time with generators, and a modulator of ten bytes where two
/// bytes would be left.
pub fn bank_of(length: usize) -> Vec<u8> {
    let mut plan = base();
    let room = length - plan.bytes().len();
    let mods = (room % 4) / 2;
    plan.presets[0].zones[0].mods += mods;
    let gens = (room - 10 * mods) / 4;
    plan.presets[0].zones[0].gens.extend(vec![(48, 7); gens]);
    plan.bytes()
}
