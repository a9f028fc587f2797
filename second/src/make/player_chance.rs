//! The player by chance from fixed seeds: songs, files that are lent in their midst, renders and direct calls over banks
//! by chance.

use super::chance::Chance;
use super::chance_cases::{bank, command};
use super::player_cases::{ended, in_frames};
use super::script::{noise, Script};
use super::song_builder::*;
use super::song_damage::damaged;

const RUNS: u64 = 24;

pub fn write(s: &mut Script) {
    for seed in 0..RUNS {
        run(s, seed);
    }
}

/// A song of which the ticks are frames, or a few of them, with bells close behind each other.
pub fn song(c: &mut Chance) -> Vec<u8> {
    let mut piece = in_frames();
    for _ in 0..c.from(10, 60) {
        let delta = c.pick(&[0, 0, 0, 1, 1, 2, 5, 13, 40, 90]);
        piece = piece.then(delta, &event(c));
    }
    ended(piece)
}

fn event(c: &mut Chance) -> Vec<u8> {
    let channel = c.pick(&[0, 0, 0, 1, 9]);
    let key = c.pick(&[40, 55, 60, 60, 61, 66, 72, 90]);
    let any = c.from(0, 127) as u8;
    match c.from(0, 19) {
        0..=8 => vec![0x90 | channel, key, any],
        9..=11 => vec![0x80 | channel, key, any],
        12 => vec![0xb0 | channel, c.pick(&[7, 11]), any],
        13 => vec![0xb0 | channel, 64, c.pick(&[0, 63, 64, 127])],
        14 => vec![0xb0 | channel, c.pick(&[0, 120, 123, 1]), c.from(0, 1) as u8],
        15 => vec![0xc0 | channel, c.from(0, 3) as u8],
        16 => vec![0xe0 | channel, any, c.from(0, 127) as u8],
        17 if c.once_in(2) => vec![0xa0 | channel, key, any],
        17 => vec![0xd0 | channel, any],
        18 => tempo(c.pick(&[5_000, 10_000, 10_000, 20_000])),
        _ => meta(1, b"text"),
    }
}

/// A song and some forty commands, its clock near the wrap in some.
fn run(s: &mut Script, seed: u64) {
    let c = &mut Chance::new(60_000 + seed);
    let length = c.from(70, 120);
    let plan = bank(c, length, 3);
    let songs = [song(c), song(c)];
    let (ram, rom) = (noise(length as usize, seed), noise(length as usize, seed + 500));
    s.begin(&format!("player: run {seed}"), &plan.bytes(), &ram, &rom);
    s.fresh(c.pick(&[0, 1_000, 0xffff_ff80]));
    s.song(&songs[0]);
    s.start();
    for _ in 0..c.from(25, 45) {
        step(s, c, &songs, length as u32);
    }
    s.over();
    s.stop();
    s.play(100);
    s.over();
}

fn step(s: &mut Script, c: &mut Chance, songs: &[Vec<u8>], length: u32) {
    match c.from(0, 29) {
        0..=13 => s.play(c.pick(&[0, 1, 2, 5, 20, 43, 60, 100, 150])),
        14 => s.go(c.pick(&[1, 3, 30])),
        15..=17 => s.over(),
        18..=20 => s.start(),
        21 if c.once_in(2) => s.stop(),
        22 => lend_another(s, c, songs),
        23 => s.song(&songs[0]),
        24 => probe(s, c, length),
        _ => command(s, c, length),
    }
}

/// The other song, or one of them damaged by chance.
fn lend_another(s: &mut Script, c: &mut Chance, songs: &[Vec<u8>]) {
    let which = c.from(0, 1) as usize;
    if c.once_in(2) {
        s.song(&songs[1]);
    } else {
        s.song(&damaged(c, &songs[which]));
    }
}

/// Renders that may be refused, over shorter memories, which are then as before.
fn probe(s: &mut Script, c: &mut Chance, length: u32) {
    s.cut_ram(c.from(0, length as i64) as u32);
    s.cut_rom(c.from(0, length as i64) as u32);
    s.ask_player(0, c.from(0, 4) as u32);
    s.ask_player(c.pick(&[4_097, 0x8000_0000, 0xffff_ffff]), 4);
    s.ask_player(3, c.from(0, 5) as u32);
    s.cut_ram(length);
    s.cut_rom(length);
}
