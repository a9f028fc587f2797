//! The examples that the prover computes by the definitions, written as it reads them, with the numbers that this program
//! finds: crates/promises/proofs/Runs.antt (voices and runs drawn by chance) and crates/voice/proofs/Examples.antt (a
//! small bell). The heads, which name what the definitions are called, stand beside this file.

use super::drawn::{self, Call, Drawn, Row};
use crate::bank::Window;
use crate::key_to_layers::Numbers;
use crate::slots_keys_clock::Engine;
use crate::tables_and_steps::tables;
use crate::voice::{slot_frame, Controls, Stage, Voice};

const MADE_BY: &str =
    "-- Made by: (cd second && cargo build --release --offline) && second/target/release/second make crates\n";

/// The definitions that the prover looks into where it computes what a voice gives, and where it does so for a run.
const OF_FRAMES: &str = "unfolding heard_at after_at after frame frame_at living read_and_moved go_on loud reading behind before interpolated gained left_of right_of gain_of cb_of loss step pitch_total bend_cents step_of folds fold settled ended level_at decay_at release_at from_delay from_attack from_hold from_decay release least_cb above";
const OF_RUNS: &str = "unfolding run fresh paired word_of of_channel held held_key let_off off off_key EventsKeys.note_off pedal_held cut pedal silence controlled control_change lowest_free claim least_by taken seat without renewed start_in EventsStriking.note_on channel_bank any_past class_in rival start start_all cleared struck note_on_number release least_cb above level_at decay_at release_at keys_of marks_of";

// Numbers and lists in the prover's writing

fn integer(number: i64) -> String {
    if number < 0 {
        format!("neg_ℤ (pos {})", -number)
    } else {
        format!("pos {number}")
    }
}

/// Each item with the sign of a list behind it, and the end of the list.
fn list(items: impl Iterator<Item = String>) -> String {
    items.map(|item| item + " ∷ ").collect::<String>() + "[]"
}

// What this program finds

fn numbers(row: &Row) -> Numbers {
    let [delay, class, end, mode, loop_start, loop_end, rate, pitch, pan, attenuation, attack, hold, decay, sustain, release] =
        *row;
    Numbers {
        delay: delay as u64,
        attack: attack as u64,
        hold: hold as u64,
        decay: decay as u64,
        release: release as u64,
        sustain,
        pan,
        class,
        attenuation,
        pitch,
        rate: rate as u64,
        window: Window { rom: false, start: 0, end, loop_start, loop_end, mode },
    }
}

/// A slot in which a voice has just been started.
fn started((channel, key, velocity): (u8, u8, u8), row: &Row) -> Option<Voice> {
    let stage = Stage::Delay { spent: 0 };
    Some(Voice { channel, key, velocity, age: 0, marked: false, stage, place: 0, numbers: numbers(row) })
}

/// Left and right of the slot's next frames.
fn heard(slot: &mut Option<Voice>, samples: &[i16], controls: Controls, frames: usize) -> Vec<i64> {
    let frames = (0..frames).map(|_| slot_frame(slot, tables(), samples, controls));
    frames.flat_map(|(left, right)| [left, right]).collect()
}

fn release(slot: &mut Option<Voice>) {
    slot.as_mut().expect("it sounds where it is released").release(tables());
}

// Runs.antt

pub fn runs() -> String {
    let mut text = "-- Voices and runs of calls drawn by chance, with what the second program says of them; each is computed here by the definitions.\n".to_string();
    text += MADE_BY;
    text += include_str!("Runs.head");
    for (at, drawn) in drawn::voices().iter().enumerate() {
        text += &format!("\nvoice{at} :\n{}\n{OF_FRAMES}\nvoice{at} = refl\n", drawn_voice(drawn));
    }
    for (at, calls) in drawn::runs().iter().enumerate() {
        text += &format!("\nrun{at} :\n{}\n{OF_RUNS}\nrun{at} = refl\n", drawn_run(calls));
    }
    text
}

/// A drawn voice, and the eight frames that are heard of it.
fn drawn_voice(drawn: &Drawn) -> String {
    let Drawn { bend, volume, expression, ref samples, before, .. } = *drawn;
    let controls = Controls { bend, volume, expression };
    let mut slot = started(drawn.struck, &drawn.row);
    heard(&mut slot, samples, controls, before);
    let mut heard_of = format!("after c w {before} (sounds ({}))", voice_record(drawn.struck, &drawn.row));
    if drawn.released {
        release(&mut slot);
        heard_of = format!("sounds (release ({heard_of}).voice)");
    }
    let found = heard(&mut slot, samples, controls, 8);
    [
        format!("    let c : Channel = record {{ program = 0; stored = 0; bank = 0; bend = {bend}; volume = {volume}; expression = {expression}; pedal = 0 }} in"),
        format!("    let w : List ℤ = {} in", list(samples.iter().map(|&sample| integer(sample as i64)))),
        format!("    heard 8 c w ({heard_of}) ≡ {}", list(found.into_iter().map(integer))),
    ]
    .join("\n")
}

/// The voice of a row, in the order of Runs.antt's `mk`.
fn voice_record((channel, key, velocity): (u8, u8, u8), row: &Row) -> String {
    let [delay, class, end, mode, loop_from, loop_to, rate, pitch, pan, attenuation, attack, hold, decay, sustain, release] =
        *row;
    let [pitch, pan, attenuation] = [pitch, pan, attenuation].map(integer);
    format!("mk (Delay {delay}) 0 {channel} {key} {velocity} false {class} {end} {mode} {loop_from} {loop_to} {rate} ({pitch}) ({pan}) ({attenuation}) {attack} {hold} {decay} {sustain} {release}")
}

/// A drawn run, and what it leaves: the word, and of each sounding slot key * 1,000 + velocity, and its marks.
fn drawn_run(calls: &[Call]) -> String {
    let mut engine = Engine::fresh(0);
    let mut lines = String::new();
    for call in calls {
        let done = match *call {
            Call::On(channel, key, velocity, ref layers) => {
                let started: Vec<Numbers> = layers.iter().map(numbers).collect();
                engine.strike(channel, key, velocity, &started);
                let voices = layers.iter().map(|row| voice_record((channel, key, velocity), row));
                format!("note_on (bank ({})) ram ram {channel} {key} {velocity}", list(voices))
            }
            Call::Off(channel, key) => {
                engine.note_off(tables(), channel, key).expect("channel and key are in range");
                format!("note_off {channel} {key}")
            }
            Call::Control(channel, control, value) => {
                engine.control(tables(), channel, control, value).expect("all are in range");
                format!("control {channel} {control} {value}")
            }
        };
        lines += &format!("{done}\n    ∷ ");
    }
    let sounding = || engine.slots.iter().flatten();
    let keys = list(sounding().map(|voice| (voice.key as u32 * 1_000 + voice.velocity as u32).to_string()));
    let marks = list(sounding().map(|voice| (u32::from(voice.released()) + 2 * u32::from(voice.marked)).to_string()));
    format!("    shape (run ({lines}[]) fresh) ≡ (({}), ({keys}), ({marks}))", engine.word())
}

// Examples.antt

/// The five samples that the bell reads, and its channel's controls: as in Examples.head.
const SAMPLES: [i16; 5] = [1_000, -2_000, 30_000, -32_768, 12_345];
const CONTROLS: Controls = Controls { bend: 8_192, volume: 100, expression: 127 };

/// What differs between the bells: mode, the loop's end, frames of delay, attack, hold, decay and release, pitch.
struct Bell(i64, i64, [i64; 5], i64);

impl Bell {
    fn slot(&self) -> Option<Voice> {
        let Bell(mode, loop_end, [delay, attack, hold, decay, release], pitch) = *self;
        let row = [delay, 0, 5, mode, 1, loop_end, 44_100, pitch, 100, -76, attack, hold, decay, 300, release];
        started((0, 60, 100), &row)
    }

    fn text(&self) -> String {
        let Bell(mode, loop_end, [delay, attack, hold, decay, release], pitch) = *self;
        let pitch = integer(pitch);
        format!("sounds (bell {mode} {loop_end} {delay} {attack} {hold} {decay} {release} ({pitch}))")
    }
}

/// An example of that name: lefts and rights of so many frames.
fn heard_example(name: &str, what: &str, frames: usize, slot: &mut Option<Voice>, slot_text: &str) -> String {
    let found = heard(slot, &SAMPLES, CONTROLS, frames).into_iter().map(integer);
    format!(
        "\n-- {what}\n{name} :\n    heard {frames} ({slot_text})\n    ≡ {}\n{OF_FRAMES}\n{name} = refl\n",
        list(found)
    )
}

/// A bell from its start.
fn from_start(name: &str, what: &str, frames: usize, bell: Bell) -> String {
    heard_example(name, what, frames, &mut bell.slot(), &bell.text())
}

/// A bell that is released behind some frames.
fn from_release(name: &str, what: &str, before: usize, frames: usize, bell: Bell) -> String {
    let mut slot = bell.slot();
    heard(&mut slot, &SAMPLES, CONTROLS, before);
    release(&mut slot);
    let text = format!("sounds (release (after channel window {before} ({})).voice)", bell.text());
    heard_example(name, what, frames, &mut slot, &text)
}

/// The place of a bell behind some frames.
fn place_example(name: &str, what: &str, frames: usize, bell: Bell) -> String {
    let mut slot = bell.slot();
    heard(&mut slot, &SAMPLES, CONTROLS, frames);
    let place = slot.expect("it sounds behind its frames").place;
    let text = bell.text();
    format!("\n-- {what}\n{name} : (after channel window {frames} ({text})).voice.place ≡ {place}\n{OF_FRAMES}\n{name} = refl\n")
}

pub fn examples() -> String {
    let head = "-- Examples: what a small voice gives in some frames, or where it stands after them, in numbers of the second program; each is checked by computing.\n";
    let parts = [
        head,
        MADE_BY,
        include_str!("Examples.head"),
        &from_start("looping", "delay, attack, hold, decay, sustain in a loop", 9, Bell(1, 4, [1, 3, 1, 4, 2], 700)),
        &from_release(
            "letting",
            "released in attack, free at the third frame of its release",
            2,
            4,
            Bell(1, 4, [1, 3, 1, 4, 2], 700),
        ),
        &from_start("ending", "no loop: freed at its end, and silent from there", 6, Bell(0, 4, [0, 0, 0, 0, 2], 700)),
        &from_start(
            "slow",
            "no loop, less than a sample a frame: zeros about the window, and held at the lowest number",
            7,
            Bell(0, 4, [0, 0, 0, 0, 2], -481),
        ),
        &place_example("folding", "a loop of two samples and a step of sixteen", 3, Bell(1, 3, [0, 0, 0, 0, 2], 4_800)),
        &from_release(
            "mode3",
            "mode 3 folds until it is released, and then runs to its end",
            3,
            3,
            Bell(3, 4, [0, 0, 0, 4, 5], 700),
        ),
    ];
    parts.concat()
}
