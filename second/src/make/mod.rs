//! The maker of the stored cases and their traces, and of the examples that the prover computes; the same bytes on each
//! run.
//!
//! What the cases must reach, and the functions that write the cases for it:
//!
//! - every number of 01's table at both sides of each boundary, and the order of the tests: numbers_of_table (ranges,
//!   velocity_zero, order_of_note_on, memory_edge_of_note_on, output_lengths, distances, order_of_render,
//!   memory_edge_of_render, listing), layer_cases::counts for 4, layer_cases::which_preset for 3
//! - each admission rule broken alone, at its edge: admission (chunks, records, indexes, numbers, rates, windows, zones,
//!   long_banks)
//! - 0, 1, 32 and 33 layers: layer_cases::counts; instruments named again that give none: instruments_that_give_nothing
//! - global, ignored and repeated zones and generators: layer_cases::zone_kinds; ranges in every place:
//!   layer_cases::ranges_in_places, range_edges, local_and_global_ranges
//! - preset values added: value_cases::adding; instruments only: instruments_only; held totals: held_totals, key_times
//!   (39 and 40); times and pitch at their limits: times, long_times, longest_delay_and_hold, pitch_limits; attenuation:
//!   attenuation, attenuation_and_envelope; 46 and 47: fixed_key_and_velocity, struck_or_fixed
//! - taking by released, velocity, age, with more layers than released voices: key_cases (taking_..); classes across
//!   channels: classes, full_with_classes, class_refusals
//! - pedal, 64 crossing, 123 and 120 with the pedal down: key_cases (pedal, pedal_crossing, all_notes_off, all_sound_off)
//! - modes 0 to 3: voice_cases::modes, mode_three_release; release in every stage: release_in_every_stage,
//!   release_in_slow_attack, release_lengths; loops shorter than the step: short_loops; windows of one sample:
//!   one_sample_windows; RAM and ROM: memories; coarse offsets: coarse_offsets
//! - attack, hold, decay of no frames: stages_of_no_frames; sustain 0 and 1,000: sustain_values
//! - negative samples and rounding: rounding, run_examples, mix_is_held
//! - clock wrap: numbers_of_table::clock_wrap; distances 0, 1, 4,096, 4,097, 2^31 - 1, 2^31, one back: distances
//! - the October night: key_cases::october_night, october_night_full
//! - banks and runs from fixed seeds, damaged banks: chance_cases
//! - damaged case files: bad_cases
//! - recordings: every command, refused renders, outputs longer than their frames, both ends and about 0, a fresh engine,
//!   a long memory: record_cases
//! - the reader's opening and its rows (i, j), and each fault's kind and place (d), over every bank that a case examines:
//!   listing_cases; faults of two kinds, and several of one kind: fault_cases
//! - how many voices sound (u): count_cases
//! - gains, the panel's levels and least attenuations at both sides of each 200 cB, and of 1,440 (M-105): gain_cases
//! - the four points at both sides of each edge of a window and a loop, every q, both ends of the range, rounding below 0,
//!   modes 1 and 3 before and after release, loops of one to four samples and of 15 to 129 steps, at steps from low to the
//!   highest, in attacks, decays, releases, bends and pans (M-100): point_cases
//! - the player: songs to their end, every kind of event, hundreds on one frame, the edges of a render, a cut at every
//!   frame, starts over songs, refused starts, stops, the clock's wrap, 5 to 8 while events are due, events that the engine
//!   refuses with 1, 3, 4 and 8, direct calls, events that were missed: player_cases; files that are lent in the midst of
//!   a song: player_file_cases; by chance: player_chance; damaged: bad_cases::of_player
//! - the numbers of each layer's voice (h): strike_cases; values of the tables: number_lines
//! - what the prover computes by the definitions: proof_examples, over the voices and runs of drawn
//!
//! What the songs must reach (M-101):
//!
//! - 65,536, 65,537 and 66,000 bytes, and 9 at 65,536 before all else: song_cases::lengths_of_files
//! - the head cut off at every byte, its length below, at and above 6 and past the file's end, each of its fields at both
//!   sides of its edges, and the first of several faults: song_cases (heads_cut_off, lengths_of_heads, fields_of_heads,
//!   order_of_fields)
//! - alien chunks (no byte, an odd number, a second head, nearly a track's name), chunks past the file's end, names and
//!   lengths cut off, empty tracks, bytes behind the end of track: song_cases (chunks_in_front, chunks_past_the_end,
//!   chunks_cut_off, names_of_chunks, lengths_of_tracks, behind_the_track)
//! - quantities of one to five bytes and cut off, as delta times and as lengths: track_cases (delta_times,
//!   delta_times_cut_off, lengths_in_events)
//! - every kind of channel event with and without running status, data bytes at 80 hex in each place and missing:
//!   track_cases (channel_events, data_bytes, data_bytes_missing); F1 to F6 and F8 to FE: statuses_of_no_event
//! - running status over nothing, and over meta and system exclusive events: track_cases (running_status,
//!   running_status_ended)
//! - every meta type, 80 hex and above too, every byte in F0 and F7, the end of track early, late, missing and with bytes
//!   of its own: track_cases (meta_types, exclusive_bytes, ends_of_track)
//! - tempos from 0 to 16,777,215, of 0 to 200 bytes, and several at one tick: song_time_cases (tempos, lengths_of_tempos,
//!   tempos_at_one_tick)
//! - frames at the edge of rounding: song_time_cases (edges_of_frames, rounding_is_not_carried)
//! - U at its limit, one below and one above, by delta and by tempo, for every kind of event: song_time_cases (limits,
//!   far_past_the_limit, at_the_limit_for_long)
//! - each fault of a track alone, and with each other behind it; 9 before 11 at one place; a song cut off at every byte:
//!   song_fault_cases
//! - songs from fixed seeds, whole and damaged: song_chance, over song_damage
//! - inputs that are themselves damaged: song_streams, over file_streams
//!
//! What the waves must reach (M-107):
//!
//! - no number and one, even and odd counts, rooms around what a file needs and around its heading: wave_write_cases
//!   (counts, rooms); as many numbers as there is room for: most_numbers
//! - k at the edges of 256 and of the range, at every power of two and its neighbours, on the left and on the right, and
//!   zeros of both signs: wave_write_cases (whole_numbers, steps_of_levels)
//! - every kind of number that is none, of both signs, in front, in the middle and at the end, and those half a step above
//!   each of these k: wave_write_cases (other_numbers, one_bit_off)
//! - 13 before 15: wave_write_cases (other_numbers, several_faults)
//! - files of every length up to three frames and a few bytes longer, and headings that name another length:
//!   wave_read_cases (lengths, lengths_that_the_heading_names)
//! - each byte of the heading and each of its fields wrong, and what other writers make: wave_read_cases (one_byte_off,
//!   fields, fields_the_other_way_round, other_kinds_of_file)
//! - a reader's rooms, and 28 before 15: wave_read_cases (rooms, wrong_and_no_room); data at its extremes: data; the
//!   longest files: largest
//! - what is written is read and written again: wave_read_cases::what_was_written
//! - numbers, files and rooms by chance: wave_chance
//! - inputs that are themselves damaged: wave_streams
//!
//! What the fonts must reach:
//!
//! - beginnings cut off at every byte and with each letter wrong, sizes of the form around what the file has, bytes behind
//!   the form: font_cases (beginnings, sizes_of_forms, behind_the_form)
//! - heads cut off at every byte, chunks and lists past the end of what holds them and just not, lists with no room for
//!   their type, in the form, in the data list and in lists that are not walked: font_cases (chunks_cut_off,
//!   sizes_of_chunks, sizes_of_lists, what_is_not_walked)
//! - odd sizes with and without a pad byte, at the end of what holds them and not: font_cases::pad_bytes
//! - parts in every order, other chunks and lists in every place, the right names in wrong places, several of a kind:
//!   font_cases (orders, others_stepped_over, names_in_other_places, several_of_a_kind)
//! - each part missing, and several faults together: font_cases (missing_parts, several_faults)
//! - parts of no byte and of more than 65,536: font_cases::sizes_of_parts
//! - a font cut off at every byte and changed at every byte: font_cases (cut_at_every_byte, one_byte_off); by chance:
//!   font_chance
//! - inputs that are themselves damaged: font_streams, over file_streams
//!
//! What the merges must reach (songs of format 1):
//!
//! - a file cut off at every byte, lengths of the head around 6 and past the file's end, every format with every number of
//!   tracks and every division at both sides of their edges: merge_cases (cut_at_every_byte, lengths_of_heads,
//!   fields_of_heads, letters_of_names)
//! - other chunks in every place, chunks past the file's end, tracks missing, bytes behind each end of track and behind the
//!   last track: merge_cases (chunks_between, chunks_past_the_end, tracks_missing, behind_the_tracks); 255, 256 and 257
//!   tracks: numbers_of_tracks; the longest files: long_files
//! - rooms around what is needed, none, and refusals with and without room: merge_cases (rooms, rooms_of_refused)
//! - each fault of a track in the first, the middle and the last, chunks shorter than their tracks: merge_track_cases
//!   (faults_in_each_track, chunks_that_hold_less); running status at a track's start, ended in one track and not in the
//!   other, every status: running_status, every_status
//! - every kind of event at the hour and a tick past it in each track, U at its limit by other divisions and tempos, tempos
//!   of other tracks and at one tick: merge_time_cases (hours, limits, tempos_of_other_tracks); ticks past 32 bits:
//!   far_past_the_limit
//! - several late events of which the first in the file is not the first in the sequence, late events in front of a fault
//!   and behind it, tempos in front of it and behind: merge_time_cases (several_late, late_and_broken, tempos_and_faults)
//! - equal ticks in several tracks, what is left out, what ends running status, tempos of more than three bytes, delta
//!   times at the edges of one to four bytes, ends at different ticks: merge_written_cases (equal_ticks, left_out, running,
//!   tempos, deltas, ends)
//! - gaps at the longest delta time, its multiples and one more, in front of every kind of event, taken apart by other
//!   tracks, and what runs behind a bridge: merge_written_cases (gaps, gaps_in_parts); all of these merged again
//! - songs of several tracks by chance, whole and changed: merge_chance
//! - inputs that are themselves damaged: merge_streams, over file_streams

mod admission;
pub mod bad_cases;
pub mod bank_builder;
pub mod chance;
pub mod chance_cases;
mod count_cases;
mod drawn;
mod fault_cases;
mod file_streams;
pub mod font_builder;
mod font_cases;
pub mod font_chance;
pub mod font_streams;
mod gain_cases;
mod key_cases;
mod layer_cases;
mod listing_cases;
pub mod merge_builder;
mod merge_cases;
pub mod merge_chance;
pub mod merge_streams;
mod merge_time_cases;
mod merge_track_cases;
mod merge_written_cases;
mod number_lines;
mod numbers_of_table;
pub mod player_cases;
pub mod player_chance;
mod player_file_cases;
mod point_cases;
mod proof_examples;
pub mod record_cases;
pub mod script;
pub mod song_builder;
mod song_cases;
pub mod song_chance;
pub mod song_damage;
mod song_fault_cases;
pub mod song_streams;
mod song_time_cases;
mod strike_cases;
mod track_cases;
mod value_cases;
mod voice_cases;
pub mod wave_builder;
pub mod wave_chance;
mod wave_read_cases;
pub mod wave_streams;
mod wave_write_cases;

use crate::{case, fonts, merges, record, songs, waves};
use script::Script;
use std::fs;
use std::io;
use std::path::Path;

/// Writes drive/, record/, songs/, waves/, fonts/, merges/, numbers/ and the examples of promises/ and voice/ into the directory.
pub fn write_all(directory: &Path) -> io::Result<()> {
    let damaged = [bad_cases::all(case::MEMORY_ROOM), bad_cases::of_player()].concat();
    write_program(&directory.join("drive"), |case, trace| case::play(case, trace), &all_cases().bytes, damaged)?;
    write_program(
        &directory.join("record"),
        file_or_nothing,
        &record_cases::case(),
        bad_cases::all(record::MEMORY_ROOM),
    )?;
    write_program(
        &directory.join("songs"),
        |files, lines| songs::play(files, lines),
        &song_streams::stream(),
        song_streams::damaged(),
    )?;
    write_program(
        &directory.join("waves"),
        |commands, lines| waves::play(commands, lines),
        &wave_streams::stream(),
        wave_streams::damaged(),
    )?;
    write_program(
        &directory.join("fonts"),
        |files, lines| fonts::play(files, lines),
        &font_streams::stream(),
        font_streams::damaged(),
    )?;
    write_program(
        &directory.join("merges"),
        |files, lines| merges::play(files, lines),
        &merge_streams::stream(),
        merge_streams::damaged(),
    )?;
    let numbers = number_lines::lines();
    write_file(&directory.join("numbers/stdout"), numbers.as_bytes())?;
    write_file(&directory.join("promises/proofs/Runs.antt"), proof_examples::runs().as_bytes())?;
    write_file(&directory.join("voice/proofs/Examples.antt"), proof_examples::examples().as_bytes())
}

/// The recording of a case; nothing where the case is damaged.
fn file_or_nothing(case: &[u8], file: &mut Vec<u8>) -> io::Result<()> {
    file.extend(record::file(case).unwrap_or_default());
    Ok(())
}

/// What reads a program's input and writes its output.
type Play = fn(&[u8], &mut Vec<u8>) -> io::Result<()>;

/// A program's cases with what playing them gives: its input, and the damaged ones each by itself.
fn write_program(directory: &Path, play: Play, stdin: &[u8], damaged: Vec<(String, Vec<u8>)>) -> io::Result<()> {
    write_case(directory, play, "stdin", "stdout", stdin)?;
    for (name, bytes) in damaged {
        let [case, trace] = ["case", "trace"].map(|end| format!("{name}.{end}"));
        write_case(&directory.join("bad"), play, &case, &trace, &bytes)?;
    }
    Ok(())
}

fn write_case(directory: &Path, play: Play, case: &str, trace: &str, bytes: &[u8]) -> io::Result<()> {
    let mut played = Vec::new();
    play(bytes, &mut played)?;
    write_file(&directory.join(case), bytes)?;
    write_file(&directory.join(trace), &played)
}

fn write_file(path: &Path, bytes: &[u8]) -> io::Result<()> {
    if let Some(parent) = path.parent() {
        fs::create_dir_all(parent)?;
    }
    fs::write(path, bytes)
}

/// All cases, one behind the other: those of the form that others may use, then those with letters of our own.
pub fn all_cases() -> Script {
    let mut script = Script::default();
    numbers_of_table::write(&mut script);
    admission::write(&mut script);
    layer_cases::write(&mut script);
    value_cases::write(&mut script);
    voice_cases::write(&mut script);
    key_cases::write(&mut script);
    chance_cases::write(&mut script);
    listing_cases::write(&mut script);
    strike_cases::write(&mut script);
    fault_cases::write(&mut script);
    count_cases::write(&mut script);
    gain_cases::write(&mut script);
    point_cases::write(&mut script);
    player_cases::write(&mut script);
    player_file_cases::write(&mut script);
    player_chance::write(&mut script);
    script
}
