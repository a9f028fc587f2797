//! The second program as a library: one module for each section of document 01 and each change request, the player, the
//! merging of tracks, the structures of a bank, and what reads and makes cases.

pub mod bank;
pub mod bank_admission;
pub mod bells;
pub mod big;
pub mod case;
pub mod fonts;
pub mod key_to_layers;
pub mod make;
pub mod merge_file;
pub mod merges;
pub mod midi_file;
pub mod player;
pub mod real;
pub mod record;
pub mod riff_file;
pub mod slots_keys_clock;
pub mod songs;
pub mod strike;
pub mod tables_and_steps;
pub mod voice;
pub mod wave_file;
pub mod waves;
