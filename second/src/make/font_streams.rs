//! Fonts in their form on the input: all font cases one behind the other, and inputs that are themselves damaged, each by
//! itself.

use super::file_streams::Files;
use super::font_builder::{font, form, Named};
use super::{font_cases, font_chance};
use crate::songs::with_length;

/// All font cases.
pub fn all() -> Vec<Named> {
    [font_cases::all(), font_chance::all()].concat()
}

/// The input of all font cases.
pub fn stream() -> Vec<u8> {
    all().iter().flat_map(|(_, file)| with_length(file)).collect()
}

/// Inputs that end with `bad`, and those that just do not.
pub fn damaged() -> Vec<Named> {
    Files { name: "font", between: vec![], good: font(), refused: form(&[]), byte: 0x52 }.damaged()
}
