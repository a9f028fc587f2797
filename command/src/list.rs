//! thularek list: the presets of a bank.

use crate::font::{Font, Preset};
use crate::output::say;
use crate::stop::Stop;
use crate::words::Form;
use std::ffi::OsString;

const FORM: Form = Form { command: "list", options: &[], flags: &["--json"] };

pub fn run(words: &[OsString]) -> Result<(), Stop> {
    let Some(words) = FORM.read(words)? else { return Ok(()) };
    let [path] = words.files.as_slice() else { return Err(Stop::wrong_use("list takes one bank")) };
    let font = Font::open(path)?;
    say(&match words.has("--json") {
        true => json(font.presets()),
        false => table(font.presets()),
    })
}

fn table(presets: impl Iterator<Item = Preset>) -> String {
    let mut lines = vec![format!("{:>5} {:>7}  {:<20} {:>6}  keys", "bank", "program", "name", "zones")];
    lines.extend(presets.map(|preset| {
        let Preset { bank, program, name, zones, .. } = &preset;
        format!("{bank:>5} {program:>7}  {name:<20} {zones:>6}  {}", keys(&preset))
    }));
    lines.join("\n")
}

/// From the lowest to the highest key of its layers, with the notes that these are.
fn keys(preset: &Preset) -> String {
    match (preset.low, preset.high) {
        (low, high) if high < low => "none".to_string(),
        (low, high) if high == low => format!("{low} ({})", note(low)),
        (low, high) => format!("{low}-{high} ({}-{})", note(low), note(high)),
    }
}

/// A key as a note: 60 is C4.
fn note(key: u8) -> String {
    const NAMES: [&str; 12] = ["C", "C#", "D", "D#", "E", "F", "F#", "G", "G#", "A", "A#", "B"];
    format!("{}{}", NAMES[usize::from(key % 12)], i16::from(key / 12) - 1)
}

fn json(presets: impl Iterator<Item = Preset>) -> String {
    let rows: Vec<String> = presets
        .map(|Preset { bank, program, name, zones, low, high }| {
            let keys = if low <= high { format!("[{low},{high}]") } else { "null".to_string() };
            let name = quoted(&name);
            format!(r#"{{"bank":{bank},"program":{program},"name":{name},"zones":{zones},"keys":{keys}}}"#)
        })
        .collect();
    format!("[{}]", rows.join(","))
}

/// A JSON string. What is no letter has been left out of a name already.
fn quoted(text: &str) -> String {
    format!("\"{}\"", text.replace('\\', "\\\\").replace('"', "\\\""))
}

#[cfg(test)]
mod tests {
    use super::*;

    fn preset(low: u8, high: u8) -> Preset {
        Preset { bank: 128, program: 8, name: "A \"b\" \\".to_string(), zones: 2, low, high }
    }

    #[test]
    fn keys_as_notes() {
        assert_eq!(keys(&preset(48, 84)), "48-84 (C3-C6)");
        assert_eq!(keys(&preset(60, 60)), "60 (C4)");
        assert_eq!(keys(&preset(0, 127)), "0-127 (C-1-G9)");
        assert_eq!(keys(&preset(127, 0)), "none");
    }

    #[test]
    fn rows_of_json() {
        let rows = json([preset(1, 2), preset(127, 0)].into_iter());
        let first = r#"{"bank":128,"program":8,"name":"A \"b\" \\","zones":2,"keys":[1,2]}"#;
        let second = r#"{"bank":128,"program":8,"name":"A \"b\" \\","zones":2,"keys":null}"#;
        assert_eq!(rows, format!("[{first},{second}]"));
        assert_eq!(json(std::iter::empty()), "[]");
    }
}
