//! A recording of a song on a bank: its frames block by block, each event at its frame, up to its end.

use crate::font::Font;
use crate::misses::Misses;
use crate::output::{go_on, Place, Sink};
use crate::progress::Bar;
use crate::song::{Event, Song};
use crate::stop::{counted, seconds, Stop};
use crate::thularek::{self, Thularek};

/// The most frames of one call.
const MOST: u32 = 4_096;
const HEADING: usize = 44;

/// How a song is recorded.
#[derive(Clone, Copy)]
pub struct Manner {
    /// The most frames behind the song's end.
    pub tail: u32,
    /// In tenths of a dB.
    pub attenuation: u16,
}

/// A recording that goes on.
struct Take<'a> {
    font: &'a Font,
    song: &'a Song,
    manner: Manner,
    state: Thularek,
    sums: Vec<i32>,
    /// The clock value at which the song was over.
    over: Option<u32>,
    told: Told,
}

/// What is told of a recording at its end.
#[derive(Default)]
pub struct Told {
    pub frames: u64,
    /// Frames in which a sum was held at full scale, and the largest sum before it was lowered.
    held: u64,
    loudest: u32,
    /// The largest of the numbers that were written, without its sign.
    peak: u16,
    misses: Misses,
    /// Voices that still sound where the tail ends.
    cut: u32,
}

impl<'a> Take<'a> {
    fn new(font: &'a Font, song: &'a Song, manner: Manner) -> Result<Take<'a>, Stop> {
        let mut state = Thularek::new();
        must(state.song_start(&song.bytes), &song.name)?;
        let sums = vec![0; 2 * MOST as usize];
        Ok(Take { font, song, manner, state, sums, over: None, told: Told::default() })
    }

    /// The bytes of the next frames, at the front of `out`: how many bytes; 0 at the recording's end.
    fn next(&mut self, out: &mut [u8]) -> Result<usize, Stop> {
        while !self.state.song_is_over() {
            match self.state.song_gap(MOST) {
                0 => self.step(),
                frames => return self.frames(frames, out),
            }
        }
        match self.frames_behind() {
            0 => Ok(0),
            frames => self.frames(frames, out),
        }
    }

    /// The event that is due acts.
    fn step(&mut self) {
        self.told.misses.note(&self.state, self.font, &Event::next_of(&self.state));
        self.state.song_step(&self.song.bytes, self.font.bank(), self.font.ram(), &[]);
    }

    /// How many frames come next where the song is over: none where no voice sounds or the tail has passed.
    fn frames_behind(&mut self) -> u32 {
        let clock = self.state.clock();
        let behind = clock - *self.over.get_or_insert(clock);
        self.told.cut = self.state.voice_count();
        match MOST.min(self.manner.tail - behind) {
            _ if self.state.is_silent() => 0,
            frames if self.is_silent_after(frames) => self.last_frames(frames),
            frames => frames,
        }
    }

    /// Whether so many frames on no voice sounds any more.
    fn is_silent_after(&mut self, frames: u32) -> bool {
        let mut trial = self.state.clone();
        let to = trial.clock() + frames;
        trial.sums(self.font.ram(), &[], &mut self.sums, to) == 0 && trial.is_silent()
    }

    /// The fewest frames after which no voice sounds, where after so many none does: the recording ends there, however it is
    /// cut into blocks.
    fn last_frames(&mut self, enough: u32) -> u32 {
        let (mut too_few, mut enough) = (0, enough);
        while too_few + 1 < enough {
            let between = (too_few + enough) / 2;
            match self.is_silent_after(between) {
                true => enough = between,
                false => too_few = between,
            }
        }
        enough
    }

    /// So many frames, as bytes.
    fn frames(&mut self, frames: u32, out: &mut [u8]) -> Result<usize, Stop> {
        let sums = &mut self.sums[..2 * frames as usize];
        must(self.state.sums(self.font.ram(), &[], sums, self.state.clock() + frames), &self.font.name)?;
        let (number, held, loudest) = thularek::wave_sums(sums, self.manner.attenuation, out);
        must(number, &self.song.name)?;
        let size = 4 * frames as usize;
        self.told.frames += u64::from(frames);
        self.told.held += u64::from(held);
        self.told.loudest = self.told.loudest.max(loudest);
        let numbers = out[..size].chunks_exact(2).map(|two| i16::from_le_bytes([two[0], two[1]]).unsigned_abs());
        self.told.peak = numbers.max().unwrap_or(0).max(self.told.peak);
        Ok(size)
    }
}

fn must(number: u32, name: &str) -> Result<(), Stop> {
    match number {
        0 => Ok(()),
        _ => Err(Stop::of(name, thularek::message(number))),
    }
}

/// Records a song, each block handed to `put`.
fn take(
    font: &Font,
    song: &Song,
    manner: Manner,
    bar: &mut Bar,
    put: &mut dyn FnMut(&[u8]) -> Result<(), Stop>,
) -> Result<Told, Stop> {
    let mut take = Take::new(font, song, manner)?;
    let mut out = vec![0; 4 * MOST as usize];
    loop {
        go_on()?;
        match take.next(&mut out)? {
            0 => return Ok(take.told),
            size => put(&out[..size])?,
        }
        bar.at(take.told.frames);
    }
}

fn heading(frames: u64, name: &str) -> Result<[u8; HEADING], Stop> {
    let mut bytes = [0; HEADING];
    must(thularek::wave_heading(frames, &mut bytes), name)?;
    Ok(bytes)
}

/// Records a song to a place. A file gets its heading when all its frames are there. Where one cannot go back, the song is
/// played twice: the heading in front says how many frames there are.
pub fn record(font: &Font, song: &Song, manner: Manner, place: &Place) -> Result<Told, Stop> {
    let mut bar = Bar::new(song.length());
    if place.is_file() {
        let mut told = Told::default();
        place.write(|sink| {
            sink.put(&[0; HEADING])?;
            told = take(font, song, manner, &mut bar, &mut |bytes| sink.put(bytes))?;
            sink.put_in_front(&heading(told.frames, &place.name())?)
        })?;
        return Ok(told);
    }
    let told = take(font, song, manner, &mut bar, &mut |_| Ok(()))?;
    place.write(|sink: &mut Sink| {
        sink.put(&heading(told.frames, &place.name())?)?;
        take(font, song, manner, &mut bar, &mut |bytes| sink.put(bytes)).map(|_| ())
    })?;
    Ok(told)
}

impl Told {
    /// What a person wants to know of a recording.
    pub fn lines(&self, name: &str) -> Vec<String> {
        let mut lines = vec![format!("{name}: {}, {}", seconds(self.frames), self.level())];
        if self.held > 0 {
            let gain = thularek::attenuation_for(self.loudest);
            lines.push(format!(
                "in {} the sum was held at full scale; --gain -{}.{} would have kept it below",
                counted(self.held, "frame", "frames"),
                gain / 10,
                gain % 10
            ));
        }
        if self.cut > 0 {
            let voices = counted(u64::from(self.cut), "voice", "voices");
            lines.push(format!("{voices} still sounded where the recording ends (--tail makes it longer)"));
        }
        lines.extend(self.misses.lines());
        lines
    }

    fn level(&self) -> String {
        match self.peak {
            0 => "silence".to_string(),
            peak => format!(
                "peak {}.{:03} of full scale",
                peak / 32_767,
                u32::from(peak.min(32_767)) % 32_767 * 1_000 / 32_767
            ),
        }
    }
}
