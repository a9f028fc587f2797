//! SoundFont files: where the bank and the samples lie among the chunks of a RIFF form, or the first fault.
//!
//! The form is first taken apart into a list of chunks, as far as they are whole, and so is its first sdta list. Only then
//! is it asked which chunks there are. SoundFont 2.01 has no chunk for samples in ROM.

use std::ops::Range;

/// The numbers of a refusal.
pub const NO_FORM: u32 = 40;
pub const PAST_ITS_HOLDER: u32 = 41;
pub const MISSING: u32 = 42;

/// Why a file is refused. The place is 0 or 8 for 40; where the chunk at fault begins for 41; where the list ends that has
/// no smpl chunk, or the form that has no such list or no pdta list, for 42.
#[derive(Clone, Copy, Debug, PartialEq, Eq)]
pub struct Fault {
    pub number: u32,
    pub place: usize,
}

/// Where the body of the pdta list lies, behind its type, and that of the smpl chunk, in bytes: an odd one at its end is
/// no sample.
#[derive(Clone, Debug, PartialEq, Eq)]
pub struct Parts {
    pub bank: Range<usize>,
    pub samples: Range<usize>,
}

/// A whole chunk. A list's type is no part of its body here.
struct Chunk<'a> {
    name: &'a [u8],
    kind: Option<&'a [u8]>,
    body: Range<usize>,
}

impl Chunk<'_> {
    fn is_list(&self, kind: &[u8; 4]) -> bool {
        self.kind == Some(kind)
    }
}

/// Chunks in their order, and the place of the first that is not whole.
#[derive(Default)]
struct Walked<'a> {
    chunks: Vec<Chunk<'a>>,
    broken: Option<usize>,
}

/// The parts of a file, or its first fault. Each fault of the sdta list lies in front of any fault of the form: a form is
/// walked no further than its own first fault.
pub fn read(file: &[u8]) -> Result<Parts, Fault> {
    let form = form(file)?;
    let outer = walk(&file[..form.end], form.start);
    let data = outer.chunks.iter().find(|chunk| chunk.is_list(b"sdta"));
    let inner = data.map_or(Walked::default(), |list| walk(&file[..list.body.end], list.body.start));
    if let Some(place) = inner.broken.or(outer.broken) {
        return Err(Fault { number: PAST_ITS_HOLDER, place });
    }
    let missing = |place: usize| Fault { number: MISSING, place };
    let samples = inner.chunks.iter().find(|chunk| chunk.name == b"smpl");
    let samples = samples.ok_or(missing(data.map_or(form.end, |list| list.body.end)))?;
    let bank = outer.chunks.iter().find(|chunk| chunk.is_list(b"pdta")).ok_or(missing(form.end))?;
    Ok(Parts { bank: bank.body.clone(), samples: samples.body.clone() })
}

/// Where the chunks of the form lie. What is behind it in the file has no part in it.
fn form(file: &[u8]) -> Result<Range<usize>, Fault> {
    for (place, four) in [(0, b"RIFF"), (8, b"sfbk")] {
        if file.get(place..place + 4) != Some(four) {
            return Err(Fault { number: NO_FORM, place });
        }
    }
    let size = size_at(&file[4..8]);
    if size < 4 || size > file.len() - 8 {
        return Err(Fault { number: PAST_ITS_HOLDER, place: 0 });
    }
    Ok(12..8 + size)
}

fn size_at(four: &[u8]) -> usize {
    four.iter().rev().fold(0, |size, byte| size << 8 | *byte as usize)
}

/// The chunks from a place to the end of what holds them. A pad byte that is missing at that end is forgiven.
fn walk(holder: &[u8], start: usize) -> Walked<'_> {
    let mut walked = Walked::default();
    let mut at = start;
    while at < holder.len() {
        let Some((chunk, end)) = chunk(holder, at) else {
            walked.broken = Some(at);
            break;
        };
        walked.chunks.push(chunk);
        let is_odd = (end - at) % 2 == 1;
        at = if is_odd { end + 1 } else { end };
    }
    walked
}

/// The chunk that begins here and where its body ends; nothing where its head, its type or its body is cut off.
fn chunk(holder: &[u8], at: usize) -> Option<(Chunk<'_>, usize)> {
    let head = holder.get(at..at + 8)?;
    let (name, size) = (&head[..4], size_at(&head[4..]));
    let body = at + 8..at + 8 + size;
    let bytes = holder.get(body.clone())?;
    let end = body.end;
    if name == b"LIST" {
        let kind = bytes.get(..4)?;
        return Some((Chunk { name, kind: Some(kind), body: body.start + 4..end }, end));
    }
    Some((Chunk { name, kind: None, body }, end))
}
